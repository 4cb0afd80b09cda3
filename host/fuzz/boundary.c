/*
 * A fuzz target over the C boundary, for libFuzzer: the input's first byte chooses between plans, floors and tables,
 * the rest is what a call is lent, and every answer and buffer is held to the second solver of host/tests. Buffers
 * stand against pages that cannot be touched. The library is finished machine code and bears no counters, so what
 * guides the search is this file and the second solver.
 */
#include <stdio.h>
#include <stdlib.h>
#include <string.h>
#include "lent.h"
#include "second.h"

#define SMALL 24    /* the longest side that is held to the second solver, which is slow */
#define FEW 2400    /* bytes: any buffer of such a floor */

typedef struct {
    const uint8_t *bytes;
    size_t left;
} input;

/* each in pages that are not much larger than it: what is around a buffer is written and read at each call */
enum { MAP, TABLE, LEGS, BUFFERS };
static lent few_bytes[BUFFERS], many_bytes[BUFFERS], *held[BUFFERS];

static void hold(int held, const char *what)
{
    if (!held) {
        fprintf(stderr, "FAILED: %s\n", what);
        abort();
    }
}

static size_t next_byte(input *in)
{
    if (in->left == 0)
        return 0;
    in->left--;
    return *in->bytes++;
}

/* a side: mostly small, else any of 16 bits */
static size_t next_side(input *in)
{
    size_t side = next_byte(in);
    return side < 200 ? side % SMALL + 1 : side < 240 ? side - 110 : side * 256 + next_byte(in) - 240 * 256;
}

/* a number near a side, or far past it */
static size_t next_place(input *in, size_t side)
{
    size_t place = next_byte(in);
    return place < 250 && side != 0 ? place % side : place == 255 ? (size_t)-1 : side + place - 250;
}

/* a lent buffer with what is left of the input, over and over */
static uint8_t *next_bytes(input *in, size_t buffer, size_t length)
{
    uint8_t *bytes;
    size_t i;
    held[buffer] = length <= FEW ? &few_bytes[buffer] : &many_bytes[buffer];
    bytes = lent_at(held[buffer], length, length % 2 == 0);
    for (i = 0; i < length; i++)
        bytes[i] = (uint8_t)(in->left == 0 ? 0 : in->bytes[i % in->left]);
    lent_keep(held[buffer]);
    return bytes;
}

/* maps and plans are only read, and nothing around a buffer is touched */
static void hold_kept(void)
{
    hold(lent_guards(held[MAP]) && lent_same(held[MAP]), "what is read keeps its bytes");
    hold(lent_guards(held[TABLE]) && lent_guards(held[LEGS]), "nothing around a buffer is touched");
}

static void try_plan(input in)
{
    size_t length = in.left <= 4200 ? in.left : 4200, k;
    uint8_t *bytes = next_bytes(&in, MAP, length);
    ways_plan_answer plan = ways_read_plan(bytes, length), second = second_plan(bytes, length);
    hold(memcmp(&plan, &second, sizeof plan) == 0, "a plan");
    for (k = 0; plan.number == 0 && k < plan.queries; k++) {
        ways_query_answer query = ways_query(bytes, length, plan.first_query + WAYS_QUERY_BYTES * k);
        const uint8_t *content = bytes + plan.first_query + WAYS_QUERY_BYTES * k + 4;
        hold(query.number == 0 && query.start_column == content[0] + 256u * content[1]
             && query.goal_row == content[6] + 256u * content[7], "a query");
    }
    hold(ways_query(bytes, length, length < 12 ? 0 : length - 11).number == WAYS_PLAN_BROKEN, "a query past the end");
    hold_kept();
}

/* what a call with a floor is lent */
typedef struct {
    second_floor floor;
    size_t from_column, from_row, column, row, entries, legs_length;
} asked;

static asked next_asked(input *in)
{
    asked a;
    size_t wrong = next_byte(in);
    a.floor.width = next_side(in);
    a.floor.height = next_side(in);
    a.from_column = next_place(in, a.floor.width);
    a.from_row = next_place(in, a.floor.height);
    a.column = next_place(in, a.floor.width);
    a.row = next_place(in, a.floor.height);
    a.floor.map_length = WAYS_MAP_BYTES(a.floor.width, a.floor.height);
    a.entries = WAYS_TABLE_ENTRIES(a.floor.width, a.floor.height);
    if (a.floor.map_length > 4096)
        a.floor.map_length = 4096;
    if (a.entries > WAYS_LARGEST_TABLE)
        a.entries = WAYS_LARGEST_TABLE;
    a.floor.map_length += wrong % 32 == 31;
    a.entries -= wrong % 32 == 30 && a.entries > 0;
    a.legs_length = wrong % 32 == 29 ? wrong / 32 : a.entries <= FEW / 4 ? 2 * a.entries : WAYS_LARGEST_LEGS;
    return a;
}

/* the map: bits past the width are mostly cleared, and places mostly opened */
static void next_map(input *in, asked *a)
{
    size_t clean = next_byte(in), row_bytes = WAYS_ROW_BYTES(a->floor.width), row;
    uint8_t *bytes = next_bytes(in, MAP, a->floor.map_length);
    if (clean % 16 != 15 && a->floor.width % 8 != 0)
        for (row = 1; row <= a->floor.height && row * row_bytes <= a->floor.map_length; row++)
            bytes[row * row_bytes - 1] &= (uint8_t)((1u << (a->floor.width % 8)) - 1);
    if (clean % 16 < 12 && a->floor.map_length == WAYS_MAP_BYTES(a->floor.width, a->floor.height)) {
        ways_unblock(bytes, a->floor.width, a->floor.height, a->from_column, a->from_row);
        ways_unblock(bytes, a->floor.width, a->floor.height, a->column, a->row);
    }
    a->floor.map = bytes;
    lent_keep(held[MAP]);
}

#define OF_TABLE (1u << 1 | 1u << 2 | 1u << 3 | 1u << 4 | 1u << 6 | 1u << 8)
#define OF_ROUTE 0x1FEu
#define OF_ROOM (1u << 1 | 1u << 2 | 1u << 3 | 1u << 5 | 1u << 7)

static size_t refused(const asked *a, unsigned of)
{
    return second_refused(&a->floor, of, a->from_column, a->from_row, a->column, a->row, a->entries);
}

/* a route's legs against the second solver's headings; the table is right */
static void hold_route(const asked *a, const ways_route_answer *route, const uint8_t *bytes)
{
    static uint8_t headings[WAYS_LARGEST_TABLE];
    size_t w = a->floor.width, i, k, at = 0;
    long steps = second_route(&a->floor, a->from_row * w + a->from_column, a->row * w + a->column, headings);
    if (steps < 0 || route->number == WAYS_LEGS_SHORT) {
        hold(route->number == (steps < 0 ? WAYS_NO_WAY : WAYS_LEGS_SHORT), "no way");
        hold(steps < 0 || 2 * route->place > a->legs_length, "a leg buffer that is too short");
        hold(lent_same(held[LEGS]), "no way leaves the legs as they were");
        return;
    }
    hold(route->number == 0 && route->straight + route->diagonal == (size_t)steps, "a route's length");
    for (i = 0; i < route->legs; i++) {
        hold(i == 0 || bytes[2 * i] != bytes[2 * i - 2], "a leg that cannot be longer");
        for (k = 0; k < bytes[2 * i + 1]; k++, at++)
            hold(at < (size_t)steps && headings[at] == bytes[2 * i], "a route's legs");
    }
    hold(at == (size_t)steps, "all of a route's legs");
}

static void try_floor(input in)
{
    static uint32_t second[WAYS_LARGEST_TABLE];
    asked a = next_asked(&in);
    ways_route_answer route;
    ways_room_answer room, other;
    uint32_t *t;
    uint8_t *l;
    int small = a.floor.width <= SMALL && a.floor.height <= SMALL;
    next_map(&in, &a);
    t = (uint32_t *)(void *)next_bytes(&in, TABLE, 4 * a.entries);
    l = next_bytes(&in, LEGS, a.legs_length);
    route = ways_find_route(a.floor.width, a.floor.height, a.floor.map, a.floor.map_length, a.from_column, a.from_row,
                            a.column, a.row, t, a.entries, l, a.legs_length);
    hold_kept();
    if (refused(&a, OF_ROUTE) != 0) {
        hold(route.number == refused(&a, OF_ROUTE) && route.place == 0, "a route's refusal");
        hold(lent_same(held[TABLE]) && lent_same(held[LEGS]), "a refusal leaves everything as it was");
    } else if (small) {
        second_fill(&a.floor, a.row * a.floor.width + a.column, second);
        hold(memcmp(t, second, 4 * a.entries) == 0, "a route leaves the table filled");
        hold_route(&a, &route, l);
    } else
        hold(ways_check(a.floor.width, a.floor.height, a.floor.map, a.floor.map_length, a.column, a.row, t,
                        a.entries).number == 0, "a filled table is right");
    memset(&other, 0, sizeof other);
    other.number = refused(&a, OF_ROOM);
    if (other.number == 0)
        other = second_room(&a.floor, a.from_column, a.from_row);
    room = ways_room(a.floor.width, a.floor.height, a.floor.map, a.floor.map_length, a.from_column, a.from_row);
    hold(memcmp(&room, &other, sizeof room) == 0, "a room");
    hold_kept();
}

/* a filled table with some entries changed, or any table at all */
static void try_table(input in)
{
    asked a = next_asked(&in);
    ways_check_answer check;
    ways_route_answer route;
    uint32_t *t;
    uint8_t *l;
    size_t first, changes;
    next_map(&in, &a);
    changes = next_byte(&in);
    t = (uint32_t *)(void *)next_bytes(&in, TABLE, 4 * a.entries);
    if (changes < 200)
        ways_fill(a.floor.width, a.floor.height, a.floor.map, a.floor.map_length, a.column, a.row, t, a.entries);
    for (changes %= 4; changes > 0 && a.entries > 0; changes--) {
        size_t cell = (next_byte(&in) * 256 + next_byte(&in)) % a.entries;
        t[cell] += (uint32_t)(next_byte(&in) << (next_byte(&in) % 4 * 8));
    }
    lent_keep(held[TABLE]);
    l = next_bytes(&in, LEGS, a.legs_length);
    check = ways_check(a.floor.width, a.floor.height, a.floor.map, a.floor.map_length, a.column, a.row, t, a.entries);
    route = ways_route_from_table(a.floor.width, a.floor.height, a.floor.map, a.floor.map_length, a.from_column,
                                  a.from_row, a.column, a.row, t, a.entries, l, a.legs_length);
    hold_kept();
    hold(lent_same(held[TABLE]), "a table is only read");
    first = refused(&a, OF_TABLE) != 0 ? 0 : second_check(&a.floor, a.row * a.floor.width + a.column, t);
    if (refused(&a, OF_TABLE) != 0)
        hold(check.number == refused(&a, OF_TABLE) && check.cell == 0, "a check's refusal");
    else
        hold(check.number == (first < a.entries ? WAYS_TABLE_WRONG : WAYS_DONE)
             && check.cell == (first < a.entries ? first : 0), "a check");
    if (refused(&a, OF_ROUTE) != 0)
        hold(route.number == refused(&a, OF_ROUTE) && lent_same(held[LEGS]), "a route's refusal");
    else if (first < a.entries)
        hold(route.number == WAYS_TABLE_WRONG && route.place == first && lent_same(held[LEGS]), "a wrong table");
    else if (a.floor.width <= SMALL && a.floor.height <= SMALL)
        hold_route(&a, &route, l);
}

int LLVMFuzzerTestOneInput(const uint8_t *data, size_t size);

int LLVMFuzzerTestOneInput(const uint8_t *data, size_t size)
{
    input in;
    size_t i;
    if (held[MAP] == NULL)
        for (i = 0; i < BUFFERS; i++) {
            lent_make(&few_bytes[i], FEW);
            lent_make(&many_bytes[i], 4 * WAYS_LARGEST_TABLE);
            held[i] = &few_bytes[i];
        }
    in.bytes = data;
    in.left = size;
    switch (next_byte(&in) % 3) {
    case 0: try_plan(in); break;
    case 1: try_floor(in); break;
    default: try_table(in); break;
    }
    return 0;
}
