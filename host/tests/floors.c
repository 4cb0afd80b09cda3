/* Every call that takes a floor, tried on one floor: see boundary.c. */
#include <string.h>
#include "tests.h"

typedef struct {
    second_floor floor;
    size_t from_column, from_row, column, row, entries;
} asked;

/* a sound floor at random, in lent pages, and places on it */
static asked an_asking(size_t w, size_t h)
{
    asked a;
    size_t row_bytes = (w + 7) / 8, percent = below(60), r, c;
    uint8_t *bytes = lent_at(&map, h * row_bytes, (int)below(2));
    memset(bytes, 0, h * row_bytes);
    for (r = 0; r < h; r++)
        for (c = 0; c < w; c++)
            if (below(100) < percent)
                bytes[r * row_bytes + c / 8] |= (uint8_t)(1u << (c % 8));
    a.floor.width = w;
    a.floor.height = h;
    a.floor.map = bytes;
    a.floor.map_length = h * row_bytes;
    a.from_column = below(w);
    a.from_row = below(h);
    a.column = below(w);
    a.row = below(h);
    a.entries = w * h;
    if (below(8) != 0)
        bytes[a.row * row_bytes + a.column / 8] &= (uint8_t)~(1u << (a.column % 8));
    if (below(8) != 0)
        bytes[a.from_row * row_bytes + a.from_column / 8] &= (uint8_t)~(1u << (a.from_column % 8));
    return a;
}

/* the map cut, or followed by other bytes, with its front as it was */
static void other_map_length(asked *a, size_t length)
{
    static uint8_t old[4096];
    size_t i, kept = a->floor.map_length < length ? a->floor.map_length : length;
    uint8_t *bytes;
    memcpy(old, a->floor.map, kept);
    bytes = lent_at(&map, length, (int)below(2));
    for (i = 0; i < length; i++)
        bytes[i] = i < kept ? old[i] : (uint8_t)random64();
    a->floor.map = bytes;
    a->floor.map_length = length;
}

/* a length that is none, one less or one more */
static size_t one_off(size_t length)
{
    switch (below(3)) {
    case 0: return 0;
    case 1: return length == 0 ? 0 : length - 1;
    default: return length + 1;
    }
}

/* one damage or several */
static void damage(asked *a)
{
    size_t w = a->floor.width, h = a->floor.height;
    do {
        switch (below(9)) {
        case 0: a->floor.width = below(2) ? 0 : an_outside(w); break;
        case 1: a->floor.height = below(2) ? 0 : an_outside(h); break;
        case 2: other_map_length(a, one_off(a->floor.map_length)); break;
        case 3:
            if (w % 8 != 0 && a->floor.map_length == h * ((w + 7) / 8)) {
                size_t past = w % 8 + below(8 - w % 8);
                ((uint8_t *)a->floor.map)[below(h) * ((w + 7) / 8) + w / 8] |= (uint8_t)(1u << past);
            }
            break;
        case 4: a->entries = one_off(a->entries); break;
        case 5: a->from_column = an_outside(w); break;
        case 6: a->from_row = an_outside(h); break;
        case 7: a->column = an_outside(w); break;
        case 8: a->row = an_outside(h); break;
        }
    } while (below(3) == 0);
}

/* a table in lent pages, of so many entries at random */
static uint32_t *a_table(size_t entries)
{
    uint32_t *t = (uint32_t *)(void *)lent_at(&table, 4 * entries, (int)below(2));
    size_t i;
    for (i = 0; i < entries; i++)
        t[i] = (uint32_t)random64();
    return t;
}

static uint8_t *a_leg_buffer(size_t length)
{
    uint8_t *l = lent_at(&legs, length, (int)below(2));
    size_t i;
    for (i = 0; i < length; i++)
        l[i] = (uint8_t)random64();
    return l;
}

static void expect_kept(size_t i, int table_too, int legs_too)
{
    expect(lent_guards(&map) && lent_same(&map), "the map is only read", i);
    expect(lent_guards(&table), "nothing around the table is touched", i);
    expect(lent_guards(&legs), "nothing around the legs is touched", i);
    if (table_too)
        expect(lent_same(&table), "the table is as it was", i);
    if (legs_too)
        expect(lent_same(&legs), "the legs are as they were", i);
}

static void keep_all(void)
{
    lent_keep(&map);
    lent_keep(&table);
    lent_keep(&legs);
}

#define ASKED_TABLE (1u << 1 | 1u << 2 | 1u << 3 | 1u << 4 | 1u << 6 | 1u << 8)
#define ASKED_ROUTE (0x1FEu)
#define ASKED_ROOM (1u << 1 | 1u << 2 | 1u << 3 | 1u << 5 | 1u << 7)

static uint32_t second_table[WAYS_LARGEST_TABLE];

static void try_fill(const asked *a, size_t i)
{
    size_t refused = second_refused(&a->floor, ASKED_TABLE, 0, 0, a->column, a->row, a->entries);
    uint32_t *t = a_table(a->entries);
    size_t number;
    keep_all();
    number = ways_fill(a->floor.width, a->floor.height, a->floor.map, a->floor.map_length, a->column, a->row, t, a->entries);
    expect(number == refused, "filling gives its number", i);
    expect_kept(i, refused != 0, 1);
    if (refused == 0) {
        second_fill(&a->floor, a->row * a->floor.width + a->column, second_table);
        expect(memcmp(t, second_table, 4 * a->entries) == 0, "filling writes the shortest lengths", i);
    }
}

/* an entry that is not the one that should be there */
static uint32_t another_entry(uint32_t entry)
{
    uint32_t straight, diagonal;
    switch (below(7)) {
    case 0: return WAYS_MARK;
    case 1: return entry + 1;
    case 2: return entry - 1;
    case 3: return entry + 65536;
    case 4:
        straight = (uint32_t)(16384 + below(4));
        diagonal = (uint32_t)below(4);
        return straight << 16 | diagonal;
    case 5:
        straight = (uint32_t)below(4);
        diagonal = (uint32_t)(16383 + below(3));
        return straight << 16 | diagonal;
    default: return (uint32_t)random64();
    }
}

static void try_check(const asked *a, size_t i)
{
    size_t refused = second_refused(&a->floor, ASKED_TABLE, 0, 0, a->column, a->row, a->entries), n;
    uint32_t *t = a_table(a->entries);
    ways_check_answer answer;
    if (refused == 0) {
        size_t goal = a->row * a->floor.width + a->column, first;
        second_fill(&a->floor, goal, t);
        for (n = below(4); n > 0; n--) {
            size_t cell = below(a->entries);
            t[cell] = another_entry(t[cell]);
        }
        if (below(8) == 0)
            memset(t, 0, 4 * a->entries);
        if (below(16) == 0)
            for (n = 0; n < a->entries; n++)
                t[n] = (uint32_t)(16383 + below(2)) << 16;
        keep_all();
        answer = ways_check(a->floor.width, a->floor.height, a->floor.map, a->floor.map_length, a->column, a->row, t, a->entries);
        first = second_check(&a->floor, goal, t);
        if (first == a->entries)
            expect(answer.number == 0 && answer.cell == 0, "checking accepts a right table", i);
        else
            expect(answer.number == 11 && answer.cell == first, "checking names the first cell that differs", i);
    } else {
        keep_all();
        answer = ways_check(a->floor.width, a->floor.height, a->floor.map, a->floor.map_length, a->column, a->row, t, a->entries);
        expect(answer.number == refused && answer.cell == 0, "checking gives its refusal", i);
    }
    expect_kept(i, 1, 1);
}

/* legs of a list of headings; how many */
static size_t legs_of(const uint8_t *headings, size_t count, uint8_t *out)
{
    size_t i, n = 0;
    for (i = 0; i < count; i++) {
        if (n > 0 && out[2 * n - 2] == headings[i])
            out[2 * n - 1]++;
        else {
            out[2 * n] = headings[i];
            out[2 * n + 1] = 1;
            n++;
        }
    }
    return n;
}

static int only_number(const ways_route_answer *r, size_t number, size_t place)
{
    return r->number == number && r->place == place && r->straight == 0 && r->diagonal == 0 && r->legs == 0;
}

/* a route's answer and legs against the second solver's; the table is right */
static void expect_route(const asked *a, const ways_route_answer *r, const uint8_t *l, size_t length, size_t i)
{
    static uint8_t headings[WAYS_LARGEST_TABLE], second_legs[2 * WAYS_LARGEST_TABLE];
    size_t w = a->floor.width, n, straight = 0, k;
    long count = second_route(&a->floor, a->from_row * w + a->from_column, a->row * w + a->column, headings);
    if (count < 0) {
        expect(only_number(r, 9, 0), "no way", i);
        expect(lent_same(&legs), "no way leaves the legs as they were", i);
        return;
    }
    n = legs_of(headings, (size_t)count, second_legs);
    for (k = 0; k < (size_t)count; k++)
        straight += headings[k] % 2 == 0;
    if (length < 2 * n) {
        expect(only_number(r, 10, n), "a short leg buffer gives 10 with the leg count", i);
        expect(lent_same(&legs), "10 leaves the legs as they were", i);
        return;
    }
    expect(r->number == 0 && r->place == 0 && r->straight == straight && r->diagonal == (size_t)count - straight
           && r->legs == n, "a route has its length and leg count", i);
    expect(n == 0 || memcmp(l, second_legs, 2 * n) == 0, "a route's legs", i);
    expect(length == 2 * n || memcmp(l + 2 * n, legs.before + 2 * n, length - 2 * n) == 0, "bytes after the last leg", i);
}

static size_t a_leg_length(void)
{
    return below(3) == 0 ? below(6) : below(2) == 0 ? below(40) : WAYS_LARGEST_LEGS;
}

static void try_find(const asked *a, size_t i)
{
    size_t refused = second_refused(&a->floor, ASKED_ROUTE, a->from_column, a->from_row, a->column, a->row, a->entries);
    size_t length = a_leg_length();
    uint32_t *t = a_table(a->entries);
    uint8_t *l = a_leg_buffer(length);
    ways_route_answer r;
    keep_all();
    r = ways_find_route(a->floor.width, a->floor.height, a->floor.map, a->floor.map_length, a->from_column, a->from_row,
                        a->column, a->row, t, a->entries, l, length);
    expect_kept(i, refused != 0, refused != 0);
    if (refused != 0) {
        expect(only_number(&r, refused, 0), "finding a route gives its refusal", i);
        return;
    }
    second_fill(&a->floor, a->row * a->floor.width + a->column, second_table);
    expect(memcmp(t, second_table, 4 * a->entries) == 0, "finding a route leaves the table filled", i);
    expect_route(a, &r, l, length, i);
}

static void try_read(const asked *a, size_t i)
{
    size_t refused = second_refused(&a->floor, ASKED_ROUTE, a->from_column, a->from_row, a->column, a->row, a->entries);
    size_t length = a_leg_length();
    uint32_t *t = a_table(a->entries);
    uint8_t *l = a_leg_buffer(length);
    ways_route_answer r;
    if (refused == 0) {
        second_fill(&a->floor, a->row * a->floor.width + a->column, t);
        if (below(3) == 0) {
            size_t cell = below(a->entries);
            t[cell] = another_entry(t[cell]);
        }
    }
    keep_all();
    r = ways_route_from_table(a->floor.width, a->floor.height, a->floor.map, a->floor.map_length, a->from_column, a->from_row,
                              a->column, a->row, t, a->entries, l, length);
    expect_kept(i, 1, refused != 0);
    if (refused != 0)
        expect(only_number(&r, refused, 0), "a route from a table gives its refusal", i);
    else {
        size_t first = second_check(&a->floor, a->row * a->floor.width + a->column, t);
        if (first < a->entries) {
            expect(only_number(&r, 11, first), "a wrong table gives 11 with the first cell that differs", i);
            expect(lent_same(&legs), "11 leaves the legs as they were", i);
        } else
            expect_route(a, &r, l, length, i);
    }
}

static void try_room(const asked *a, size_t i)
{
    size_t refused = second_refused(&a->floor, ASKED_ROOM, a->from_column, a->from_row, 0, 0, 0);
    ways_room_answer room, second;
    keep_all();
    room = ways_room(a->floor.width, a->floor.height, a->floor.map, a->floor.map_length, a->from_column, a->from_row);
    memset(&second, 0, sizeof second);
    second.number = refused;
    if (refused == 0)
        second = second_room(&a->floor, a->from_column, a->from_row);
    expect(memcmp(&room, &second, sizeof room) == 0, "a room, or its refusal", i);
    expect_kept(i, 1, 1);
}

void try_floor(size_t w, size_t h, int damaged, size_t i)
{
    asked a = an_asking(w, h);
    if (damaged)
        damage(&a);
    try_fill(&a, i);
    try_check(&a, i);
    try_find(&a, i);
    try_read(&a, i);
    try_room(&a, i);
}
