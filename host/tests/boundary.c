/*
 * Tests over the C boundary: every function of ways.h against the second solver, on many random inputs, sound and
 * damaged, with buffers too short and too long and guards around them. Given a number, it seeds the random inputs; given
 * a second, it says how many floors are tried. Floors are tried in floors.c. No expression draws two random numbers in
 * an order that C leaves open, so a seed means the same trials under every compiler.
 */
#include <stdio.h>
#include <stdlib.h>
#include <string.h>
#include "tests.h"

static uint64_t seed = 20240229;
static size_t failures, checks;

uint64_t random64(void)
{
    seed ^= seed << 13;
    seed ^= seed >> 7;
    seed ^= seed << 17;
    return seed;
}

size_t below(size_t n)
{
    return (size_t)(random64() % n);
}

void expect(int held, const char *what, size_t where)
{
    checks++;
    if (!held) {
        failures++;
        if (failures <= 20)
            printf("FAILED: %s (case %zu)\n", what, where);
    }
}

lent map, table, legs;

size_t an_outside(size_t side)
{
    static const size_t FAR[] = { 128, 129, 255, 256, 65536, (size_t)1 << 32, ((size_t)1 << 32) + 1, (size_t)-1, (size_t)-2,
                                  (size_t)1 << 63 };
    size_t k = below(12);
    return k < 2 ? side + k : FAR[k - 2];
}

/* ---- lengths */

static uint32_t a_part(void)
{
    static const uint32_t NEAR[] = { 0, 1, 99, 140, 70, 239, 169, 5741, 8119, 9801, 13860, 16382, 16383, 16384, 65535,
                                     4294967295u };
    return below(3) == 0 ? NEAR[below(sizeof NEAR / sizeof *NEAR)] : (uint32_t)below(17000);
}

static void try_lengths(size_t i)
{
    uint32_t a = a_part(), b = a_part(), c = below(4) == 0 ? a : a_part(), d = below(4) == 0 ? b : a_part();
    uint32_t size = below(4) == 0 ? a_part() : (uint32_t)below(1003);
    ways_compare_answer compared = ways_compare(a, b, c, d);
    ways_distance_answer spoken = ways_distance(size, a, b);
    int above = a > 16383 || b > 16383;
    if (above || c > 16383 || d > 16383)
        expect(compared.number == 12 && compared.shorter == 0, "comparing refuses a part above 16,383", i);
    else
        expect(compared.number == 0 && compared.shorter == (size_t)second_shorter(a, b, c, d), "comparing", i);
    if (above)
        expect(spoken.number == 12 && spoken.centimetres == 0, "the distance refuses a part above 16,383", i);
    else if (size < 1 || size > 1000)
        expect(spoken.number == 13 && spoken.centimetres == 0, "the distance refuses a cell size", i);
    else
        expect(spoken.number == 0 && spoken.centimetres == second_distance(size, a, b), "the distance spoken", i);
}

/* ---- plans */

static size_t put_record(uint8_t *out, size_t at, size_t kind, size_t content)
{
    size_t i;
    out[at] = (uint8_t)content;
    out[at + 1] = (uint8_t)(content >> 8);
    out[at + 2] = (uint8_t)kind;
    out[at + 3] = (uint8_t)(kind >> 8);
    for (i = 0; i < content; i++)
        out[at + 4 + i] = (uint8_t)random64();
    return at + 4 + content;
}

static void try_plan(size_t i)
{
    static uint8_t whole[4096];
    size_t k, at, length, queries = below(4) == 0 ? 60 + below(8) : below(5);
    ways_plan_answer plan, second;
    uint8_t *bytes;
    at = put_record(whole, 0, 1, 4);
    at = put_record(whole, at, 2, below(8) == 0 ? 256 + below(2000) : below(40));
    at = put_record(whole, at, 3, 2);
    for (k = 0; k < queries; k++)
        at = put_record(whole, at, 4, 8);
    length = at;
    if (below(2) == 0)
        for (k = below(3); k > 0; k--) {
            size_t where = below(below(2) ? 24 : length);
            whole[where] = (uint8_t)(below(2) ? below(9) : random64());
        }
    if (below(4) == 0)
        length = below(length + 1);
    bytes = lent_at(&map, length, (int)below(2));
    memcpy(bytes, whole, length);
    lent_keep(&map);
    plan = ways_read_plan(length == 0 ? NULL : bytes, length);
    second = second_plan(bytes, length);
    expect(memcmp(&plan, &second, sizeof plan) == 0, "a plan", i);
    for (k = 0; k < 4; k++) {
        size_t where = below(5) == 0 ? an_outside(length) : length == 0 ? 0 : below(length + 2);
        ways_query_answer q = ways_query(bytes, length, where), other;
        memset(&other, 0, sizeof other);
        if (length < 12 || where > length - 12)
            other.number = 14;
        else {
            const uint8_t *c = bytes + where + 4;
            other.start_column = c[0] + 256u * c[1];
            other.start_row = c[2] + 256u * c[3];
            other.goal_column = c[4] + 256u * c[5];
            other.goal_row = c[6] + 256u * c[7];
        }
        expect(memcmp(&q, &other, sizeof q) == 0, "a query", i);
    }
    expect(lent_guards(&map) && lent_same(&map), "a plan is only read", i);
}

/* ---- the worked cases of the customer's document */

static void try_worked(void)
{
    static const uint8_t floor_a[3] = { 0, 4, 0 }, wide[2] = { 0, 2 }, last[1] = { 128 }, open4[4] = { 0, 0, 0, 0 };
    uint32_t t[32];
    uint8_t l[8] = { 9, 9, 9, 9, 9, 9, 9, 9 };
    ways_route_answer r = ways_find_route(5, 3, floor_a, 3, 0, 1, 4, 1, t, 15, l, 8);
    ways_room_answer m = ways_room(5, 3, floor_a, 3, 0, 1), n = ways_room(5, 3, floor_a, 3, 2, 0);
    expect(r.number == 0 && r.straight == 2 && r.diagonal == 2 && r.legs == 3, "floor A", 0);
    expect(memcmp(l, "\1\1\2\2\3\1\11\11", 8) == 0, "floor A's legs", 0);
    expect(ways_check(5, 3, floor_a, 3, 4, 1, t, 15).number == 0, "floor A's table", 0);
    t[6] = 2 << 16 | 1;
    expect(ways_check(5, 3, floor_a, 3, 4, 1, t, 15).cell == 5, "floor A's table with cell 6 changed", 0);
    expect(m.left == 0 && m.top == 0 && m.right == 1 && m.bottom == 2, "floor A's room at (0, 1)", 0);
    expect(n.left == 0 && n.top == 0 && n.right == 4 && n.bottom == 0, "floor A's room at (2, 0)", 0);
    expect(ways_compare(140, 0, 0, 99).shorter == 1 && ways_compare(3, 0, 0, 2).shorter == 0, "comparing", 0);
    expect(ways_distance(50, 0, 3).centimetres == 212, "the distance", 0);
    expect(ways_room(9, 1, wide, 2, 0, 0).number == 3 && ways_room(8, 1, last, 1, 0, 0).number == 0, "a bit past the width", 0);
    r = ways_find_route(8, 4, open4, 4, 0, 3, 7, 0, t, 32, l, 5);
    expect(r.number == 0 && r.straight == 4 && r.diagonal == 3 && memcmp(l, "\1\3\2\4", 4) == 0, "8 by 4", 0);
    expect(ways_find_route(8, 4, open4, 4, 0, 3, 7, 0, t, 32, l, 3).place == 2, "8 by 4, a short leg buffer", 0);
    expect(ways_fill(0, 0, NULL, 0, 0, 0, NULL, 0) == 1, "null with length 0", 0);
    expect(ways_fill(1, 1, NULL, 0, 0, 0, NULL, 0) == 2, "null with length 0, a map too short", 0);
    expect(ways_read_plan(NULL, 0).number == 14 && ways_query(NULL, 0, 0).number == 14, "null with length 0, a plan", 0);
    r = ways_find_route(8, 4, open4, 4, 3, 3, 3, 3, t, 32, NULL, 0);
    expect(r.number == 0 && r.straight == 0 && r.diagonal == 0 && r.legs == 0, "start equal to goal needs no leg buffer", 0);
}

/* a side of a floor, mostly small */
static size_t a_side(void)
{
    size_t k = below(60);
    return k < 48 ? 1 + below(12) : k < 57 ? 1 + below(33) : 1 + below(128);
}

int main(int argc, char **argv)
{
    size_t floors = argc > 2 ? (size_t)strtoull(argv[2], NULL, 10) : 4000, i;
    if (argc > 1)
        seed = strtoull(argv[1], NULL, 10) | 1;
    lent_make(&map, 8192);
    lent_make(&table, 4 * (WAYS_LARGEST_TABLE + 16));
    lent_make(&legs, WAYS_LARGEST_LEGS + 16);
    try_worked();
    for (i = 0; i < 20 * floors; i++)
        try_lengths(i);
    for (i = 0; i < floors; i++) {
        size_t w = a_side(), h = a_side();
        try_floor(w, h, i % 3 == 0, i);
    }
    try_floor(128, 128, 0, floors);
    for (i = 0; i < 2 * floors; i++)
        try_plan(i);
    printf("C: %zu checks, %zu failed\n", checks, failures);
    return failures != 0;
}
