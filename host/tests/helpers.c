/*
 * The header's own functions and sizes, each against what the library answers. It is C and C++ at once: host/run
 * compiles it as both, with every warning that ways.h must not give.
 */
#include <stdio.h>
#include <string.h>
#include "ways.h"

static size_t failures, checks;

static void expect(int held, const char *what, size_t where)
{
    checks++;
    if (!held) {
        failures++;
        printf("FAILED: %s (%zu)\n", what, where);
    }
}

/* a place off the floor: nothing is done, and it is not called blocked */
static void try_off(uint8_t *map, size_t width, size_t height, size_t column, size_t row)
{
    expect(ways_block(map, width, height, column, row) == 0, "off the floor nothing is blocked", width);
    expect(ways_unblock(map, width, height, column, row) == 0, "off the floor nothing is opened", width);
    expect(ways_is_blocked(map, width, height, column, row) == 0, "off the floor nothing is there", width);
}

/* every cell of a floor blocked and opened again, alone: the library sees the same */
static void try_map(size_t width, size_t height)
{
    uint8_t map[WAYS_MAP_BYTES(128, 3) + 1];
    size_t bytes = WAYS_MAP_BYTES(width, height), column, row;
    memset(map, 0, sizeof map);
    for (row = 0; row < height; row++)
        for (column = 0; column < width; column++) {
            size_t number;
            expect(ways_block(map, width, height, column, row) == 1, "a cell is blocked", column);
            expect(ways_is_blocked(map, width, height, column, row) == 1, "a blocked cell", column);
            number = ways_room(width, height, map, bytes, column, row).number;
            expect(number == WAYS_START_BLOCKED, "the library sees it", column);
            expect(ways_is_blocked(map, width, height, (column + 1) % width, row) == (width == 1), "no other", column);
            expect(ways_unblock(map, width, height, column, row) == 1, "a cell is opened", column);
            number = ways_room(width, height, map, bytes, column, row).number;
            expect(number == WAYS_DONE, "the library sees it open", column);
        }
    try_off(map, width, height, width, 0);
    try_off(map, width, height, 0, height);
    for (column = 0; column < sizeof map; column++)
        expect(map[column] == 0, "every bit is as it was", column);
}

/* each heading walked by the library on an open floor of 3 by 3, from the middle */
static void try_headings(void)
{
    static const char *const names[] = {
        "north", "northeast", "east", "southeast", "south", "southwest", "west", "northwest"
    };
    static const int columns[] = { 0, 1, 1, 1, 0, -1, -1, -1 }, rows[] = { -1, -1, 0, 1, 1, 1, 0, -1 };
    const uint8_t map[3] = { 0, 0, 0 };
    size_t column, row, heading;
    for (row = 0; row < 3; row++)
        for (column = 0; column < 3; column++) {
            uint32_t table[9];
            uint8_t legs[2];
            ways_route_answer route = ways_find_route(3, 3, map, sizeof map, 1, 1, column, row, table, 9, legs, 2);
            expect(route.number == WAYS_DONE, "a way on an open floor", column);
            expect(ways_entry_straight(table[4]) == route.straight, "straight steps", column);
            expect(ways_entry_diagonal(table[4]) == route.diagonal, "diagonal steps", column);
            if (route.legs == 0)
                continue;
            expect(1 + ways_heading_column(legs[0]) == (column == 0 ? 0 : column == 1 ? 1 : 2), "the column", column);
            expect(1 + ways_heading_row(legs[0]) == (row == 0 ? 0 : row == 1 ? 1 : 2), "the row", row);
        }
    for (heading = 0; heading < 8; heading++) {
        expect(ways_heading_column(heading) == columns[heading], "what a heading adds to the column", heading);
        expect(ways_heading_row(heading) == rows[heading], "what a heading adds to the row", heading);
        expect(strcmp(ways_heading_name(heading), names[heading]) == 0, "a heading's name", heading);
    }
    expect(ways_heading_column(8) == 0 && ways_heading_row(8) == 0, "no heading", 8);
    expect(strcmp(ways_heading_name(8), "no heading") == 0, "no heading's name", 8);
}

static void try_numbers(void)
{
    size_t number, other;
    char version[32];
    for (number = 0; number <= WAYS_PLAN_BROKEN; number++)
        for (other = 0; other < number; other++)
            expect(strcmp(ways_meaning(number), ways_meaning(other)) != 0, "each number has words of its own", number);
    expect(strcmp(ways_meaning(WAYS_DONE), "done") == 0, "a number's words", 0);
    expect(strcmp(ways_meaning(WAYS_NO_WAY), "no way") == 0, "a number's words", 9);
    expect(strcmp(ways_meaning(WAYS_PLAN_BROKEN), "plan broken") == 0, "a number's words", 14);
    expect(strcmp(ways_meaning(15), "no such number") == 0, "no such number", 15);
    expect(WAYS_MAP_BYTES(WAYS_LARGEST_SIDE, WAYS_LARGEST_SIDE) == WAYS_LARGEST_MAP, "the largest map", 0);
    expect(WAYS_TABLE_ENTRIES(WAYS_LARGEST_SIDE, WAYS_LARGEST_SIDE) == WAYS_LARGEST_TABLE, "the largest table", 0);
    expect(ways_entry_straight(WAYS_MARK) > 16383, "the mark is no length", 0);
    snprintf(version, sizeof version, "%d.%d.%d", WAYS_VERSION_NUMBER / 10000, WAYS_VERSION_NUMBER / 100 % 100,
             WAYS_VERSION_NUMBER % 100);
    expect(strcmp(version, WAYS_VERSION) == 0, "the version's two forms", 0);
}

int main(void)
{
    static const size_t widths[] = { 1, 7, 8, 9, 127, 128 };
    size_t i;
    for (i = 0; i < sizeof widths / sizeof *widths; i++) {
        try_map(widths[i], 1);
        try_map(widths[i], 3);
    }
    try_headings();
    try_numbers();
    printf("helpers: %zu checks, %zu failed\n", checks, failures);
    return failures != 0;
}
