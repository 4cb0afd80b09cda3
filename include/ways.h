/*
 * ways.h: shortest ways on a warehouse floor, for a headset's firmware in C or C++ (C99, C++17) on x86-64.
 *
 * Link with libheadset.a, which `bash host/run library` puts into target/staticlib/ and `./install PREFIX` installs.
 * Every function of the library is proved to meet its promise for every input; the promises in full are stated in
 * crates/headset/src/lib.rt and explained in docs/STATEMENTS.md, the rules in docs/REFERENCE.md. No function
 * allocates, keeps anything between calls, or calls anything outside the library but memset and memmove, so calls from
 * several threads are safe as long as none writes what another is lent. The small functions at the end of this file,
 * marked `static inline`, are not part of the library: they are plain C, and tested.
 *
 * What the caller must promise, and the library cannot check:
 *   - a pointer is good for the length that follows it: so many bytes, or so many 32-bit entries, aligned as C aligns
 *     them. A null pointer with length 0 is an empty slice;
 *   - a buffer that a call writes (not const) overlaps nothing else that the call is lent;
 *   - the stack has the room named with each function, WAYS_.._STACK below.
 * Nothing else is asked: any numbers, maps, tables and plans may be passed, and bad ones are refused by number.
 *
 * What every function promises besides its own lines: only the buffers that are not const are written, a refusal
 * leaves them byte for byte as they were unless its lines say otherwise, and a field that has no meaning in an answer
 * is 0. So refusals are judged before anything is written: only 9 and 10 of ways_find_route are found with the table
 * filled, and they too before the first leg.
 *
 * Units: map_length, legs_length and the length of a plan are in bytes, table_length in 32-bit entries, the cell size
 * and distances in centimetres, stacks in bytes; width, height, columns and rows are counted in cells.
 *
 * Floor: 1 to 128 cells wide and 1 to 128 high. Columns count from the west, rows from the north, both from 0. Cell
 * (column, row) has the number row * width + column.
 *
 * Step: from an open cell to one of its eight neighbours, which is open too. A diagonal step is permitted only where
 * both cells beside it are open, the two that touch a side of its start and a side of its end: nobody is sent round
 * the corner of a rack that they would brush. A way is a chain of steps; its length is straight + diagonal * sqrt(2),
 * counted exactly.
 *
 * Plan: a chain of records. A record is the length of its content in 2 bytes, its kind in 2 bytes, and the content;
 * every number has its low byte first. Kind 1 is width and height (2 bytes each), once; then kind 2, the map, once;
 * then kind 3, the cell size (2 bytes), once; then 0 to 64 of kind 4, a query: start column, start row, goal column,
 * goal row (2 bytes each). `./plan` makes one of a drawing.
 */
#ifndef WAYS_H
#define WAYS_H

#include <stddef.h>
#include <stdint.h>

/* The version of the interface, header and library; CHANGELOG.md says what changed. The number is for #if. */
#define WAYS_VERSION "0.1.0"
#define WAYS_VERSION_NUMBER 100     /* 10000 * major + 100 * minor + patch */

#ifdef __cplusplus
#define WAYS_AS(type, value) static_cast<type>(value)
extern "C" {
#else
#define WAYS_AS(type, value) ((type)(value))
#endif

/* The numbers given back. Where several refusals hold, the first is given: 1 to 8 as numbered, then 11, 9, 10; 12
 * before 13. */
enum ways_number {
    WAYS_DONE = 0,              /* done */
    WAYS_SIDES_OUTSIDE = 1,     /* width or height outside 1 to 128 */
    WAYS_MAP_LENGTH = 2,        /* map of the wrong length */
    WAYS_BIT_PAST_WIDTH = 3,    /* a bit past the width is set */
    WAYS_TABLE_LENGTH = 4,      /* table not width * height entries */
    WAYS_START_OFF_FLOOR = 5,   /* start, or the room's cell, off the floor */
    WAYS_GOAL_OFF_FLOOR = 6,    /* goal off the floor */
    WAYS_START_BLOCKED = 7,     /* start, or the room's cell, blocked */
    WAYS_GOAL_BLOCKED = 8,      /* goal blocked */
    WAYS_NO_WAY = 9,            /* no way */
    WAYS_LEGS_SHORT = 10,       /* leg buffer shorter than 2 * legs; comes with the leg count */
    WAYS_TABLE_WRONG = 11,      /* table not right; comes with the first cell that differs */
    WAYS_LENGTH_ABOVE = 12,     /* a length part above 16,383 */
    WAYS_SIZE_OUTSIDE = 13,     /* cell size outside 1 to 1,000 centimetres */
    WAYS_PLAN_BROKEN = 14       /* plan broken; comes with the offset of the break */
};

/* The headings of a leg's first byte, and of ties: the lower number is taken first. */
enum ways_heading {
    WAYS_NORTH = 0, WAYS_NORTHEAST = 1, WAYS_EAST = 2, WAYS_SOUTHEAST = 3,
    WAYS_SOUTH = 4, WAYS_SOUTHWEST = 5, WAYS_WEST = 6, WAYS_NORTHWEST = 7
};

/* Sizes of the buffers to lend. A map row takes (width + 7) / 8 bytes; in each, bit 0, the least, is the westernmost of
 * its eight cells; a set bit is a blocked cell; bits past the width are 0. */
#define WAYS_ROW_BYTES(width) ((WAYS_AS(size_t, width) + 7) / 8)
#define WAYS_MAP_BYTES(width, height) (WAYS_AS(size_t, height) * WAYS_ROW_BYTES(width))
#define WAYS_TABLE_ENTRIES(width, height) (WAYS_AS(size_t, width) * WAYS_AS(size_t, height))
#define WAYS_LARGEST_SIDE 128       /* cells */
#define WAYS_LARGEST_MAP 2048       /* bytes */
#define WAYS_LARGEST_TABLE 16384    /* entries, 64 KiB */
#define WAYS_LARGEST_LEGS 32766     /* bytes that take any route; most take a few dozen, and 10 says how many legs */
#define WAYS_LARGEST_QUERIES 64     /* queries of a plan */
#define WAYS_QUERY_BYTES 12         /* bytes from one query's record to the next */

/* The stack, in bytes, that a call takes at most; host/tests/stack.c measures it. */
#define WAYS_FILL_STACK 73728       /* filling, finding a route; measured: 68,184 */
#define WAYS_CHECK_STACK 4096       /* checking, a route from a table; measured: 2,040 */
#define WAYS_LITTLE_STACK 1024      /* every other call; measured: 88 */

/* A table's entry is straight * 65536 + diagonal, the shortest length from its cell to the goal, or the mark:
 * blocked, or no way. */
#define WAYS_MARK UINT32_C(4294967295)

/* shorter: 1 if the first length is shorter, 0 if it is not */
typedef struct { size_t number, shorter; } ways_compare_answer;

/* centimetres: the whole number nearest to the exact distance */
typedef struct { size_t number, centimetres; } ways_distance_answer;

/* cell: for 11, the first cell that differs */
typedef struct { size_t number, cell; } ways_check_answer;

/* straight, diagonal: the length of the way; legs: how many, of two bytes each; place: for 10 the leg count, for 11 the
 * first cell that differs */
typedef struct { size_t number, place, straight, diagonal, legs; } ways_route_answer;

/* the room's first and last columns (left, right) and rows (top, bottom), all in the room */
typedef struct { size_t number, left, top, right, bottom; } ways_room_answer;

/* offset: for 14, the byte where the plan breaks, counted from 0. size: the cell size in centimetres. map_at,
 * map_length: where the map's bytes lie and how many they are. first_query: the offset of the first query's record,
 * each of WAYS_QUERY_BYTES, or the end if there is none. The numbers are not judged. */
typedef struct {
    size_t number, offset, width, height, size, map_at, map_length, queries, first_query;
} ways_plan_answer;

/* a query's start and goal; not judged */
typedef struct { size_t number, start_column, start_row, goal_column, goal_row; } ways_query_answer;

/* Whether the first length is shorter than the second, by the exact order of straight + diagonal * sqrt(2).
 * Refusals: 12. Stack: WAYS_LITTLE_STACK. */
ways_compare_answer ways_compare(uint32_t first_straight, uint32_t first_diagonal,
                                 uint32_t second_straight, uint32_t second_diagonal);

/* The distance spoken: the whole number of centimetres nearest to size * (straight + diagonal * sqrt(2)), where size is
 * the cell size in centimetres.
 * Refusals: 12, 13. Stack: WAYS_LITTLE_STACK. */
ways_distance_answer ways_distance(uint32_t size, uint32_t straight, uint32_t diagonal);

/* Fills the table for the goal at (column, row): each entry becomes the shortest length from its cell to the goal, or
 * the mark. Gives the number back. table_length is in entries.
 * Refusals: 1, 2, 3, 4, 6, 8. Stack: WAYS_FILL_STACK. */
size_t ways_fill(size_t width, size_t height, const uint8_t *map, size_t map_length,
                 size_t column, size_t row, uint32_t *table, size_t table_length);

/* Checks a table from anyone for the goal at (column, row): done exactly if every entry is the shortest length or the
 * mark, as ways_fill would write it; else 11 with the lowest cell whose entry is malformed or not what its neighbours
 * make it. Refusals: 1, 2, 3, 4, 6, 8, 11. Stack: WAYS_CHECK_STACK. */
ways_check_answer ways_check(size_t width, size_t height, const uint8_t *map, size_t map_length,
                             size_t column, size_t row, const uint32_t *table, size_t table_length);

/* Finds the way from (from_column, from_row) to (column, row): a shortest one, and of several the first by the order
 * of headings. Fills the table for the goal, and writes each leg as two bytes, heading and count (1 to 127), from
 * the front of legs; bytes after the last leg keep their values. legs_length is in bytes. Start equal to goal has no
 * legs.
 * Refusals: 1 to 8; then 9 and 10, which leave the table filled and the legs as they were. Stack: WAYS_FILL_STACK. */
ways_route_answer ways_find_route(size_t width, size_t height, const uint8_t *map, size_t map_length,
                                  size_t from_column, size_t from_row, size_t column, size_t row,
                                  uint32_t *table, size_t table_length, uint8_t *legs, size_t legs_length);

/* The same way read from a table that was filled before, here or elsewhere; the table is checked first and only read.
 * Refusals: 1 to 8, then 11, 9, 10. Stack: WAYS_CHECK_STACK. */
ways_route_answer ways_route_from_table(size_t width, size_t height, const uint8_t *map, size_t map_length,
                                        size_t from_column, size_t from_row, size_t column, size_t row,
                                        const uint32_t *table, size_t table_length, uint8_t *legs, size_t legs_length);

/* The room around (column, row): north and south while cells are open, then west and east while the whole next
 * column of that height is open. Refusals: 1, 2, 3, 5, 7. Stack: WAYS_LITTLE_STACK. */
ways_room_answer ways_room(size_t width, size_t height, const uint8_t *map, size_t map_length,
                           size_t column, size_t row);

/* What the bytes are as a plan: its numbers and where its map and queries lie, or 14 with the offset of the break.
 * Refusals: 14. Stack: WAYS_LITTLE_STACK. */
ways_plan_answer ways_read_plan(const uint8_t *bytes, size_t length);

/* The query whose record begins at an offset, first_query + WAYS_QUERY_BYTES * k for the k-th from 0. It is not asked
 * whether the record is a query's: ways_read_plan has done that. Refusals: 14 if the bytes end before the record's 12
 * bytes do, with every other field 0. Stack: WAYS_LITTLE_STACK. */
ways_query_answer ways_query(const uint8_t *bytes, size_t length, size_t at);

/* ---- What every user writes by hand: plain C, compiled with the caller's code. */

/* Whether (column, row) is on the floor and blocked, by the map. */
static inline int ways_is_blocked(const uint8_t *map, size_t width, size_t height, size_t column, size_t row)
{
    return column < width && row < height && (map[row * WAYS_ROW_BYTES(width) + column / 8] >> (column % 8) & 1) != 0;
}

/* Makes (column, row) of the map blocked. Gives 1 back, or 0 if it is off the floor; then nothing is written. */
static inline int ways_block(uint8_t *map, size_t width, size_t height, size_t column, size_t row)
{
    if (column >= width || row >= height)
        return 0;
    map += row * WAYS_ROW_BYTES(width) + column / 8;
    *map = WAYS_AS(uint8_t, *map | 1u << (column % 8));
    return 1;
}

/* Makes (column, row) of the map open. Gives 1 back, or 0 if it is off the floor; then nothing is written. */
static inline int ways_unblock(uint8_t *map, size_t width, size_t height, size_t column, size_t row)
{
    if (column >= width || row >= height)
        return 0;
    map += row * WAYS_ROW_BYTES(width) + column / 8;
    *map = WAYS_AS(uint8_t, *map & ~(1u << (column % 8)));
    return 1;
}

/* The parts of an entry that is not WAYS_MARK: straight steps and diagonal steps. */
static inline uint32_t ways_entry_straight(uint32_t entry)
{
    return entry / 65536u;
}

static inline uint32_t ways_entry_diagonal(uint32_t entry)
{
    return entry % 65536u;
}

/* What a step of a heading adds to the column, and to the row: -1, 0 or 1; 0 for a number above 7. */
static inline int ways_heading_column(size_t heading)
{
    return heading >= 1 && heading <= 3 ? 1 : heading >= 5 && heading <= 7 ? -1 : 0;
}

static inline int ways_heading_row(size_t heading)
{
    return heading >= 3 && heading <= 5 ? 1 : heading <= 1 || heading == 7 ? -1 : 0;
}

/* A heading in words; for a number above 7 "no heading". */
static inline const char *ways_heading_name(size_t heading)
{
    static const char *const names[] = {
        "north", "northeast", "east", "southeast", "south", "southwest", "west", "northwest"
    };
    return heading < sizeof names / sizeof *names ? names[heading] : "no heading";
}

/* A number's meaning in words; for one that no function gives "no such number". */
static inline const char *ways_meaning(size_t number)
{
    static const char *const meanings[] = {
        "done", "width or height outside 1 to 128", "map of the wrong length", "a bit past the width is set",
        "table not width times height entries", "start off the floor", "goal off the floor", "start blocked",
        "goal blocked", "no way", "leg buffer too short", "table not right", "a length part above 16,383",
        "cell size outside 1 to 1,000", "plan broken"
    };
    return number < sizeof meanings / sizeof *meanings ? meanings[number] : "no such number";
}

#ifdef __cplusplus
}
#endif

#endif
