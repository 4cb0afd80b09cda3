/* The second solver: see second.h. */
#include <math.h>
#include <string.h>
#include "second.h"

#define LIMIT 16383

static const int ACROSS[8] = { 0, 1, 1, 1, 0, -1, -1, -1 };
static const int DOWN[8] = { -1, -1, 0, 1, 1, 1, 0, -1 };

int second_shorter(uint32_t straight, uint32_t diagonal, uint32_t other_straight, uint32_t other_diagonal)
{
    long double across = (long double)straight - (long double)other_straight;
    long double aslant = (long double)diagonal - (long double)other_diagonal;
    return across + aslant * sqrtl(2.0L) < 0.0L && (straight != other_straight || diagonal != other_diagonal);
}

size_t second_distance(uint32_t size, uint32_t straight, uint32_t diagonal)
{
    long double aslant = (long double)size * (long double)diagonal * sqrtl(2.0L);
    return (size_t)size * straight + (size_t)llroundl(aslant);
}

static int bit_at(const second_floor *floor, size_t column, size_t row)
{
    size_t row_bytes = (floor->width + 7) / 8;
    return floor->map[row * row_bytes + column / 8] >> (column % 8) & 1;
}

int second_open(const second_floor *floor, long column, long row)
{
    if (column < 0 || row < 0 || column >= (long)floor->width || row >= (long)floor->height)
        return 0;
    return !bit_at(floor, (size_t)column, (size_t)row);
}

size_t second_refused(const second_floor *floor, unsigned asked, size_t from_column, size_t from_row, size_t column,
                      size_t row, size_t entries)
{
    size_t w = floor->width, h = floor->height, r, c;
    if ((asked & 1u << 1) && (w < 1 || w > 128 || h < 1 || h > 128))
        return 1;
    if ((asked & 1u << 2) && floor->map_length != h * ((w + 7) / 8))
        return 2;
    if (asked & 1u << 3)
        for (r = 0; r < h; r++)
            for (c = w; c % 8 != 0; c++)
                if (bit_at(floor, c, r))
                    return 3;
    if ((asked & 1u << 4) && entries != w * h)
        return 4;
    if ((asked & 1u << 5) && (from_column >= w || from_row >= h))
        return 5;
    if ((asked & 1u << 6) && (column >= w || row >= h))
        return 6;
    if ((asked & 1u << 7) && bit_at(floor, from_column, from_row))
        return 7;
    if ((asked & 1u << 8) && bit_at(floor, column, row))
        return 8;
    return 0;
}

/* where a heading leads from a cell by a permitted step, or -1 */
static long step_to(const second_floor *floor, size_t cell, int heading)
{
    long column = (long)(cell % floor->width), row = (long)(cell / floor->width);
    long to_column = column + ACROSS[heading], to_row = row + DOWN[heading];
    if (!second_open(floor, column, row) || !second_open(floor, to_column, to_row))
        return -1;
    if (!second_open(floor, column, to_row) || !second_open(floor, to_column, row))
        return -1;
    return to_row * (long)floor->width + to_column;
}

static int says_length(uint32_t entry)
{
    return entry / 65536 <= LIMIT && entry % 65536 <= LIMIT;
}

/* the least of the neighbours' entries plus the step, as a number that may pass the limit; the mark with none */
static uint64_t least_offer(const second_floor *floor, size_t cell, const uint32_t *table)
{
    uint64_t least = WAYS_MARK;
    int heading;
    for (heading = 0; heading < 8; heading++) {
        long to = step_to(floor, cell, heading);
        uint64_t offer;
        if (to < 0 || !says_length(table[to]))
            continue;
        offer = (uint64_t)table[to] + (heading % 2 == 0 ? 65536 : 1);
        if (least == WAYS_MARK || second_shorter((uint32_t)(offer / 65536), (uint32_t)(offer % 65536),
                                                 (uint32_t)(least / 65536), (uint32_t)(least % 65536)))
            least = offer;
    }
    return least;
}

void second_fill(const second_floor *floor, size_t goal, uint32_t *table)
{
    size_t cells = floor->width * floor->height, i;
    int changed = 1, forwards = 1;
    for (i = 0; i < cells; i++)
        table[i] = WAYS_MARK;
    table[goal] = 0;
    while (changed) {
        changed = 0;
        for (i = 0; i < cells; i++) {
            size_t cell = forwards ? i : cells - 1 - i;
            uint64_t made;
            if (cell == goal)
                continue;
            made = least_offer(floor, cell, table);
            if (made != table[cell]) {
                table[cell] = (uint32_t)made;
                changed = 1;
            }
        }
        forwards = !forwards;
    }
}

size_t second_check(const second_floor *floor, size_t goal, const uint32_t *table)
{
    size_t cells = floor->width * floor->height, cell;
    for (cell = 0; cell < cells; cell++) {
        uint64_t made = cell == goal ? 0 : least_offer(floor, cell, table);
        if (table[cell] != WAYS_MARK && !says_length(table[cell]))
            return cell;
        if (table[cell] != made)
            return cell;
    }
    return cells;
}

long second_route(const second_floor *floor, size_t start, size_t goal, uint8_t *headings)
{
    static uint32_t to_goal[16384], to_start[16384];
    uint32_t whole;
    size_t cell = start;
    long count = 0;
    second_fill(floor, goal, to_goal);
    if (to_goal[start] == WAYS_MARK)
        return -1;
    second_fill(floor, start, to_start);
    whole = to_start[goal];
    while (cell != goal) {
        int heading;
        for (heading = 0; heading < 8; heading++) {
            long to = step_to(floor, cell, heading);
            uint32_t step = heading % 2 == 0 ? 65536 : 1;
            /* the steps so far, this one, and a shortest rest make a shortest whole */
            if (to >= 0 && to_goal[to] != WAYS_MARK && to_start[cell] + step + to_goal[to] == whole)
                break;
        }
        headings[count++] = (uint8_t)heading;
        cell = (size_t)step_to(floor, cell, heading);
    }
    return count;
}

ways_room_answer second_room(const second_floor *floor, size_t column, size_t row)
{
    ways_room_answer room = { 0, 0, 0, 0, 0 };
    long left = (long)column, right = (long)column, top = (long)row, bottom = (long)row, r;
    int grows;
    while (second_open(floor, left, top - 1))
        top--;
    while (second_open(floor, left, bottom + 1))
        bottom++;
    do {
        grows = 1;
        for (r = top; r <= bottom; r++)
            grows = grows && second_open(floor, left - 1, r);
        left -= grows;
    } while (grows);
    do {
        grows = 1;
        for (r = top; r <= bottom; r++)
            grows = grows && second_open(floor, right + 1, r);
        right += grows;
    } while (grows);
    room.left = (size_t)left;
    room.top = (size_t)top;
    room.right = (size_t)right;
    room.bottom = (size_t)bottom;
    return room;
}

ways_plan_answer second_plan(const uint8_t *bytes, size_t length)
{
    ways_plan_answer plan, broken;
    size_t at = 0, record = 0;
    memset(&plan, 0, sizeof plan);
    memset(&broken, 0, sizeof broken);
    for (;;) {
        size_t content, kind;
        if (at == length && record >= 3)
            break;
        broken.number = 14;
        broken.offset = at;
        if (length - at < 4)
            return broken;
        content = bytes[at] + 256u * bytes[at + 1];
        kind = bytes[at + 2] + 256u * bytes[at + 3];
        if (length - at - 4 < content || kind != (record < 3 ? record + 1 : 4) || record == 67)
            return broken;
        if ((kind == 1 && content != 4) || (kind == 3 && content != 2) || (kind == 4 && content != 8))
            return broken;
        if (kind == 1) {
            plan.width = bytes[at + 4] + 256u * bytes[at + 5];
            plan.height = bytes[at + 6] + 256u * bytes[at + 7];
        } else if (kind == 2) {
            plan.map_at = at + 4;
            plan.map_length = content;
        } else if (kind == 3) {
            plan.size = bytes[at + 4] + 256u * bytes[at + 5];
            plan.first_query = at + 6;
        } else
            plan.queries++;
        record++;
        at += 4 + content;
    }
    return plan;
}
