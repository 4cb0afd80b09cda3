/*
 * A second solver, independent of the library: the customer's document put into C as plainly as can be. Lengths are
 * compared as floating point numbers, which the small counts of a floor allow; a table is made by sweeping over the floor
 * until nothing changes; a route is found from the lengths to both of its ends.
 */
#ifndef SECOND_H
#define SECOND_H

#include <stddef.h>
#include <stdint.h>
#include "ways.h"

/* what a call is lent; lengths as they are, right or wrong */
typedef struct {
    size_t width, height;
    const uint8_t *map;
    size_t map_length;
} second_floor;

/* whether the first length is shorter */
int second_shorter(uint32_t straight, uint32_t diagonal, uint32_t other_straight, uint32_t other_diagonal);

/* the nearest whole number of centimetres */
size_t second_distance(uint32_t size, uint32_t straight, uint32_t diagonal);

/* on the floor and open; the floor is a sound one */
int second_open(const second_floor *floor, long column, long row);

/* the number of the first refusal that holds of those whose bits are set in asked (bit 1 for refusal 1, ..), or 0 */
size_t second_refused(const second_floor *floor, unsigned asked, size_t from_column, size_t from_row, size_t column,
                      size_t row, size_t entries);

/* the table for a goal on a sound floor */
void second_fill(const second_floor *floor, size_t goal, uint32_t *table);

/* the first cell that differs in a table, or the number of cells */
size_t second_check(const second_floor *floor, size_t goal, const uint32_t *table);

/* the route on a sound floor: its headings one by one, of which there are as many as are given back; -1 for no way */
long second_route(const second_floor *floor, size_t start, size_t goal, uint8_t *headings);

/* the room around an open cell of a sound floor */
ways_room_answer second_room(const second_floor *floor, size_t column, size_t row);

/* what the bytes are as a plan */
ways_plan_answer second_plan(const uint8_t *bytes, size_t length);

#endif
