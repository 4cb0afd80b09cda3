/*
 * The stack that each call takes, measured: a thread whose stack is painted beforehand makes one call, and the paint that is
 * gone afterwards is counted. It prints the figures, and fails where one is above what ways.h names.
 */
#include <pthread.h>
#include <stdio.h>
#include <stdlib.h>
#include <string.h>
#include "ways.h"

#define STACK ((size_t)1 << 20)
#define PAINT 0xC9

static uint8_t *stack;
static uint8_t map[WAYS_LARGEST_MAP], legs[WAYS_LARGEST_LEGS], plan[64];
static uint32_t table[WAYS_LARGEST_TABLE];
static size_t side, failures;
static uint8_t *top;        /* the stack where the call is made */

/* the calls; a floor of side by side, all open, from corner to corner */
static void do_nothing(void) { }
static void do_compare(void) { ways_compare(140, 0, 0, 99); }
static void do_distance(void) { ways_distance(50, 0, 3); }
static void do_room(void) { ways_room(side, side, map, WAYS_MAP_BYTES(side, side), 0, 0); }
static void do_plan(void) { ways_read_plan(plan, sizeof plan); }
static void do_query(void) { ways_query(plan, sizeof plan, 0); }

static void do_fill(void)
{
    ways_fill(side, side, map, WAYS_MAP_BYTES(side, side), 0, 0, table, side * side);
}

static void do_check(void)
{
    ways_check(side, side, map, WAYS_MAP_BYTES(side, side), 0, 0, table, side * side);
}

static void do_find(void)
{
    ways_find_route(side, side, map, WAYS_MAP_BYTES(side, side), side - 1, side - 1, 0, 0, table, side * side, legs, sizeof legs);
}

static void do_read(void)
{
    ways_route_from_table(side, side, map, WAYS_MAP_BYTES(side, side), side - 1, side - 1, 0, 0, table, side * side, legs,
                          sizeof legs);
}

static void *call(void *what)
{
    volatile uint8_t here = 0;
    top = (uint8_t *)&here;
    (*(void (**)(void))what)();
    return NULL;
}

/* how many bytes of stack the call took */
static size_t taken(void (*what)(void))
{
    pthread_attr_t attributes;
    pthread_t thread;
    size_t i = 0;
    memset(stack, PAINT, STACK);
    if (pthread_attr_init(&attributes) != 0 || pthread_attr_setstack(&attributes, stack, STACK) != 0
        || pthread_create(&thread, &attributes, call, &what) != 0 || pthread_join(thread, NULL) != 0) {
        printf("no thread\n");
        exit(2);
    }
    while (i < STACK && stack[i] == PAINT)
        i++;
    return (size_t)(top - (stack + i));
}

static void measure(const char *name, size_t of_side, void (*what)(void), size_t most)
{
    size_t nothing, bytes;
    side = of_side;
    what();         /* once before, so that nothing is left to link */
    nothing = taken(do_nothing);
    bytes = taken(what);
    bytes = bytes > nothing ? bytes - nothing : 0;
    printf("%-24s %7zu bytes", name, bytes);
    if (of_side != 0)
        printf(", %zu by %zu", of_side, of_side);
    printf("\n");
    if (bytes > most) {
        printf("FAILED: ways.h names %zu\n", most);
        failures++;
    }
}

int main(void)
{
    if (posix_memalign((void **)&stack, 4096, STACK) != 0)
        return 2;
    measure("ways_compare", 0, do_compare, WAYS_LITTLE_STACK);
    measure("ways_distance", 0, do_distance, WAYS_LITTLE_STACK);
    measure("ways_room", 128, do_room, WAYS_LITTLE_STACK);
    measure("ways_read_plan", 0, do_plan, WAYS_LITTLE_STACK);
    measure("ways_query", 0, do_query, WAYS_LITTLE_STACK);
    measure("ways_fill", 18, do_fill, WAYS_FILL_STACK);
    measure("ways_fill", 128, do_fill, WAYS_FILL_STACK);
    measure("ways_check", 18, do_check, WAYS_CHECK_STACK);
    measure("ways_check", 128, do_check, WAYS_CHECK_STACK);
    measure("ways_find_route", 18, do_find, WAYS_FILL_STACK);
    measure("ways_find_route", 128, do_find, WAYS_FILL_STACK);
    measure("ways_route_from_table", 18, do_read, WAYS_CHECK_STACK);
    measure("ways_route_from_table", 128, do_read, WAYS_CHECK_STACK);
    return failures != 0;
}
