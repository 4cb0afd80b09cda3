/*
 * A sample for C: reads a plan from standard input, finds the way for each query, and prints its legs as a headset would
 * say them, with the distance spoken.
 */
#include <stdio.h>
#include "ways.h"

static const char *const ONES[20] = {
    "", "one", "two", "three", "four", "five", "six", "seven", "eight", "nine", "ten", "eleven", "twelve", "thirteen",
    "fourteen", "fifteen", "sixteen", "seventeen", "eighteen", "nineteen"
};

static const char *const TENS[10] = {
    "", "", "twenty", "thirty", "forty", "fifty", "sixty", "seventy", "eighty", "ninety"
};

/* a leg's count, 1 to 127, in words */
static void print_count(unsigned count)
{
    if (count >= 100) {
        printf("one hundred");
        count -= 100;
        if (count == 0)
            return;
        printf(" ");
    }
    if (count < 20)
        printf("%s", ONES[count]);
    else if (count % 10 == 0)
        printf("%s", TENS[count / 10]);
    else
        printf("%s-%s", TENS[count / 10], ONES[count % 10]);
}

static void print_legs(const uint8_t *legs, size_t count)
{
    size_t i;
    if (count == 0)
        printf("you are there");
    for (i = 0; i < count; i++) {
        printf("%s%s ", i == 0 ? "" : ", ", ways_heading_name(legs[2 * i]));
        print_count(legs[2 * i + 1]);
    }
}

static void print_distance(size_t centimetres)
{
    size_t whole = centimetres / 100, rest = centimetres % 100;
    printf("%zu metre%s %zu centimetre%s", whole, whole == 1 ? "" : "s", rest, rest == 1 ? "" : "s");
}

/* one query's line */
static void say_way(const uint8_t *bytes, const ways_plan_answer *plan, const ways_query_answer *query)
{
    static uint32_t table[WAYS_LARGEST_TABLE];
    static uint8_t legs[WAYS_LARGEST_LEGS];
    /* a table of the wrong size is refused, and a floor that is too large is refused before the table is looked at */
    size_t entries = WAYS_TABLE_ENTRIES(plan->width, plan->height);
    size_t lent = entries <= WAYS_LARGEST_TABLE ? entries : WAYS_LARGEST_TABLE;
    ways_distance_answer distance;
    ways_route_answer route = ways_find_route(plan->width, plan->height, bytes + plan->map_at, plan->map_length,
                                              query->start_column, query->start_row, query->goal_column, query->goal_row,
                                              table, lent, legs, sizeof legs);
    if (route.number != WAYS_DONE) {
        printf("%s\n", ways_meaning(route.number));
        return;
    }
    print_legs(legs, route.legs);
    distance = ways_distance((uint32_t)plan->size, (uint32_t)route.straight, (uint32_t)route.diagonal);
    if (distance.number != WAYS_DONE) {
        printf("; %s\n", ways_meaning(distance.number));
        return;
    }
    printf("; ");
    print_distance(distance.centimetres);
    printf("\n");
}

int main(void)
{
    static uint8_t bytes[65536 + 1024];     /* room for any sound plan */
    size_t length = fread(bytes, 1, sizeof bytes, stdin);
    ways_plan_answer plan = ways_read_plan(bytes, length);
    size_t i;
    if (plan.number != WAYS_DONE) {
        printf("%s at %zu\n", ways_meaning(plan.number), plan.offset);
        return 1;
    }
    printf("a floor of %zu by %zu cells of %zu centimetres\n", plan.width, plan.height, plan.size);
    for (i = 0; i < plan.queries; i++) {
        ways_query_answer query = ways_query(bytes, length, plan.first_query + WAYS_QUERY_BYTES * i);
        printf("%zu: ", i + 1);
        say_way(bytes, &plan, &query);
    }
    return 0;
}
