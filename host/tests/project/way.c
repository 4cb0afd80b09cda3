/* A small program of a user: the way round a rack in the middle of a floor of 5 by 3 cells. */
#include <stdio.h>
#include <ways.h>

int main(void)
{
    enum { WIDTH = 5, HEIGHT = 3 };
    uint8_t map[WAYS_MAP_BYTES(WIDTH, HEIGHT)] = { 0 }, legs[16];
    uint32_t table[WAYS_TABLE_ENTRIES(WIDTH, HEIGHT)];
    ways_route_answer way;
    ways_block(map, WIDTH, HEIGHT, 2, 1);
    way = ways_find_route(WIDTH, HEIGHT, map, sizeof map, 0, 1, 4, 1, table, WIDTH * HEIGHT, legs, sizeof legs);
    printf("%s %s: %zu legs\n", WAYS_VERSION, ways_meaning(way.number), way.legs);
    return 0;
}
