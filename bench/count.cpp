// One fill and one check of one floor, for callgrind or an emulator to count: count KIND SIDE, with KIND open, racks, random, rooms or serpentine;
// with a third argument it fills alone.
#include <cstdlib>
#include <cstring>
#include "floors.hpp"
#include "ways.h"

int main(int argc, char **argv) {
    if (argc != 3 && argc != 4) return 2;
    const std::size_t side = std::size_t(std::atoi(argv[2]));
    const Floor f = !std::strcmp(argv[1], "open") ? open_floor(side)
        : !std::strcmp(argv[1], "racks") ? racks(side)
        : !std::strcmp(argv[1], "rooms") ? rooms(side)
        : !std::strcmp(argv[1], "serpentine") ? serpentine(side)
        : random_floor(side, 20);
    std::vector<std::uint32_t> table(f.cells());
    if (ways_fill(f.width, f.height, f.map.data(), f.map.size(), f.goal % side, f.goal / side, table.data(), table.size()) != 0)
        return 1;
    if (argc == 4) return 0;
    return ways_check(f.width, f.height, f.map.data(), f.map.size(), f.goal % side, f.goal / side, table.data(), table.size()).number != 0;
}
