// The floors of the benchmarks, each with its goals, all from fixed seeds.
#pragma once
#include <cstdint>
#include <random>
#include <string>
#include <vector>

struct Floor {
    std::string name;
    std::size_t width, height;
    std::vector<std::uint8_t> map;
    std::vector<std::size_t> goals;
    std::size_t goal = 0;  // the one of the goals that is filled for now

    Floor(std::string name, std::size_t width, std::size_t height)
        : name(std::move(name)), width(width), height(height), map(height * ((width + 7) / 8)) {}

    std::size_t cells() const { return width * height; }

    bool blocked(std::size_t column, std::size_t row) const {
        return map[row * ((width + 7) / 8) + column / 8] >> (column % 8) & 1;
    }

    void block(std::size_t column, std::size_t row, bool shut = true) {
        std::uint8_t &byte = map[row * ((width + 7) / 8) + column / 8];
        const std::uint8_t bit = std::uint8_t(1u << (column % 8));
        byte = std::uint8_t(shut ? byte | bit : byte & ~bit);
    }

    // on the floor and open; columns and rows may be off it
    bool open(long column, long row) const {
        return column >= 0 && row >= 0 && column < long(width) && row < long(height)
            && !blocked(std::size_t(column), std::size_t(row));
    }
};

// the cells of the largest floor
constexpr std::size_t LARGE = 16384;

// column and row changes of the eight headings; an odd heading is a diagonal step
constexpr int ACROSS[8] = {0, 1, 1, 1, 0, -1, -1, -1};
constexpr int DOWN[8] = {-1, -1, 0, 1, 1, 1, 0, -1};

// Takes goals out of the largest part of the floor that hangs together: ten on a floor of 128 × 128 cells, and on a smaller one so many more
// that as many cells are filled in all.
inline void goals_in_largest(Floor &floor) {
    std::vector<char> seen(floor.cells());
    std::vector<std::size_t> largest;
    for (std::size_t first = 0; first < floor.cells(); first++) {
        if (seen[first] || floor.blocked(first % floor.width, first / floor.width)) continue;
        std::vector<std::size_t> part{first};
        seen[first] = 1;
        for (std::size_t i = 0; i < part.size(); i++) {
            const long column = long(part[i] % floor.width), row = long(part[i] / floor.width);
            for (int heading = 0; heading < 8; heading += 2) {
                const long c = column + ACROSS[heading], r = row + DOWN[heading];
                if (!floor.open(c, r) || seen[std::size_t(r) * floor.width + std::size_t(c)]) continue;
                seen[std::size_t(r) * floor.width + std::size_t(c)] = 1;
                part.push_back(std::size_t(r) * floor.width + std::size_t(c));
            }
        }
        if (part.size() > largest.size()) largest = part;
    }
    std::mt19937 random(5);
    for (std::size_t i = 0; i < 10 * (LARGE / floor.cells()); i++) floor.goals.push_back(largest[random() % largest.size()]);
    floor.goal = floor.goals[0];
}

inline Floor open_floor(std::size_t side) {
    Floor floor("open", side, side);
    goals_in_largest(floor);
    return floor;
}

// Racks of two columns with aisles of three between them, and cross aisles of three.
inline Floor racks(std::size_t side) {
    Floor floor("racks", side, side);
    for (std::size_t row = 4; row + 4 < side; row++)
        for (std::size_t column = 2; column + 2 < side; column++)
            if (row % 40 >= 3 && (column % 5 == 2 || column % 5 == 3)) floor.block(column, row);
    goals_in_largest(floor);
    return floor;
}

inline Floor random_floor(std::size_t side, unsigned percent) {
    Floor floor("random " + std::to_string(percent) + " %", side, side);
    std::mt19937 random(100 + percent);
    for (std::size_t cell = 0; cell < floor.cells(); cell++)
        if (random() % 100 < percent) floor.block(cell % side, cell / side);
    goals_in_largest(floor);
    return floor;
}

// Rooms of 15 by 15 with a door of two cells in each wall.
inline Floor rooms(std::size_t side) {
    Floor floor("rooms", side, side);
    std::mt19937 random(7);
    for (std::size_t cell = 0; cell < floor.cells(); cell++)
        if (cell / side % 16 == 15 || cell % side % 16 == 15) floor.block(cell % side, cell / side);
    for (std::size_t down = 0; down < side; down += 16)
        for (std::size_t across = 0; across < side; across += 16) {
            const std::size_t row = down + 2 + random() % 10, column = across + 2 + random() % 10;
            if (across + 16 < side)
                for (std::size_t i = 0; i < 2; i++) floor.block(across + 15, row + i, false);
            if (down + 16 < side)
                for (std::size_t i = 0; i < 2; i++) floor.block(column + i, down + 15, false);
        }
    goals_in_largest(floor);
    return floor;
}

// One corridor that turns at each end: the longest ways there are.
inline Floor serpentine(std::size_t side) {
    Floor floor("serpentine", side, side);
    for (std::size_t row = 1; row < side; row += 2)
        for (std::size_t column = 0; column < side; column++)
            if (column != (row / 2 % 2 == 0 ? side - 1 : 0)) floor.block(column, row);
    goals_in_largest(floor);
    return floor;
}

// Every kind of floor, with sides of 128 and of 16 cells.
inline std::vector<Floor> all_floors() {
    std::vector<Floor> floors;
    for (const std::size_t side : {std::size_t(128), std::size_t(16)}) {
        floors.push_back(open_floor(side));
        floors.push_back(racks(side));
        for (unsigned percent = 10; percent <= 40; percent += 10) floors.push_back(random_floor(side, percent));
        floors.push_back(rooms(side));
        floors.push_back(serpentine(side));
    }
    for (Floor &floor : floors)
        if (floor.width == 16) floor.name = "16 × 16, " + floor.name;
    return floors;
}
