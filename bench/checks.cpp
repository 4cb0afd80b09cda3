// A plain check in C++ with the library's arithmetic, one number for each cell: 13860 * straight + 19601 * diagonal of its
// entry; NONE for the mark; and one more than NONE, which is no sum's least, where the entry is malformed. A blocked cell has
// WALL, and one more where its entry is not the mark.
#include "peers.hpp"

namespace PEER {
namespace {

using u32 = std::uint32_t;
using std::size_t;

constexpr u32 WALL = 1073741824, NONE = 805306368, MARK = 4294967295u;
constexpr size_t STRIDE = 130;

inline u32 lesser(u32 a, u32 b) { return a < b ? a : b; }

inline u32 number_of(bool blocked, u32 entry) {
    const u32 straight = entry / 65536, diagonal = entry % 65536, unmarked = entry == MARK ? 0 : 1;
    if (blocked) return WALL + unmarked;
    return straight / 16384 + diagonal / 16384 == 0 ? 13860 * straight + 19601 * diagonal : NONE + unmarked;
}

// What a cell beside a diagonal step adds: nothing if it is open.
inline u32 shut(u32 number) { return number / WALL * WALL; }

// The least that the neighbours offer the cell at a place, or the start if that is less.
inline u32 least(const u32 *x, size_t place, u32 start) {
    const u32 n = x[place - STRIDE], e = x[place + 1], s = x[place + STRIDE], w = x[place - 1];
    const u32 straight = lesser(lesser(n, e), lesser(s, w)) + 13860;
    const u32 ne = x[place - STRIDE + 1] + shut(n) + shut(e), se = x[place + STRIDE + 1] + shut(s) + shut(e);
    const u32 sw = x[place + STRIDE - 1] + shut(s) + shut(w), nw = x[place - STRIDE - 1] + shut(n) + shut(w);
    const u32 slant = lesser(lesser(ne, se), lesser(sw, nw)) + 19601;
    return lesser(lesser(straight, slant), start);
}

inline bool differs(const u32 *x, size_t place, u32 start) {
    return (x[place] != least(x, place, start)) & (x[place] != WALL);
}

// The first cell of a row that differs, or the width: looked for one by one only where some cell does.
size_t judge_row(const u32 *x, size_t first, size_t width, size_t goal) {
    u32 count = 0;
    for (size_t c = 0; c < width; c++) count += differs(x, first + c, c == goal ? 0 : NONE);
    if (count == 0) return width;
    size_t c = 0;
    while (!differs(x, first + c, c == goal ? 0 : NONE)) c++;
    return c;
}

void load_row(u32 *to, const Floor &floor, const u32 *table, size_t row) {
    for (size_t c = 0; c < floor.width; c++) to[c] = number_of(floor.blocked(c, row), table[row * floor.width + c]);
}

// The goal's column in a row, or one past every row.
size_t goal_column(const Floor &floor, size_t row) { return floor.goal / floor.width == row ? floor.goal % floor.width : 128; }

}  // namespace

size_t border_check(const Floor &floor, const u32 *table) {
    u32 x[130 * STRIDE];
    for (u32 &number : x) number = WALL;
    for (size_t row = 0; row < floor.height; row++) load_row(x + (row + 1) * STRIDE + 1, floor, table, row);
    for (size_t row = 0; row < floor.height; row++) {
        const size_t column = judge_row(x, (row + 1) * STRIDE + 1, floor.width, goal_column(floor, row));
        if (column < floor.width) return row * floor.width + column;
    }
    return floor.cells();
}

size_t window_check(const Floor &floor, const u32 *table) {
    u32 x[3 * STRIDE];
    for (u32 &number : x) number = WALL;
    load_row(x + STRIDE + 1, floor, table, 0);
    for (size_t row = 0; row < floor.height; row++) {
        u32 *below = x + 2 * STRIDE + 1;
        if (row + 1 < floor.height)
            load_row(below, floor, table, row + 1);
        else
            for (size_t c = 0; c < floor.width; c++) below[c] = WALL;
        const size_t column = judge_row(x, STRIDE + 1, floor.width, goal_column(floor, row));
        if (column < floor.width) return row * floor.width + column;
        for (size_t z = 0; z < 2 * STRIDE; z++) x[z] = x[z + STRIDE];
    }
    return floor.cells();
}

}  // namespace PEER
