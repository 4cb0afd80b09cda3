// The library's fill in C++: the same bands, the same numbers, the same loading and storing, the same two sizes of scratch, the queue in the table.
#include "peers.hpp"

namespace PEER {
namespace {

using u8 = std::uint8_t;
using u32 = std::uint32_t;
using std::size_t;

// A number is WIDE * q + r + 73 where 13860 * q + r = 13860 * (straight + 1) + 19601 * diagonal, with r below 13860. It is late, r at least 8119,
// if its bit of 8192 is set.
constexpr u32 UNREACHED = 2147483648u, WIDE = 16384, HALF = 8192, GOAL = WIDE + 73, EARLY = 22125, LATE = 24649, MARK = 4294967295u;
constexpr size_t STRIDE = 130;

// The lesser of two numbers.
inline u32 lesser(u32 a, u32 b) { return a < b ? a : b; }

// Lowers the number of a place, if this one is less, and puts the place behind the queue. Gives the number before.
inline u32 lower(u32 *__restrict work, u32 *__restrict queue, size_t tail, size_t place, u32 number) {
    const u32 before = work[place];
    work[place] = lesser(number, before);
    queue[tail] = u32(place);
    return before;
}

inline size_t offer(u32 *__restrict work, u32 *__restrict queue, size_t tail, size_t place, u32 number) {
    const u32 before = lower(work, queue, tail, place, number);
    return tail + (before ^ lesser(number, before)) / UNREACHED;
}

inline size_t place_of(size_t from, int heading) { return from + size_t(DOWN[heading] * int(STRIDE) + ACROSS[heading]); }

// Where the queue ends after a straight step, and the mask of the cell that it leads to: UNREACHED if it is blocked, else 0.
struct Side {
    size_t tail;
    u32 mask;
};

inline Side side_step(u32 *__restrict work, u32 *__restrict queue, size_t tail, size_t from, int heading, u32 number) {
    const u32 before = lower(work, queue, tail, place_of(from, heading), number);
    return {tail + before / UNREACHED, (before - 1) / UNREACHED * UNREACHED};
}

// All steps out of a cell.
inline size_t cell_steps(u32 *__restrict work, u32 *__restrict queue, size_t tail, size_t from) {
    const u32 number = work[from], straight = number + WIDE, diagonal = number + (number / HALF % 2 == 0 ? EARLY : LATE);
    const Side north = side_step(work, queue, tail, from, 0, straight);
    u32 side = north.mask;
    tail = north.tail;
    for (int heading = 1; heading < 8; heading += 2) {
        const Side other = heading == 7 ? Side{tail, north.mask} : side_step(work, queue, tail, from, heading + 1, straight);
        tail = offer(work, queue, other.tail, place_of(from, heading), diagonal | side | other.mask);
        side = other.mask;
    }
    return tail;
}

// Brings the cells of queue[mid..tail] below the limit before those that wait. Gives where the first one that waits stands.
inline size_t ready_first(const u32 *__restrict work, u32 *__restrict queue, size_t mid, size_t tail, u32 limit) {
    if (mid == tail) return mid;
    size_t top = mid + (work[queue[mid]] < limit);
    for (size_t i = mid + 1; i < tail; i++) {
        const u32 cell = queue[i];
        queue[i] = queue[top];
        queue[top] = cell;
        top += work[cell] < limit;
    }
    return top;
}

inline size_t ready_steps(u32 *__restrict work, u32 *__restrict queue, size_t mid, size_t top, size_t tail) {
    for (size_t i = mid; i < top; i++) tail = cell_steps(work, queue, tail, queue[i]);
    return tail;
}

// A cell waits at most once: those of queue[mid..fresh] waited in the band before, and are ready.
void all_bands(u32 *__restrict work, u32 *__restrict queue, size_t goal) {
    size_t mid = 0, fresh = 0, tail = cell_steps(work, queue, 0, goal);
    for (u32 limit = 3 * WIDE; mid < tail; limit += WIDE) {
        const size_t top = ready_first(work, queue, fresh, tail, limit);
        fresh = tail;
        tail = ready_steps(work, queue, mid, top, tail);
        mid = top;
    }
}

// The numbers of four cells, for each value of the four bits of their map.
constexpr u32 U = UNREACHED;
constexpr u32 FOURS[16][4] = {{U, U, U, U}, {0, U, U, U}, {U, 0, U, U}, {0, 0, U, U}, {U, U, 0, U}, {0, U, 0, U}, {U, 0, 0, U}, {0, 0, 0, U},
                              {U, U, U, 0}, {0, U, U, 0}, {U, 0, U, 0}, {0, 0, U, 0}, {U, U, 0, 0}, {0, U, 0, 0}, {U, 0, 0, 0}, {0, 0, 0, 0}};

// The first cells of one map byte, as many as count says.
inline void load_byte(u32 *to, u8 byte, size_t count) {
    for (size_t i = 0; i < count; i++) to[i] = FOURS[byte >> (i / 4 * 4) & 15][i % 4];
}

void load(u32 *__restrict work, const Floor &floor) {
    for (size_t row = 0; row < floor.height; row++) {
        const u8 *bytes = floor.map.data() + row * ((floor.width + 7) / 8);
        u32 *to = work + (row + 1) * STRIDE + 1;
        size_t column = 0;
        for (; column + 8 <= floor.width; column += 8) load_byte(to + column, bytes[column / 8], 8);
        if (column < floor.width) load_byte(to + column, bytes[column / 8], floor.width - column);
    }
}

inline u32 entry_of(u32 number) {
    if (number == 0 || number >= UNREACHED) return MARK;
    const u32 above = number - GOAL, rest = above % WIDE, turns = rest * 27145 / 65536, left = rest * 5741 - turns * 13860;
    const u32 more = left < 13860 ? 0 : 1;
    return (above / WIDE + 19601 * (turns + more) - 8119 * rest) * 65536 + (left - more * 13860);
}

void store(const u32 *__restrict work, const Floor &floor, u32 *__restrict table) {
    for (size_t row = 0; row < floor.height; row++)
        for (size_t column = 0; column < floor.width; column++)
            table[row * floor.width + column] = entry_of(work[(row + 1) * STRIDE + column + 1]);
}

void fill_in(u32 *__restrict work, const Floor &floor, u32 *__restrict table) {
    load(work, floor);
    const size_t goal = (floor.goal / floor.width + 1) * STRIDE + floor.goal % floor.width + 1;
    work[goal] = GOAL;
    all_bands(work, table, goal);
    store(work, floor, table);
}

template <size_t Cells> __attribute__((noinline)) void fill_with(const Floor &floor, u32 *__restrict table) {
    u32 work[Cells] = {};
    fill_in(work, floor, table);
}

}  // namespace

void bands_fill(const Floor &floor, u32 *__restrict table) {
    if (floor.height <= 18)
        fill_with<20 * STRIDE>(floor, table);
    else
        fill_with<130 * STRIDE>(floor, table);
}

}  // namespace PEER
