// What the library is measured beside.
#pragma once
#include "floors.hpp"

// The library's own algorithms in C++, once for each compiler that is there: its fill by bands, and one pass over the cells with
// its arithmetic, through a window of three rows and over an array with a border, which give the first cell that differs.
#define PEERS(name)                                                               \
    namespace name {                                                              \
    void bands_fill(const Floor &floor, std::uint32_t *table);                    \
    std::size_t window_check(const Floor &floor, const std::uint32_t *table);     \
    std::size_t border_check(const Floor &floor, const std::uint32_t *table);     \
    }
PEERS(by_g)
PEERS(by_clang)

// Boost.Graph's Dijkstra with exact pairs, in two forms: a length as a struct of two numbers, and packed into one as a table's entry is. The
// graphs are built beforehand, once for each floor; what they leave is made a table for comparison alone. And the whole of what a fill does, from
// the map to the table, in the first form.
void boost_prepare(const Floor &floor);
void boost_apart(const Floor &floor);
void boost_packed(const Floor &floor);
void boost_whole(const Floor &floor, std::uint32_t *table);
void boost_apart_table(std::uint32_t *table);
void boost_packed_table(std::uint32_t *table);
