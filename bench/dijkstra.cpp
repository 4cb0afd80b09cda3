// Boost.Graph's Dijkstra with exact pairs, on a compressed sparse row graph, in two forms: a length as a struct of two numbers, and as a
// table's entry, both parts in one number. Lengths are compared by the whole numbers p² and 2q². The graphs are built beforehand; in a third form,
// as the first, the graph is built from the map and the table is written.
#include <boost/graph/compressed_sparse_row_graph.hpp>
#include <boost/graph/dijkstra_shortest_paths.hpp>
#include <memory>
#include "peers.hpp"

namespace {

using u32 = std::uint32_t;
using i64 = std::int64_t;

constexpr u32 MARK = 4294967295u;

bool pair_shorter(u32 straight, u32 diagonal, u32 other_straight, u32 other_diagonal) {
    const i64 p = i64(straight) - i64(other_straight), q = i64(diagonal) - i64(other_diagonal);
    if (p >= 0 && q >= 0) return false;
    if (p <= 0 && q <= 0) return true;
    return p < 0 ? p * p > 2 * q * q : p * p < 2 * q * q;
}

// A length as a struct.
struct Apart {
    struct Length {
        u32 straight, diagonal;
    };
    static constexpr Length NONE{MARK, MARK}, ZERO{0, 0}, STRAIGHT{1, 0}, DIAGONAL{0, 1};
    static bool none(const Length &a) { return a.straight == MARK; }
    static bool shorter(const Length &a, const Length &b) { return pair_shorter(a.straight, a.diagonal, b.straight, b.diagonal); }
    static Length sum(const Length &a, const Length &b) { return {a.straight + b.straight, a.diagonal + b.diagonal}; }
    static u32 entry(const Length &a) { return a.straight * 65536 + a.diagonal; }
};

// A length as one number.
struct Packed {
    using Length = u32;
    static constexpr Length NONE = MARK, ZERO = 0, STRAIGHT = 65536, DIAGONAL = 1;
    static bool none(Length a) { return a == MARK; }
    static bool shorter(Length a, Length b) { return pair_shorter(a >> 16, a & 65535, b >> 16, b & 65535); }
    static Length sum(Length a, Length b) { return a + b; }
    static u32 entry(Length a) { return a; }
};

template <class Form> struct Solver {
    using Length = typename Form::Length;
    struct Step {
        Length length;
    };
    struct Shorter {
        bool operator()(const Length &a, const Length &b) const {
            return Form::none(a) || Form::none(b) ? !Form::none(a) && Form::none(b) : Form::shorter(a, b);
        }
    };
    struct Further {
        Length operator()(const Length &a, const Length &b) const {
            return Form::none(a) || Form::none(b) ? Form::NONE : Form::sum(a, b);
        }
    };
    using Graph = boost::compressed_sparse_row_graph<boost::directedS, boost::no_property, Step, boost::no_property, u32, u32>;

    std::unique_ptr<Graph> graph;
    std::vector<Length> lengths;

    void prepare(const Floor &floor) {
        std::vector<std::pair<u32, u32>> ends;
        std::vector<Step> steps;
        ends.reserve(8 * floor.cells());
        steps.reserve(8 * floor.cells());
        for (std::size_t cell = 0; cell < floor.cells(); cell++) {
            const long column = long(cell % floor.width), row = long(cell / floor.width);
            if (!floor.open(column, row)) continue;
            for (int heading = 0; heading < 8; heading++) {
                const long c = column + ACROSS[heading], r = row + DOWN[heading];
                if (!floor.open(c, r) || !floor.open(column, r) || !floor.open(c, row)) continue;
                ends.emplace_back(u32(cell), u32(r * long(floor.width) + c));
                steps.push_back({heading % 2 == 0 ? Form::STRAIGHT : Form::DIAGONAL});
            }
        }
        graph = std::make_unique<Graph>(boost::edges_are_sorted, ends.begin(), ends.end(), steps.begin(), u32(floor.cells()));
        lengths.assign(floor.cells(), Form::NONE);
    }

    void fill(const Floor &floor) {
        const Graph &g = *graph;
        const auto index = boost::get(boost::vertex_index, g);
        boost::dijkstra_shortest_paths(g, boost::vertex(u32(floor.goal), g),
                                       boost::weight_map(boost::get(&Step::length, g))
                                           .distance_map(boost::make_iterator_property_map(lengths.begin(), index))
                                           .distance_compare(Shorter())
                                           .distance_combine(Further())
                                           .distance_inf(Length(Form::NONE))
                                           .distance_zero(Length(Form::ZERO)));
    }

    void table(u32 *entries) const {
        for (std::size_t cell = 0; cell < lengths.size(); cell++)
            entries[cell] = Form::none(lengths[cell]) ? MARK : Form::entry(lengths[cell]);
    }
};

Solver<Apart> apart;
Solver<Packed> packed;

}  // namespace

void boost_prepare(const Floor &floor) {
    apart.prepare(floor);
    packed.prepare(floor);
}

void boost_apart(const Floor &floor) { apart.fill(floor); }
void boost_packed(const Floor &floor) { packed.fill(floor); }
void boost_whole(const Floor &floor, u32 *table) {
    Solver<Apart> whole;
    whole.prepare(floor);
    whole.fill(floor);
    whole.table(table);
}
void boost_apart_table(u32 *table) { apart.table(table); }
void boost_packed_table(u32 *table) { packed.table(table); }
