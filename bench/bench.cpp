// The benchmark: every floor is filled and checked by the library and by its peers. All must agree on every table before anything is timed.
// They run by turns, each floor for its goals, and of each the least time for each goal in a round is kept, and the mean of these over the
// goals; it prints a table of ratios for each way of taking turns, the median of the rounds and, where they differ, the least and the
// greatest. Times are shown for orientation.
#include <algorithm>
#include <chrono>
#include <cstdio>
#include <cstdlib>
#include <functional>
#include <numeric>
#include "peers.hpp"
#include "ways.h"

namespace {

using Table = std::vector<std::uint32_t>;
using Run = std::function<void()>;

constexpr double MISSING = 1e12;

std::size_t library_fill(const Floor &f, Table &table) {
    return ways_fill(f.width, f.height, f.map.data(), f.map.size(), f.goal % f.width, f.goal / f.width, table.data(), table.size());
}

ways_check_answer library_check(const Floor &f, const Table &table) {
    return ways_check(f.width, f.height, f.map.data(), f.map.size(), f.goal % f.width, f.goal / f.width, table.data(), table.size());
}

// A peer compiled from the library's own algorithms, by one compiler.
struct Compiled {
    void (*fill)(const Floor &, std::uint32_t *);
    std::size_t (*window)(const Floor &, const std::uint32_t *);
    std::size_t (*border)(const Floor &, const std::uint32_t *);
};

constexpr Compiled BY_G =
#ifdef WITH_G
    {by_g::bands_fill, by_g::window_check, by_g::border_check};
#else
    {};
#endif

constexpr Compiled BY_CLANG =
#ifdef WITH_CLANG
    {by_clang::bands_fill, by_clang::window_check, by_clang::border_check};
#else
    {};
#endif

void fail(const Floor &floor, const char *what) {
    std::fprintf(stderr, "%s: %s\n", floor.name.c_str(), what);
    std::exit(1);
}

// A table that is not right at one cell.
Table spoilt(const Table &table) {
    Table other = table;
    other[other.size() / 2] ^= 1;
    return other;
}

void agree(const Floor &floor, const Table &table) {
    Table other(floor.cells());
#ifdef WITH_BOOST
    boost_apart(floor);
    boost_apart_table(other.data());
    if (other != table) fail(floor, "Boost fills another table");
    boost_packed(floor);
    boost_packed_table(other.data());
    if (other != table) fail(floor, "Boost fills another table, with packed lengths");
    boost_whole(floor, other.data());
    if (other != table) fail(floor, "Boost fills another table, from the map on");
#endif
    for (const Compiled &peer : {BY_G, BY_CLANG}) {
        if (!peer.fill) continue;
        peer.fill(floor, other.data());
        if (other != table) fail(floor, "the bands in C++ fill another table");
        for (const Table &t : {table, spoilt(table)}) {
            const ways_check_answer answer = library_check(floor, t);
            const std::size_t cell = answer.number == 0 ? floor.cells() : answer.cell;
            if (peer.window(floor, t.data()) != cell || peer.border(floor, t.data()) != cell) fail(floor, "the checks disagree");
        }
    }
}

volatile std::size_t seen;

enum { FILL, CHECK, APART, PACKED, WHOLE, FILL_G, FILL_CLANG, WINDOW_G, BORDER_G, WINDOW_CLANG, BORDER_CLANG, RUNNERS };

// All that run on a floor, by number; one that is missing is empty. Each takes the floor as it stands, with one of its goals, and that goal's table.
std::vector<Run> runners(const Floor &floor, const Table *const &table, Table &other) {
    std::vector<Run> runs(RUNNERS);
    runs[FILL] = [&] { library_fill(floor, other); };
    runs[CHECK] = [&] { seen = library_check(floor, *table).number; };
#ifdef WITH_BOOST
    runs[APART] = [&] { boost_apart(floor); };
    runs[PACKED] = [&] { boost_packed(floor); };
    runs[WHOLE] = [&] { boost_whole(floor, other.data()); };
#endif
    for (int i = 0; i < 2; i++) {
        const Compiled peer = i == 0 ? BY_G : BY_CLANG;
        if (!peer.fill) continue;
        runs[FILL_G + i] = [&, peer] { peer.fill(floor, other.data()); };
        runs[WINDOW_G + 2 * i] = [&, peer] { seen = peer.window(floor, table->data()); };
        runs[BORDER_G + 2 * i] = [&, peer] { seen = peer.border(floor, table->data()); };
    }
    return runs;
}

// One round: so many turns of so many calls in a row each, goal after goal; of each runner the mean over the goals of its least time, in
// microseconds.
std::vector<double> round_of(Floor &floor, const std::vector<Table> &tables, int turns, int in_a_row) {
    using Clock = std::chrono::steady_clock;
    Table other(floor.cells());
    const Table *table = nullptr;
    const std::vector<Run> runs = runners(floor, table, other);
    const std::size_t goals = floor.goals.size();
    std::vector<std::vector<double>> least(runs.size(), std::vector<double>(goals, MISSING));
    for (int turn = 0; turn < turns; turn++)
        for (std::size_t i = 0; i < runs.size(); i++)
            for (int call = 0; runs[i] && call < in_a_row; call++) {
                const std::size_t goal = std::size_t(turn * in_a_row + call) % goals;
                floor.goal = floor.goals[goal];
                table = &tables[goal];
                const auto began = Clock::now();
                runs[i]();
                const std::chrono::duration<double, std::micro> took = Clock::now() - began;
                least[i][goal] = std::min(least[i][goal], took.count());
            }
    std::vector<double> mean;
    for (const std::vector<double> &times : least) mean.push_back(std::accumulate(times.begin(), times.end(), 0.0) / double(goals));
    return mean;
}

std::string number(double value) {
    char text[32];
    std::snprintf(text, sizeof text, value < 9.95 ? "%.2f" : "%.1f", value);
    return text;
}

// The median of the rounds, and how far they spread.
std::string spread(std::vector<double> values) {
    std::sort(values.begin(), values.end());
    if (values.back() > 1e6 || values.front() < 1e-6) return "not there";
    const std::string low = number(values.front()), middle = number(values[values.size() / 2]), high = number(values.back());
    return low == high ? middle : middle + " (" + low + "–" + high + ")";
}

constexpr std::size_t COLUMNS = 10;

void measure(Floor &floor, int rounds, int turns, int in_a_row) {
    std::vector<Table> tables;
#ifdef WITH_BOOST
    boost_prepare(floor);
#endif
    for (const std::size_t goal : floor.goals) {
        floor.goal = goal;
        Table table(floor.cells());
        if (library_fill(floor, table) != 0 || library_check(floor, table).number != 0) fail(floor, "the library refuses it");
        agree(floor, table);
        tables.push_back(table);
    }
    std::vector<std::vector<double>> shown(COLUMNS);
    for (int round = 0; round < rounds; round++) {
        const std::vector<double> t = round_of(floor, tables, turns, in_a_row);
        const double check_g = std::min(t[WINDOW_G], t[BORDER_G]), check_clang = std::min(t[WINDOW_CLANG], t[BORDER_CLANG]);
        const double row[COLUMNS] = {t[FILL], t[APART] / t[FILL], t[PACKED] / t[FILL], t[WHOLE] / t[FILL], t[FILL] / t[FILL_G],
                                     t[FILL] / t[FILL_CLANG], t[CHECK], t[CHECK] / check_g, t[CHECK] / check_clang, t[FILL] / t[CHECK]};
        for (std::size_t i = 0; i < COLUMNS; i++) shown[i].push_back(row[i]);
    }
    std::printf("| %s |", floor.name.c_str());
    for (const std::vector<double> &column : shown) std::printf(" %s |", spread(column).c_str());
    std::printf("\n");
    std::fflush(stdout);
}

}  // namespace

// bench ROUNDS CALLS ROW GOALS SMALL: so many calls in a round on 128 × 128, and 64 times as many on 16 × 16, ROW of them in a row at each turn, for
// so many of a floor's goals on 128 × 128 and on 16 × 16
int main(int argc, char **argv) {
    if (argc != 6) return 2;
    const int rounds = std::atoi(argv[1]), calls = std::atoi(argv[2]), row = std::atoi(argv[3]);
    const std::size_t large = std::size_t(std::atoi(argv[4])), small = std::size_t(std::atoi(argv[5]));
    if (rounds < 1 || row < 1 || calls < row || large < 1 || small < 1) return 2;
    std::printf("| floor | fill, µs | Boost, pairs / fill | Boost, packed / fill | Boost, map to table / fill | fill / C++ by g++ "
                "| fill / C++ by clang++ | check, µs | check / C++ by g++ | check / C++ by clang++ | fill / check |\n"
                "|---|---|---|---|---|---|---|---|---|---|---|\n");
    for (Floor &floor : all_floors()) {
        const std::size_t goals = floor.cells() == LARGE ? large : small;
        const int turns = calls * int(LARGE / floor.cells()) / row;
        if (goals > floor.goals.size() || goals > std::size_t(turns * row)) return 2;
        floor.goals.resize(goals);
        measure(floor, rounds, turns, row);
    }
}
