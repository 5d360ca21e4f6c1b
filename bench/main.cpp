// Times of the proved entries beside the peers', as tables in Markdown. Every way must give the same bytes.
#include "counted.h"
#include "ours.h"
#include "peers.h"
#include <algorithm>
#include <cstdio>
#include <cstdlib>
#include <ctime>
#include <functional>

struct Way {
    const char *name;
    std::function<size_t(const Set &, uint8_t *)> call;
};

// Processor time, in microseconds: what else the machine does is not counted.
static double now() {
    timespec t;
    clock_gettime(CLOCK_PROCESS_CPUTIME_ID, &t);
    return t.tv_sec * 1e6 + t.tv_nsec / 1e3;
}

// The time of one call, over so many passes through the sets.
static double turn(const Way &way, const vector<Set> &sets, int passes, uint8_t *out) {
    double from = now();
    for (int j = 0; j < passes; j++)
        for (const Set &s : sets) way.call(s, out);
    return (now() - from) / (passes * sets.size());
}

// More rounds where a row is short: a slower spell of the machine should not fall on all of it.
constexpr int some_rounds = 40, many_rounds = 160;

// The least time of one call. The ways take turns, so that a slower spell of the machine falls on all alike. A turn is long, for the peers'
// sake: a way that comes after others has its caches and branches to learn anew, and theirs are more.
static vector<double> least(const vector<Way> &ways, const vector<Set> &sets, int rounds) {
    vector<uint8_t> out(most_bytes);
    vector<double> best;
    vector<int> passes;
    for (const Way &way : ways) {
        best.push_back(turn(way, sets, 1, out.data()));
        passes.push_back(1 + (int)(5000 / (best.back() * sets.size())));
    }
    for (int round = 0; round < rounds; round++)
        for (size_t w = 0; w < ways.size(); w++) best[w] = std::min(best[w], turn(ways[w], sets, passes[w], out.data()));
    return best;
}

[[noreturn]] static void other_bytes(const Set &s, const char *name) {
    std::fprintf(stderr, "n = %d, m = %d, %s: not the bytes that the proved entry gives\n", s.n, s.m, name);
    std::exit(1);
}

static void must_agree(const vector<Way> &ways, const Set &s) {
    vector<uint8_t> first(most_bytes, 7);
    size_t length = ways[0].call(s, first.data());
    for (const Way &way : ways) {
        vector<uint8_t> other(most_bytes, 7);
        if (way.call(s, other.data()) == length && std::equal(first.begin(), first.begin() + length, other.begin())) continue;
        other_bytes(s, way.name);
    }
}

// Microseconds, to two places below ten.
static std::string micros(double time) {
    char text[32];
    std::snprintf(text, sizeof text, time < 10 ? "%.2f" : "%.1f", time);
    return text;
}

static void heading(const char *what, const char *first, const vector<Way> &ways) {
    std::printf("\n### %s\n\n| %s |", what, first);
    for (const Way &way : ways) std::printf(" %s |", way.name);
    std::printf("\n|---|");
    for (size_t w = 0; w < ways.size(); w++) std::printf("---|");
    std::printf("\n");
}

// One row, ours first: this many sets of this size in turn.
static vector<double> row(const Size &size, int count, const vector<Way> &ways, int rounds) {
    vector<Set> sets;
    for (int j = 0; j < count; j++) sets.push_back(make_set(size, j));
    for (const Set &s : sets) must_agree(ways, s);
    vector<double> times = least(ways, sets, rounds);
    std::string name = label(size);
    if (count > 1) name += ": " + std::to_string(count) + (size.k ? " sets" : " graphs");
    std::printf("| %s | %s |", name.c_str(), micros(times[0]).c_str());
    for (size_t w = 1; w < times.size(); w++) std::printf(" %s (%.2f) |", micros(times[w]).c_str(), times[w] / times[0]);
    std::printf("\n");
    std::fflush(stdout);
    return times;
}

static const char *holds(bool it) { return it ? "holds" : "does not hold"; }

static bool no_slower_than_by_hand(const vector<vector<double>> &rows) {
    return std::all_of(rows.begin(), rows.end(), [](const vector<double> &times) { return times[0] <= times[1]; });
}

// What is asked of the tables, of the rows at n = 32 and n = 16. `boost` is the way that is Boost Graph's Dijkstra.
static void bar(const char *which, const vector<double> &wide, const vector<double> &middle, int boost) {
    double eighth = wide[0] / wide[boost], quarter = middle[0] / middle[boost];
    bool first = *std::min_element(wide.begin(), wide.end()) == wide[0] && *std::min_element(middle.begin(), middle.end()) == middle[0];
    std::printf("- %s: at n = 32 at most an eighth (0.125) of Boost's Dijkstra: %.3f, %s; at n = 16 at most a quarter (0.250): %.3f, %s; ", which,
                eighth, holds(eighth <= 0.125), quarter, holds(quarter <= 0.25));
    std::printf("faster than every peer at both: %s.\n", holds(first));
}

// Tables or reports, over every peer's distances: one set over and over, then different sets in turn.
static vector<vector<double>> over_engines(const char *what, size_t (*ours)(const Set &, uint8_t *), size_t (*theirs)(Engine, const Set &, uint8_t *)) {
    vector<Way> ways{{"proved", ours}};
    auto peer = [&](const char *name, Engine engine) {
        ways.push_back({name, [=](const Set &s, uint8_t *out) { return theirs(engine, s, out); }});
    };
    peer("by hand, Dijkstra", hand_dijkstra);
    peer("Boost, Dijkstra", boost_dijkstra);
    peer("Boost, Floyd-Warshall", boost_floyd_warshall);
    peer("LEMON, Dijkstra", lemon_dijkstra);
    peer("igraph, Dijkstra", igraph_dijkstra);
    peer("igraph, Floyd-Warshall", igraph_floyd_warshall);
    heading(what, "n, m, k", ways);
    vector<vector<double>> rows;
    for (const Size &size : set_sizes) rows.push_back(row(size, 1, ways, some_rounds));
    for (const Size &size : set_sizes) rows.push_back(row(size, size.variety, ways, some_rounds));
    return rows;
}

static void over_tests(const char *what) {
    vector<Way> ways{{"proved", our_build}};
    auto peer = [&](const char *name, Test test) {
        ways.push_back({name, [=](const Set &s, uint8_t *out) { return peer_build(test, s, out); }});
    };
    peer("by hand", hand_search);
    peer("Boost", boost_components);
    peer("LEMON", lemon_connected);
    peer("igraph", igraph_connected);
    heading(what, "n, m", ways);
    vector<vector<double>> rows;
    for (const Size &size : graph_sizes) rows.push_back(row(size, 1, ways, many_rounds));
    for (const Size &size : graph_sizes) rows.push_back(row(size, size.variety, ways, many_rounds));
    std::printf("\nWhat is asked of the builder: at every size no slower than the one by hand: %s.\n", holds(no_slower_than_by_hand(rows)));
}

// The proved builder's work on each size: on one graph, and the mean over different ones.
static void work() {
    std::printf("\n### Tests that the builder makes\n\n");
    std::printf("| n, m | tests of a topology | nodes looked from | isolated nodes asked for two links |\n|---|---|---|---|\n");
    for (bool different : {false, true})
        for (const Size &size : graph_sizes) {
            Work sum;
            int count = different ? size.variety : 1;
            for (int j = 0; j < count; j++) {
                Set graph = make_set(size, j);
                vector<uint8_t> proved(most_bytes), other(most_bytes);
                size_t length;
                Work one = counted(graph, other.data(), &length);
                if (our_build(graph, proved.data()) != length || proved != other) other_bytes(graph, "the model that counts");
                sum.tests += one.tests, sum.looked_from += one.looked_from, sum.asked += one.asked;
            }
            std::printf("| %s%s | %ld | %ld | %ld |\n", label(size).c_str(), different ? (": " + std::to_string(count) + " graphs").c_str() : "",
                        sum.tests / count, sum.looked_from / count, sum.asked / count);
        }
}

static size_t one_pass(const Set &s, uint8_t *) {
    size_t sum = 0;
    for (uint8_t byte : s.file) sum = sum * 31 + byte;
    return sum;
}

// Entries that no peer has, beside one pass over the file's bytes.
static void without_peers() {
    const vector<Set> largest{make_set(set_sizes[0], 0)};
    const vector<Way> ways{{"one pass over the bytes with a multiply each, for comparison", one_pass},
                           {"`read`: taken in, into lists", our_read},
                           {"`write`: laid from lists, taken in, and copied", our_write},
                           {"`run`, its tables among it", our_run}};
    vector<double> times = least(ways, largest, some_rounds);
    std::printf("\n### Other entries, on the longest file (n, m, k = %s: %zu bytes)\n\n| | microseconds |\n|---|---|\n", label(set_sizes[0]).c_str(),
                largest[0].file.size());
    for (size_t w = 0; w < ways.size(); w++) std::printf("| %s | %.1f |\n", ways[w].name, times[w]);
}

int main() {
    std::printf("Peers: by hand, Boost Graph %s, LEMON %s, igraph %s. ", boost_release().c_str(), lemon_release().c_str(), igraph_release().c_str());
    std::printf("Microseconds of one call; in brackets, how many times the proved entry's.\n");
    vector<vector<double>> tables = over_engines("Tables", our_tables, peer_tables);
    std::printf("\nWhat is asked of the tables:\n\n");
    bar("One set over and over", tables[0], tables[1], 2);
    bar("Different sets in turn", tables[3], tables[4], 2);
    vector<vector<double>> reports = over_engines("Report", our_report, peer_report);
    std::printf("\nWhat is asked of the report: at every size no slower than the one by hand: %s.\n", holds(no_slower_than_by_hand(reports)));
    over_tests("Build");
    work();
    without_peers();
}
