// The sets and graphs that are measured: rings with chords, as lists and as the bytes of their files.
#pragma once
#include <cstddef>
#include <cstdint>
#include <string>
#include <vector>

using std::size_t;
using std::vector;

struct Set {
    int n, m, k, wmax;
    vector<uint8_t> a, b, homes;
    vector<uint16_t> weights, rows;
    vector<uint8_t> file;
};

// `variety` is how many different sets of one size keep a processor from learning their branches by heart.
struct Size {
    int n, m, k, variety;
};

// A graph alone, k = 0, is what the builder is given.
constexpr Size set_sizes[3] = {{32, 128, 32, 8}, {16, 40, 4, 64}, {8, 14, 3, 256}};
constexpr Size graph_sizes[4] = {{32, 128, 0, 8}, {32, 32, 0, 8}, {16, 40, 0, 64}, {8, 14, 0, 256}};

// As the tables of times name a size.
std::string label(const Size &size);

// Node v is at home in topology v mod k + 1. The weights follow from the number of the set alone, so that every run has the same. The weights of a
// graph alone decide nothing for the builder, so graphs of different numbers differ in the numbers of their nodes too.
Set make_set(const Size &size, int number);

inline bool isolated(const Set &s, int i, int v) { return i > 0 && s.homes[v] == i; }

// The file of a graph's lists with these homes and with rows equal to topology 0's weights on normal links; returns its length.
size_t encode(const Set &graph, int k, const uint8_t *homes, uint8_t *out);
