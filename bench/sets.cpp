#include "sets.h"
#include "../include/burnishpeg.h"
#include <algorithm>
#include <cstdio>
#include <cstdlib>
#include <utility>

size_t encode(const Set &s, int k, const uint8_t *homes, uint8_t *out) {
    uint8_t *p = out;
    auto byte = [&](int x) { *p++ = (uint8_t)x; };
    auto two = [&](int x) { byte(x / 256), byte(x % 256); };
    byte('N'), byte('W'), byte(s.n), two(s.m), byte(k), two(s.wmax);
    for (int l = 0; l < s.m; l++) byte('L'), byte('K'), byte(s.a[l]), byte(s.b[l]), two(s.weights[l]);
    if (k == 0) return p - out;
    for (int v = 0; v < s.n; v++) byte('H'), byte('M'), byte(v), byte(homes[v]);
    for (int i = 1; i <= k; i++) {
        byte('B'), byte('W'), byte(i);
        for (int l = 0; l < s.m; l++) two(homes[s.a[l]] == i || homes[s.b[l]] == i ? 0 : s.weights[l]);
    }
    return p - out;
}

using Links = vector<std::pair<int, int>>;

// Neighbours on the ring first, then chords of each length, until there are m links.
static Links ring_with_chords(int n, int m) {
    Links links;
    for (int step : {1, 2, 5, 11})
        for (int v = 0; v < n && (int)links.size() < m; v++) links.push_back({v, (v + step) % n});
    return links;
}

// The nodes renamed by a shuffle that follows from the seed; the seed 0 names them as they are.
static void rename(Links &links, int n, uint32_t seed) {
    vector<int> name(n);
    for (int v = 0; v < n; v++) name[v] = v;
    for (int v = n - 1; v > 0 && seed; v--) {
        seed = seed * 1664525u + 1013904223u;
        std::swap(name[v], name[(seed >> 8) % (v + 1)]);
    }
    for (auto &l : links) l = {name[l.first], name[l.second]};
}

// The file wants a below b, and the links by a, then b.
static void put_in_order(Links &links, int n, int m) {
    for (auto &l : links)
        if (l.first > l.second) std::swap(l.first, l.second);
    std::sort(links.begin(), links.end());
    if ((int)links.size() != m || std::adjacent_find(links.begin(), links.end()) != links.end()) {
        std::fprintf(stderr, "n = %d, m = %d: too few different chords\n", n, m);
        std::exit(1);
    }
}

std::string label(const Size &size) {
    return std::to_string(size.n) + ", " + std::to_string(size.m) + (size.k ? ", " + std::to_string(size.k) : "");
}

Set make_set(const Size &size, int number) {
    Set s{size.n, size.m, size.k, 1000, {}, {}, {}, {}, {}, {}};
    Links links = ring_with_chords(s.n, s.m);
    if (s.k == 0) rename(links, s.n, 7919 * number);
    put_in_order(links, s.n, s.m);
    uint32_t seed = 1 + 7919 * number;
    for (auto &l : links) {
        s.a.push_back(l.first);
        s.b.push_back(l.second);
        seed = seed * 1664525u + 1013904223u;
        s.weights.push_back(1 + (seed >> 8) % s.wmax);
    }
    for (int v = 0; v < s.n && s.k > 0; v++) s.homes.push_back(v % s.k + 1);
    for (int i = 1; i <= s.k; i++)
        for (int l = 0; l < s.m; l++) s.rows.push_back(isolated(s, i, s.a[l]) || isolated(s, i, s.b[l]) ? 0 : s.weights[l]);
    s.file.resize(BURNISHPEG_LONGEST_FILE);
    s.file.resize(encode(s, s.k, s.homes.data(), s.file.data()));
    return s;
}
