// The report's text over a peer's tables: the walk and the writer are the same for all.
#include "ours.h"
#include "peers.h"
#include <cstdio>
#include <cstdlib>
#include <cstring>

namespace {
struct Tables {
    const Set &s;
    const uint8_t *bytes;
    int next(int i, int u, int t) const { return bytes[(i * s.n + u) * s.n + t]; }
    int alternate(int u, int v) const { return bytes[((s.k + 1) * s.n + u) * s.n + v]; }
};

// What a node does that finds the link to its next hop down.
struct Detection {
    char kind;
    int topology, taken;
};
}

static Detection detect(const Tables &tables, int u, int v, int t) {
    int home = tables.s.homes[v], other = tables.next(home, u, t);
    if (other != v) return {t == v ? 'S' : 'T', home, other};
    return {'D', tables.s.homes[u], tables.alternate(u, v)};
}

// Moves from a node to t in one topology, the link between x and y down. In an accepted set that link is never met again.
static int hops(const Tables &tables, int i, int from, int t, int x, int y) {
    int count = 0;
    for (int u = from; u != t; count++) {
        int v = tables.next(i, u, t);
        if ((u == x && v == y) || (u == y && v == x)) {
            std::fprintf(stderr, "the walk to %d was dropped at %d\n", t, u);
            std::exit(1);
        }
        u = v;
    }
    return count;
}

static uint8_t *text(uint8_t *p, const char *words) {
    size_t length = std::strlen(words);
    std::memcpy(p, words, length);
    return p + length;
}

// A number of at most three digits, and what comes after it.
static uint8_t *number(uint8_t *p, int x, char after) {
    if (x >= 100) *p++ = '0' + x / 100;
    if (x >= 10) *p++ = '0' + x / 10 % 10;
    *p++ = '0' + x % 10;
    *p++ = after;
    return p;
}

// The same with a minus sign where it is below zero.
static uint8_t *signed_number(uint8_t *p, int x, char after) {
    if (x < 0) *p++ = '-', x = -x;
    return number(p, x, after);
}

static uint8_t *line(const Tables &tables, int u, int t, uint8_t *p) {
    int v = tables.next(0, u, t), none = tables.s.n;
    Detection found = detect(tables, u, v, t);
    int backup = 1 + hops(tables, found.topology, found.taken, t, u, v), plain = hops(tables, 0, u, t, none, none);
    p = number(p, u, ' '), p = number(p, v, ' '), p = number(p, t, ' ');
    *p++ = found.kind, *p++ = ' ';
    p = number(p, found.topology, ' '), p = number(p, found.taken, ' '), p = number(p, backup, ' ');
    return signed_number(p, backup - plain, '\n');
}

size_t peer_report(Engine engine, const Set &s, uint8_t *out) {
    vector<uint8_t> bytes((s.k + 2) * s.n * s.n);
    peer_tables(engine, s, bytes.data());
    Tables tables{s, bytes.data()};
    uint8_t *p = text(out, "node via dest kind topology next hops extra\n");
    for (int u = 0; u < s.n; u++)
        for (int t = 0; t < s.n; t++)
            if (u != t) p = line(tables, u, t, p);
    p = number(text(p, "detections "), s.n * (s.n - 1), '\n');
    return p - out;
}
