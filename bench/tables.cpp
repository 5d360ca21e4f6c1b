// All next hops and alternates. Only the distances are the peer's own: the topologies and the choice are the same for all.
#include "peers.h"

// 0 for a link that is not used
static uint32_t weight(const Set &s, int i, int l) {
    bool p = isolated(s, i, s.a[l]), q = isolated(s, i, s.b[l]);
    if (p && q) return 0;
    if (p || q) return 2u * s.m * s.wmax;
    return i == 0 ? s.weights[l] : s.rows[(i - 1) * s.m + l];
}

static Topology topology(const Set &s, int i) {
    Topology g{s.n, {}, {}, {}};
    g.links.reserve(s.m);
    g.from.assign(s.n + 1, 0);
    for (int l = 0; l < s.m; l++) {
        uint32_t w = weight(s, i, l);
        if (!w) continue;
        g.links.push_back({s.a[l], s.b[l], w});
        g.from[s.a[l] + 1]++, g.from[s.b[l] + 1]++;
    }
    for (int v = 0; v < s.n; v++) g.from[v + 1] += g.from[v];
    g.arcs.resize(g.from[s.n]);
    vector<int> at(g.from.begin(), g.from.end() - 1);
    // links rise by a, then b: the lower neighbours of each node come first, in order
    for (int pass = 0; pass < 2; pass++)
        for (const Link &l : g.links) {
            bool r = isolated(s, i, l.a) != isolated(s, i, l.b);
            if (pass == 0) g.arcs[at[l.b]++] = {l.a, r, l.weight};
            else g.arcs[at[l.a]++] = {l.b, r, l.weight};
        }
    return g;
}

static void next_hops(const Topology &g, int t, const uint32_t *d, uint8_t *table) {
    for (int u = 0; u < g.n; u++) {
        uint8_t hop = u;
        if (u != t)
            for (int e = g.from[u]; e < g.from[u + 1]; e++)
                if (g.arcs[e].weight + d[g.arcs[e].to] == d[u]) {
                    hop = g.arcs[e].to;
                    break;
                }
        table[u * g.n + t] = hop;
    }
}

// A neighbour with the same home is over an isolated link, which the topology does not hold.
static uint8_t alternate(const Topology &g, int u, int t, const uint32_t *d) {
    bool neighbour = false;
    uint8_t best = 255;
    uint32_t least = UINT32_MAX;
    for (int e = g.from[u]; e < g.from[u + 1]; e++) {
        const Arc &c = g.arcs[e];
        if (c.to == t) neighbour = true;
        else if (c.restricted && d[c.to] < least) least = d[c.to], best = c.to;
    }
    return neighbour ? best : 255;
}

size_t peer_tables(Engine engine, const Set &s, uint8_t *out) {
    uint32_t distances[32 * 32];
    uint8_t *alternates = out + (s.k + 1) * s.n * s.n;
    for (int i = 0; i <= s.k; i++) {
        Topology g = topology(s, i);
        engine(g, distances);
        for (int t = 0; t < s.n; t++) {
            const uint32_t *d = distances + t * s.n;
            next_hops(g, t, d, out + i * s.n * s.n);
            for (int u = 0; u < s.n; u++)
                if (s.homes[u] == i) alternates[u * s.n + t] = alternate(g, u, t, d);
        }
    }
    return (size_t)(s.k + 2) * s.n * s.n;
}
