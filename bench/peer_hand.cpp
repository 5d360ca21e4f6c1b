// Written by hand: with so few nodes a scan for the nearest is quicker than a heap, and a word holds every set of nodes.
#include "peers.h"
#include <algorithm>

void hand_dijkstra(const Topology &g, uint32_t *out) {
    for (int t = 0; t < g.n; t++) {
        uint32_t *d = out + t * g.n;
        std::fill(d, d + g.n, UINT32_MAX);
        d[t] = 0;
        uint32_t left = UINT32_MAX >> (32 - g.n);
        while (left) {
            int u = -1;
            uint32_t nearest = UINT32_MAX;
            for (uint32_t w = left; w; w &= w - 1) {
                int v = __builtin_ctz(w);
                if (d[v] < nearest) nearest = d[v], u = v;
            }
            if (u < 0) break;
            left &= ~(1u << u);
            for (int e = g.from[u]; e < g.from[u + 1]; e++) {
                uint32_t sum = nearest + g.arcs[e].weight;
                if (sum < d[g.arcs[e].to]) d[g.arcs[e].to] = sum;
            }
        }
    }
}

namespace {
struct Search : Connectivity {
    uint32_t neighbours[32] = {};

    explicit Search(const Set &s) {
        for (int l = 0; l < s.m; l++) neighbours[s.a[l]] |= 1u << s.b[l], neighbours[s.b[l]] |= 1u << s.a[l];
    }

    bool connected(uint32_t nodes) override {
        uint32_t waiting = nodes & -nodes, left = nodes ^ waiting;
        while (waiting && left) {
            uint32_t found = neighbours[__builtin_ctz(waiting)] & left;
            waiting = (waiting & (waiting - 1)) | found;
            left ^= found;
        }
        return left == 0;
    }
};
}

std::unique_ptr<Connectivity> hand_search(const Set &graph) { return std::make_unique<Search>(graph); }
