// First fit over a peer's test whether a backbone is connected. The rest is the same for all.
#include "ours.h"
#include "peers.h"
#include <cstdio>
#include <cstdlib>

namespace {
struct Builder {
    const Set &graph;
    std::unique_ptr<Connectivity> parts;
    uint32_t all, neighbours[32] = {}, isolated[cap + 1] = {};

    Builder(Test test, const Set &s) : graph(s), parts(test(s)), all(UINT32_MAX >> (32 - s.n)) {
        for (int l = 0; l < s.m; l++) neighbours[s.a[l]] |= 1u << s.b[l], neighbours[s.b[l]] |= 1u << s.a[l];
    }

    // The two-link rule comes first, as it is the cheaper one; the order does not show in what is built.
    bool admits(uint32_t alone) const {
        uint32_t backbone = all & ~alone;
        if (!backbone) return false;
        for (uint32_t left = alone; left; left &= left - 1) {
            uint32_t joined = neighbours[__builtin_ctz(left)] & backbone;
            if (!(joined & (joined - 1))) return false;
        }
        return parts->connected(backbone);
    }

    int first(int v) {
        for (int i = 1; i <= cap; i++)
            if (admits(isolated[i] | 1u << v)) {
                isolated[i] |= 1u << v;
                return i;
            }
        std::fprintf(stderr, "n = %d, m = %d: no topology admits node %d\n", graph.n, graph.m, v);
        std::exit(1);
    }
};
}

// Where first fit finds a topology for every node, no node's removal disconnects the others: refusal 9 needs no test of its own.
size_t peer_build(Test test, const Set &graph, uint8_t *out) {
    Builder builder(test, graph);
    uint8_t homes[32];
    int k = 0;
    for (int v = 0; v < graph.n; v++) {
        homes[v] = builder.first(v);
        if (homes[v] > k) k = homes[v];
    }
    return encode(graph, k, homes, out);
}
