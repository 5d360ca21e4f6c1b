// How often the proved builder tests a topology, and how many nodes a test looks at: its loops restated with counters. Its homes are written out
// as a set, which must be the proved one, byte by byte.
#include "counted.h"

namespace {
struct Model {
    uint32_t all, neighbours[32] = {}, isolated[33] = {};
    Work work;

    explicit Model(const Set &s) : all(UINT32_MAX >> (32 - s.n)) {
        for (int l = 0; l < s.m; l++) neighbours[s.a[l]] |= 1u << s.b[l], neighbours[s.b[l]] |= 1u << s.a[l];
    }

    bool connected(uint32_t backbone) {
        uint32_t waiting = backbone & -backbone, left = backbone ^ waiting;
        for (; waiting; work.looked_from++) {
            if (!left) return true;
            uint32_t found = neighbours[__builtin_ctz(waiting)] & left;
            left ^= found;
            waiting = (waiting & (waiting - 1)) | found;
        }
        return false;
    }

    bool served(uint32_t alone) {
        for (uint32_t left = alone; left; left &= left - 1) {
            work.asked++;
            if (__builtin_popcount(neighbours[__builtin_ctz(left)] & all & ~alone) < 2) return false;
        }
        return true;
    }

    int first(int v) {
        for (int i = 1;; i++) {
            work.tests++;
            uint32_t alone = isolated[i] | 1u << v;
            if (connected(all & ~alone) && served(alone)) {
                isolated[i] = alone;
                return i;
            }
        }
    }
};
}

Work counted(const Set &graph, uint8_t *out, size_t *length) {
    Model model(graph);
    uint8_t homes[32];
    int k = 0;
    for (int v = 0; v < graph.n; v++) {
        homes[v] = model.first(v);
        if (homes[v] > k) k = homes[v];
    }
    *length = encode(graph, k, homes, out);
    return model.work;
}
