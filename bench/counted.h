// The builder's work on one graph.
#pragma once
#include "sets.h"

struct Work {
    long tests = 0;       // of a topology, with a node added
    long looked_from = 0; // nodes from whose neighbours the word of reached nodes grows
    long asked = 0;       // isolated nodes asked for two links
};

// Counted by a model of the proved loops, which leaves its set in out.
Work counted(const Set &graph, uint8_t *out, size_t *length);
