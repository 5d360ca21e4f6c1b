// The proved entries, from a file's bytes. A refusal ends the program: what is measured must be accepted.
#pragma once
#include "sets.h"
#include "../include/burnishpeg.h"

// Room enough for what any of the three gives.
constexpr size_t most_bytes = BURNISHPEG_LONGEST_TABLES;

// The builder may use as many topologies as there can be.
constexpr int cap = 32;

// Each returns the length of what it gives.
size_t our_tables(const Set &s, uint8_t *out);
size_t our_report(const Set &s, uint8_t *out);
size_t our_build(const Set &graph, uint8_t *out);

// Entries that have no peer. The run is from node 0 to the node half-way round, with nothing down; it leaves its tables in out.
size_t our_read(const Set &s, uint8_t *out);
size_t our_write(const Set &s, uint8_t *out);
size_t our_run(const Set &s, uint8_t *out);
