// The peers: what each is given, and the two things that each does by its own means.
#pragma once
#include "sets.h"
#include <memory>
#include <string>

struct Link {
    uint8_t a, b;
    uint32_t weight;
};

struct Arc {
    uint8_t to;
    bool restricted;
    uint32_t weight;
};

// The usable links of one topology. A node's arcs go by the number of the neighbour, so that the first that ties is the lowest.
struct Topology {
    int n;
    vector<Link> links;
    vector<Arc> arcs;
    vector<int> from;
};

// One graph, of which it is asked many times whether some of its nodes, given as a word, are connected by the links between them.
struct Connectivity {
    virtual ~Connectivity() = default;
    virtual bool connected(uint32_t nodes) = 0;
};

// The distance from u to t in out[t * n + u], for all nodes of one topology.
using Engine = void (*)(const Topology &g, uint32_t *out);
void hand_dijkstra(const Topology &g, uint32_t *out);
void boost_dijkstra(const Topology &g, uint32_t *out);
void boost_floyd_warshall(const Topology &g, uint32_t *out);
void lemon_dijkstra(const Topology &g, uint32_t *out);
void igraph_dijkstra(const Topology &g, uint32_t *out);
void igraph_floyd_warshall(const Topology &g, uint32_t *out);

using Test = std::unique_ptr<Connectivity> (*)(const Set &graph);
std::unique_ptr<Connectivity> hand_search(const Set &graph);
std::unique_ptr<Connectivity> boost_components(const Set &graph);
std::unique_ptr<Connectivity> lemon_connected(const Set &graph);
std::unique_ptr<Connectivity> igraph_connected(const Set &graph);

std::string boost_release();
std::string lemon_release();
std::string igraph_release();

// What the peers give with these means: the bytes that the proved entries give from the same set or graph. Each returns its length.
size_t peer_tables(Engine engine, const Set &s, uint8_t *out);
size_t peer_report(Engine engine, const Set &s, uint8_t *out);
size_t peer_build(Test test, const Set &graph, uint8_t *out);
