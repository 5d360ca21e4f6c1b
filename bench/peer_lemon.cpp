#include "peers.h"
#include <lemon/adaptors.h>
#include <lemon/config.h>
#include <lemon/connectivity.h>
#include <lemon/dijkstra.h>
#include <lemon/smart_graph.h>
#include <lemon/static_graph.h>
#include <utility>

using Net = lemon::StaticDigraph;
using Weights = Net::ArcMap<uint32_t>;

// Nobody asks for the predecessors.
struct Traits : lemon::DijkstraDefaultTraits<Net, Weights> {
    using PredMap = lemon::NullMap<Net::Node, Net::Arc>;
    static PredMap *createPredMap(const Net &) { return new PredMap; }
};

// The static graph is LEMON's fastest, and one object runs from every node.
void lemon_dijkstra(const Topology &g, uint32_t *out) {
    vector<std::pair<int, int>> ends;
    ends.reserve(g.arcs.size());
    for (int u = 0; u < g.n; u++)
        for (int e = g.from[u]; e < g.from[u + 1]; e++) ends.push_back({u, g.arcs[e].to});
    Net net;
    net.build(g.n, ends.begin(), ends.end());
    Weights weights(net);
    for (size_t e = 0; e < g.arcs.size(); e++) weights[net.arc(e)] = g.arcs[e].weight;
    lemon::Dijkstra<Net, Weights, Traits> dijkstra(net, weights);
    for (int t = 0; t < g.n; t++) {
        dijkstra.run(net.node(t));
        for (int u = 0; u < g.n; u++) out[t * g.n + u] = dijkstra.dist(net.node(u));
    }
}

namespace {
struct InWord {
    using Key = lemon::SmartGraph::Node;
    using Value = bool;
    uint32_t nodes;
    bool operator[](Key v) const { return nodes >> lemon::SmartGraph::id(v) & 1; }
};

// A view of the one graph: quicker than a graph made anew for each question.
struct Reached : Connectivity {
    lemon::SmartGraph net;

    explicit Reached(const Set &s) {
        for (int v = 0; v < s.n; v++) net.addNode();
        for (int l = 0; l < s.m; l++) net.addEdge(net.nodeFromId(s.a[l]), net.nodeFromId(s.b[l]));
    }

    bool connected(uint32_t nodes) override {
        InWord kept{nodes};
        lemon::FilterNodes<lemon::SmartGraph, InWord> view(net, kept);
        return lemon::connected(view);
    }
};
}

std::unique_ptr<Connectivity> lemon_connected(const Set &graph) { return std::make_unique<Reached>(graph); }

std::string lemon_release() { return LEMON_VERSION; }
