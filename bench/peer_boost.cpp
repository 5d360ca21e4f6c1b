#include "peers.h"
#include <boost/graph/adjacency_list.hpp>
#include <boost/graph/connected_components.hpp>
#include <boost/graph/dijkstra_shortest_paths.hpp>
#include <boost/graph/filtered_graph.hpp>
#include <boost/graph/floyd_warshall_shortest.hpp>
#include <boost/version.hpp>

using Weighted =
    boost::adjacency_list<boost::vecS, boost::vecS, boost::undirectedS, boost::no_property, boost::property<boost::edge_weight_t, uint32_t>>;
using Plain = boost::adjacency_list<boost::vecS, boost::vecS, boost::undirectedS>;

static Weighted weighted(const Topology &g) {
    Weighted net(g.n);
    for (const Link &l : g.links) boost::add_edge(l.a, l.b, l.weight, net);
    return net;
}

void boost_dijkstra(const Topology &g, uint32_t *out) {
    Weighted net = weighted(g);
    for (int t = 0; t < g.n; t++)
        boost::dijkstra_shortest_paths(
            net, t, boost::distance_map(boost::make_iterator_property_map(out + t * g.n, boost::get(boost::vertex_index, net))));
}

// Boost's own way to all pairs: on networks as small and as dense as these it is quicker than its Dijkstra.
void boost_floyd_warshall(const Topology &g, uint32_t *out) {
    struct Rows {
        uint32_t *first;
        int n;
        uint32_t *operator[](size_t t) const { return first + t * n; }
    } rows{out, g.n};
    boost::floyd_warshall_all_pairs_shortest_paths(weighted(g), rows);
}

namespace {
struct InWord {
    uint32_t nodes = 0;
    bool operator()(size_t v) const { return nodes >> v & 1; }
};

// A view of the one graph: quicker than a graph made anew for each question. The colours are lent, so that none are allocated.
struct Components : Connectivity {
    Plain net;
    vector<int> component;
    vector<boost::default_color_type> colours;

    explicit Components(const Set &s) : net(s.n), component(s.n), colours(s.n) {
        for (int l = 0; l < s.m; l++) boost::add_edge(s.a[l], s.b[l], net);
    }

    bool connected(uint32_t nodes) override {
        boost::filtered_graph<Plain, boost::keep_all, InWord> view(net, boost::keep_all(), InWord{nodes});
        auto index = boost::get(boost::vertex_index, net);
        return boost::connected_components(view, boost::make_iterator_property_map(component.begin(), index),
                                           boost::color_map(boost::make_iterator_property_map(colours.begin(), index))) == 1;
    }
};
}

std::unique_ptr<Connectivity> boost_components(const Set &graph) { return std::make_unique<Components>(graph); }

std::string boost_release() { return std::to_string(BOOST_VERSION / 100000) + "." + std::to_string(BOOST_VERSION / 100 % 1000); }
