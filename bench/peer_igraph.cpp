#include "peers.h"
#include <igraph/igraph.h>

// A topology as igraph wants it, and room for its distances. igraph ends the program by itself where a call fails.
namespace {
struct Weighted {
    igraph_vector_t weights;
    igraph_matrix_t found;
    igraph_t net;

    explicit Weighted(const Topology &g) {
        int m = (int)g.links.size();
        igraph_vector_int_t ends;
        igraph_vector_int_init(&ends, 2 * m);
        igraph_vector_init(&weights, m);
        igraph_matrix_init(&found, g.n, g.n);
        for (int l = 0; l < m; l++) {
            VECTOR(ends)[2 * l] = g.links[l].a;
            VECTOR(ends)[2 * l + 1] = g.links[l].b;
            VECTOR(weights)[l] = g.links[l].weight;
        }
        igraph_create(&net, &ends, g.n, IGRAPH_UNDIRECTED);
        igraph_vector_int_destroy(&ends);
    }

    ~Weighted() { igraph_destroy(&net), igraph_matrix_destroy(&found), igraph_vector_destroy(&weights); }

    void give(int n, uint32_t *out) const {
        for (int t = 0; t < n; t++)
            for (int u = 0; u < n; u++) out[t * n + u] = (uint32_t)MATRIX(found, u, t);
    }
};
}

void igraph_dijkstra(const Topology &g, uint32_t *out) {
    Weighted w(g);
    igraph_distances_dijkstra(&w.net, &w.found, igraph_vss_all(), igraph_vss_all(), &w.weights, IGRAPH_ALL);
    w.give(g.n, out);
}

// igraph's own way to all pairs: on networks as small and as dense as these it is quicker than its Dijkstra.
void igraph_floyd_warshall(const Topology &g, uint32_t *out) {
    Weighted w(g);
    igraph_distances_floyd_warshall(&w.net, &w.found, &w.weights, IGRAPH_ALL);
    w.give(g.n, out);
}

namespace {
// igraph has no view of a part of a graph: the part is made, its nodes numbered anew, which is no slower than igraph_induced_subgraph.
struct Parts : Connectivity {
    const Set &graph;
    igraph_vector_int_t ends;

    explicit Parts(const Set &s) : graph(s) { igraph_vector_int_init(&ends, 0), igraph_vector_int_reserve(&ends, 2 * s.m); }
    ~Parts() override { igraph_vector_int_destroy(&ends); }

    bool connected(uint32_t nodes) override {
        int number[32], count = 0;
        for (int v = 0; v < graph.n; v++)
            if (nodes >> v & 1) number[v] = count++;
        igraph_vector_int_clear(&ends);
        for (int l = 0; l < graph.m; l++) {
            int x = graph.a[l], y = graph.b[l];
            if (~nodes >> x & 1 || ~nodes >> y & 1) continue;
            igraph_vector_int_push_back(&ends, number[x]), igraph_vector_int_push_back(&ends, number[y]);
        }
        igraph_t part;
        igraph_bool_t answer;
        igraph_create(&part, &ends, count, IGRAPH_UNDIRECTED);
        igraph_is_connected(&part, &answer, IGRAPH_WEAK);
        igraph_destroy(&part);
        return answer;
    }
};
}

std::unique_ptr<Connectivity> igraph_connected(const Set &graph) { return std::make_unique<Parts>(graph); }

std::string igraph_release() {
    const char *text;
    igraph_version(&text, nullptr, nullptr, nullptr);
    return text;
}
