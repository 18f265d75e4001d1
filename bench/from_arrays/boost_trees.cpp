// Trees by Boost Graph, with the time that the graph takes to be built: boost_trees EDGES SEED TREES rows|list
#include "edge_array.hpp"

#include <boost/graph/adjacency_list.hpp>
#include <boost/graph/compressed_sparse_row_graph.hpp>
#include <boost/graph/random_spanning_tree.hpp>
#include <cstring>
#include <random>

using Rows = boost::compressed_sparse_row_graph<boost::directedS>;
using List = boost::adjacency_list<boost::vecS, boost::vecS, boost::undirectedS>;

static Rows rows_of(const EdgeArray& graph) {
    // Each edge stands at both of its ends.
    std::vector<std::pair<size_t, size_t>> arcs;
    arcs.reserve(graph.ends.size());
    for (size_t at = 0; at < graph.ends.size(); at += 2) {
        arcs.emplace_back(graph.ends[at], graph.ends[at + 1]);
        arcs.emplace_back(graph.ends[at + 1], graph.ends[at]);
    }
    return Rows(boost::edges_are_unsorted_multi_pass, arcs.begin(), arcs.end(), graph.vertices);
}

static List list_of(const EdgeArray& graph) {
    List list(graph.vertices);
    for (size_t at = 0; at < graph.ends.size(); at += 2) add_edge(graph.ends[at], graph.ends[at + 1], list);
    return list;
}

// Draws trees to vertex 0, each into its row of parents.
template <class Graph>
static void draw(const Graph& graph, uint32_t trees, uint32_t seed, std::vector<size_t>& parents) {
    const size_t vertices = num_vertices(graph);
    std::mt19937 generator(seed);
    std::vector<boost::default_color_type> colours(vertices);
    const boost::typed_identity_property_map<size_t> index;
    for (uint32_t tree = 0; tree < trees; tree++) {
        auto row = make_iterator_property_map(parents.begin() + tree * vertices, index);
        auto colour = make_iterator_property_map(colours.begin(), index);
        random_spanning_tree(graph, generator, size_t(0), row, boost::static_property_map<double>(1.0), colour);
    }
}

int main(int, char** words) {
    const EdgeArray graph = read_edges(words[1]);
    const uint32_t seed = uint32_t(atoi(words[2])), trees = uint32_t(atoi(words[3]));
    std::vector<size_t> parents(size_t(trees) * graph.vertices);
    print_seconds([&] {
        if (strcmp(words[4], "rows") == 0)
            draw(rows_of(graph), trees, seed, parents);
        else
            draw(list_of(graph), trees, seed, parents);
    });
}
