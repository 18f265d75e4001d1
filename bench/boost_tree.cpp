// Random spanning trees by Boost Graph, one if no number is given: boost_tree SEED [TREES] < graph
#include "graph_text.hpp"

#include <boost/graph/adjacency_list.hpp>
#include <boost/graph/random_spanning_tree.hpp>
#include <random>

using Weight = boost::property<boost::edge_weight_t, double>;
using Graph = boost::adjacency_list<boost::vecS, boost::vecS, boost::undirectedS, boost::no_property, Weight>;
using Vertex = boost::graph_traits<Graph>::vertex_descriptor;

static bool has_weights(const TextGraph& text) {
    for (const TextEdge& edge : text.edges)
        if (edge.weight != 1) return true;
    return false;
}

static Graph graph_of(const TextGraph& text) {
    Graph graph(text.vertices);
    for (const TextEdge& edge : text.edges) boost::add_edge(edge.tail, edge.head, Weight(edge.weight), graph);
    return graph;
}

// The next vertex of each on its way to vertex 0.
static std::vector<Vertex> sample(const Graph& graph, bool weights, std::mt19937& generator) {
    std::vector<Vertex> next(num_vertices(graph));
    auto options = boost::root_vertex(Vertex(0)).predecessor_map(next.data());
    if (weights) {
        boost::random_spanning_tree(graph, generator, options.weight_map(get(boost::edge_weight, graph)));
    } else {
        boost::random_spanning_tree(graph, generator, options);
    }
    return next;
}

int main(int count, char** words) {
    std::mt19937 generator(count > 1 ? unsigned(atoi(words[1])) : 1);
    const int trees = count > 2 ? atoi(words[2]) : 1;
    const TextGraph text = read_graph();
    const bool weights = has_weights(text);
    const Graph graph = graph_of(text);
    std::string lines;
    for (int tree = 0; tree < trees; tree++) {
        const std::vector<Vertex> next = sample(graph, weights, generator);
        for (Vertex vertex = 1; vertex < next.size(); vertex++) append_edge(lines, vertex, next[vertex]);
    }
    print(lines);
}
