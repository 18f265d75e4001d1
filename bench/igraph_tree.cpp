// Random spanning trees by the C library of igraph, one if no number is given: igraph_tree SEED [TREES] < graph
#include "graph_text.hpp"

#include <igraph.h>

static void make_graph(igraph_t* graph, const TextGraph& text) {
    igraph_vector_int_t ends;
    igraph_vector_int_init(&ends, igraph_integer_t(2 * text.edges.size()));
    igraph_integer_t place = 0;
    for (const TextEdge& edge : text.edges) {
        VECTOR(ends)[place++] = edge.tail;
        VECTOR(ends)[place++] = edge.head;
    }
    igraph_create(graph, &ends, text.vertices, IGRAPH_UNDIRECTED);
    igraph_vector_int_destroy(&ends);
}

// Samples a tree, and adds its edges. Whether it could.
static bool add_tree(const igraph_t* graph, std::string& lines) {
    igraph_vector_int_t tree;
    igraph_vector_int_init(&tree, 0);
    const bool sampled = igraph_random_spanning_tree(graph, &tree, 0) == IGRAPH_SUCCESS;
    for (igraph_integer_t place = 0; place < igraph_vector_int_size(&tree); place++) {
        const igraph_integer_t edge = VECTOR(tree)[place];
        append_edge(lines, uint64_t(IGRAPH_FROM(graph, edge)), uint64_t(IGRAPH_TO(graph, edge)));
    }
    igraph_vector_int_destroy(&tree);
    return sampled;
}

int main(int count, char** words) {
    igraph_rng_seed(igraph_rng_default(), count > 1 ? igraph_uint_t(atoi(words[1])) : 1);
    const int trees = count > 2 ? atoi(words[2]) : 1;
    igraph_t graph;
    make_graph(&graph, read_graph());
    std::string lines;
    for (int tree = 0; tree < trees; tree++)
        if (!add_tree(&graph, lines)) return 1;
    print(lines);
}
