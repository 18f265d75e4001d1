// Trees by the C library of igraph, with the time that the graph takes to be built: igraph_trees EDGES SEED TREES
#include "edge_array.hpp"

#include <igraph.h>

static void make_graph(igraph_t* graph, const EdgeArray& array) {
    igraph_vector_int_t ends;
    igraph_vector_int_init(&ends, igraph_integer_t(array.ends.size()));
    for (size_t at = 0; at < array.ends.size(); at++) VECTOR(ends)[at] = array.ends[at];
    igraph_create(graph, &ends, array.vertices, IGRAPH_UNDIRECTED);
    igraph_vector_int_destroy(&ends);
}

int main(int, char** words) {
    const EdgeArray array = read_edges(words[1]);
    igraph_rng_seed(igraph_rng_default(), igraph_uint_t(atoi(words[2])));
    const int trees = atoi(words[3]);
    igraph_vector_int_t tree;
    igraph_vector_int_init(&tree, 0);
    print_seconds([&] {
        igraph_t graph;
        make_graph(&graph, array);
        // It gives the numbers of the tree's edges, and no parents.
        for (int count = 0; count < trees; count++)
            if (igraph_random_spanning_tree(&graph, &tree, 0) != IGRAPH_SUCCESS) exit(1);
        igraph_destroy(&graph);
    });
}
