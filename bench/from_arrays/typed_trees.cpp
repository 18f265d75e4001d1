// Trees by popsample's call over arrays: typed_trees EDGES SEED TREES THREADS
#include "edge_array.hpp"

#include <popsample.h>
#include <thread>

static uint8_t key[32];

// Draws the trees from `first` up to `last` into their rows of parents.
static void draw(const EdgeArray& graph, uint32_t first, uint32_t last, uint32_t* parents) {
    const size_t trees = last - first;
    std::vector<uint64_t> counts(2 * trees);
    uint64_t kind, place;
    const uint32_t status = popsample_trees(
        graph.vertices, graph.ends.data(), graph.ends.size(), graph.ends.data(), 0, 0, key,
        sizeof key, 1048576, first, graph.ends.data(), 0, UINT64_MAX, parents + size_t(first) * graph.vertices,
        trees * graph.vertices, parents, 0, parents, 0, counts.data(), counts.size(), &kind, &place);
    if (status != POPSAMPLE_OK) exit(1);
}

int main(int, char** words) {
    const EdgeArray graph = read_edges(words[1]);
    key[0] = uint8_t(atoi(words[2]));
    const uint32_t trees = uint32_t(atoi(words[3])), threads = uint32_t(atoi(words[4]));
    std::vector<uint32_t> parents(size_t(trees) * graph.vertices);
    print_seconds([&] {
        std::vector<std::thread> others;
        for (uint32_t part = 1; part < threads; part++)
            others.emplace_back(draw, std::cref(graph), uint32_t(uint64_t(trees) * part / threads),
                                uint32_t(uint64_t(trees) * (part + 1) / threads), parents.data());
        draw(graph, 0, trees / threads, parents.data());
        for (std::thread& other : others) other.join();
    });
}
