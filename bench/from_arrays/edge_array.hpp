// A graph in an array of ends, and the seconds that its trees take, for the programs that are compared by bench/arrays.py.
#pragma once

#include <chrono>
#include <cstdint>
#include <cstdio>
#include <cstdlib>
#include <vector>

struct EdgeArray {
    uint32_t vertices = 0;
    // Edge i joins ends[2 i] and ends[2 i + 1]. Vertices count from 0.
    std::vector<uint32_t> ends;
};

// Reads the number of vertices, that of edges, and the ends, as 32-bit numbers of this machine.
inline EdgeArray read_edges(const char* path) {
    FILE* file = fopen(path, "rb");
    uint32_t sizes[2];
    if (!file || fread(sizes, sizeof *sizes, 2, file) != 2) exit(7);
    EdgeArray graph{sizes[0], std::vector<uint32_t>(2 * size_t(sizes[1]))};
    if (fread(graph.ends.data(), sizeof(uint32_t), graph.ends.size(), file) != graph.ends.size()) exit(7);
    fclose(file);
    return graph;
}

// Prints the seconds by the clock that a call takes, from the array of ends to the parents of all trees.
template <class Call>
void print_seconds(Call call) {
    const auto begun = std::chrono::steady_clock::now();
    call();
    const std::chrono::duration<double> seconds = std::chrono::steady_clock::now() - begun;
    printf("%.6f\n", seconds.count());
}
