// The text of a graph and the lines of a tree, for the programs that popsample is compared with: they are timed with
// their reading and printing, as it is.
#pragma once

#include <charconv>
#include <cstdint>
#include <cstdio>
#include <cstdlib>
#include <string>
#include <vector>

struct TextEdge {
    uint32_t tail;
    uint32_t head;
    uint32_t weight;
};

struct TextGraph {
    uint32_t vertices = 0;
    std::vector<TextEdge> edges;
};

inline std::string whole_input() {
    std::string text;
    char piece[1 << 16];
    while (size_t count = fread(piece, 1, sizeof piece, stdin)) text.append(piece, count);
    return text;
}

// The numbers behind the first letters of a line; fewer than three leave the rest as they are.
inline void read_numbers(const char* at, const char* end, uint32_t numbers[3]) {
    for (int place = 0; place < 3; place++) {
        while (at < end && (*at < '0' || *at > '9')) at++;
        at = std::from_chars(at, end, numbers[place]).ptr;
    }
}

// The texts are those of inputs.py: a header, then edges, and nothing else.
inline TextGraph read_graph() {
    const std::string text = whole_input();
    TextGraph graph;
    const char* at = text.data();
    const char* const end = at + text.size();
    while (at < end) {
        const char* stop = at;
        while (stop < end && *stop != '\n') stop++;
        uint32_t numbers[3] = {0, 0, 1};
        read_numbers(at, stop, numbers);
        if (*at == 'p') {
            graph.vertices = numbers[0];
            graph.edges.reserve(numbers[1]);
        } else {
            graph.edges.push_back({numbers[0] - 1, numbers[1] - 1, numbers[2]});
        }
        at = stop + 1;
    }
    return graph;
}

inline void append_number(std::string& text, uint64_t number) {
    char digits[20];
    text.push_back(' ');
    text.append(digits, std::to_chars(digits, digits + sizeof digits, number).ptr);
}

// Adds the line of an edge of a tree by its vertices, which count from 0 here and from 1 in the text.
inline void append_edge(std::string& text, uint64_t tail, uint64_t head) {
    text.push_back('a');
    append_number(text, tail + 1);
    append_number(text, head + 1);
    text.push_back('\n');
}

inline void print(const std::string& text) {
    if (fwrite(text.data(), 1, text.size(), stdout) != text.size()) exit(8);
}
