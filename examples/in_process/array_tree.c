/* Draws a spanning tree of the graph on standard input by arrays, in calls of at most 1000 pops, and prints for each vertex
   but the root the next one on its way there:

       cc -Ic/include -o array_tree examples/in_process/array_tree.c crates/popsample_c/out/libpopsample.a
       ./array_tree a7e8b266ea9514109c9a658bc61f21124fe41c0814138e4855d11a7599f94bc6 < examples/roads.col

   The argument is the key, of 64 hexadecimal digits. The same key and graph give the tree of tree.c in this folder. */
#include <popsample.h>
#include <stdio.h>
#include <string.h>

/* Room for the graphs of this folder. */
enum { VERTICES = 1024, EDGES = 4096, POPS = 1000 };

static uint32_t ends[2 * EDGES], weights[EDGES];
static uint32_t parents[VERTICES], used[VERTICES], none[1];

/* Reads the lines of edges, `e U V` or `e U V WEIGHT`, and returns how many there are. Vertices count from 1 there. */
static size_t read_edges(uint32_t *vertices)
{
    char line[256];
    size_t count = 0;

    *vertices = 0;
    while (fgets(line, sizeof line, stdin)) {
        unsigned u, v, weight = 1;

        if (sscanf(line, "p %*s %u", &u) == 1)
            *vertices = u;
        else if (count < EDGES && sscanf(line, "e %u %u %u", &u, &v, &weight) >= 2) {
            ends[2 * count] = u - 1;
            ends[2 * count + 1] = v - 1;
            weights[count++] = weight;
        }
    }
    return count;
}

int main(int argc, char **argv)
{
    uint8_t key[32];
    uint32_t vertices, status;
    uint64_t counts[2], kind, place;
    size_t edges = read_edges(&vertices), from_len = 0;

    if (argc != 2 || strlen(argv[1]) != 64 || vertices > VERTICES) {
        fputs("usage: array_tree KEY < GRAPH\n", stderr);
        return 2;
    }
    for (int i = 0; i < 32; i++) {
        unsigned byte = 0;

        sscanf(argv[1] + 2 * i, "%2x", &byte);
        key[i] = (uint8_t)byte;
    }
    for (;;) {
        static uint32_t from[VERTICES];

        status = popsample_trees(vertices, ends, 2 * edges, weights, edges, 0, key, sizeof key, 4096, 0, from, from_len,
                                 POPS, parents, vertices, none, 0, used, vertices, counts, 2, &kind, &place);
        if (status != POPSAMPLE_STOPPED)
            break;
        /* Here a program can look for signals, or show how far it is. */
        memcpy(from, used, sizeof from);
        from_len = vertices;
    }
    if (status != POPSAMPLE_OK) {
        fprintf(stderr, "status %u, kind %u, place %u\n", status, (unsigned)kind, (unsigned)place);
        return (int)status;
    }
    for (uint32_t v = 1; v < vertices; v++)
        printf("%u -> %u\n", v + 1, parents[v] + 1);
    return 0;
}
