/* Draws a spanning tree of the graph on standard input, in this process, and prints for each vertex but the root the next
   one on its way there:

       cc -Ic/include -o tree examples/in_process/tree.c crates/popsample_c/out/libpopsample.a
       ./tree a7e8b266ea9514109c9a658bc61f21124fe41c0814138e4855d11a7599f94bc6 < examples/roads.col

   The word is the key, of 64 hexadecimal digits. */
#include <popsample.h>
#include <stdio.h>
#include <string.h>

/* The least power of two that has room for the graphs of this folder, and for their trees. */
enum { ROOM = 65536 };

int main(int argc, char **argv)
{
    static uint8_t text[ROOM], output[ROOM];
    char words[100];
    unsigned tail, head, edge;
    size_t written, text_len = fread(text, 1, sizeof text, stdin);
    int words_len;

    if (argc != 2 || strlen(argv[1]) != 64 || text_len == sizeof text) {
        fputs("usage: tree KEY < GRAPH\n", stderr);
        return 2;
    }
    /* A byte 0 ends each word, and snprintf puts the last one. */
    words_len = snprintf(words, sizeof words, "tree%c--key%c%s", 0, 0, argv[1]) + 1;
    uint32_t status = popsample_run((uint8_t *)words, (size_t)words_len, text, text_len, output, sizeof output - 1, &written);
    if (status != POPSAMPLE_OK) {
        fwrite(output, 1, status < POPSAMPLE_NO_ROOM ? written : 0, stderr);
        return (int)status;
    }
    output[written] = 0;
    for (char *line = strtok((char *)output, "\n"); line; line = strtok(NULL, "\n"))
        if (sscanf(line, "a %u %u %u", &tail, &head, &edge) == 3)
            printf("%u -> %u\n", tail, head);
    return 0;
}
