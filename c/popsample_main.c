/* The program popsample over the library: its words and standard input are put into memory, and one call is made. So
   what the program is tried on can be tried on the library. */
#include <popsample.h>
#include <stdio.h>
#include <stdlib.h>
#include <string.h>

/* Statuses of the program that the library hasn't. */
enum { READ_FAULT = 7, WRITE_FAULT = 8 };

struct bytes {
    uint8_t *at;
    size_t len, room;
};

static void grow(struct bytes *b, size_t room)
{
    b->at = realloc(b->at, room);
    if (!b->at)
        exit(POPSAMPLE_MEMORY);
    b->room = room;
}

static void add(struct bytes *b, const void *from, size_t len)
{
    while (b->room - b->len < len)
        grow(b, 2 * b->room);
    memcpy(b->at + b->len, from, len);
    b->len += len;
}

/* Reads standard input to its end, and tells whether that went well. */
static int read_all(struct bytes *text)
{
    uint8_t piece[65536];
    size_t count;

    while ((count = fread(piece, 1, sizeof piece, stdin)) > 0)
        add(text, piece, count);
    return !ferror(stdin);
}

/* Answers, with room for all of the answer. */
static uint32_t answer(const struct bytes *words, const struct bytes *text, struct bytes *output)
{
    uint32_t status;

    while ((status = popsample_run(words->at, words->len, text->at, text->len, output->at, output->room,
                                   &output->len)) == POPSAMPLE_NO_ROOM)
        grow(output, output->len);
    return status;
}

int main(int argc, char **argv)
{
    struct bytes words = {0}, text = {0}, output = {0};
    uint32_t status;

    grow(&words, 64);
    grow(&text, 65536);
    grow(&output, 65536);
    for (int i = 1; i < argc; i++)
        add(&words, argv[i], strlen(argv[i]) + 1);
    /* Words are told of whatever the input is, and a grid is made without it. */
    status = answer(&words, &text, &output);
    if (status != POPSAMPLE_USAGE && status != POPSAMPLE_NO_WORDS && strcmp(argv[1], "make") != 0) {
        if (!read_all(&text)) {
            fputs("s READFAULT\n", stdout);
            return READ_FAULT;
        }
        status = answer(&words, &text, &output);
    }
    if (status == POPSAMPLE_MEMORY)
        fputs("s MEMORY\n", stdout);
    if (fwrite(output.at, 1, output.len, stdout) != output.len || fflush(stdout) != 0)
        return WRITE_FAULT;
    free(words.at);
    free(text.at);
    free(output.at);
    return status == POPSAMPLE_NO_WORDS ? POPSAMPLE_MEMORY : (int)status;
}
