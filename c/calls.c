/* Calls of the library: each status, what is left of the output, memory that is refused, and calls on many threads. It
   is linked with libpopsample.a and memory.c. */
#include "memory.h"
#include <popsample.h>
#include <pthread.h>
#include <stdio.h>
#include <string.h>

enum { ROOM = 4096, THREADS = 8, ROUNDS = 25, KEYS = 16, UNTOUCHED = 0xa5 };

/* A call, and what it left. */
struct call {
    const char *words; /* with a byte 0 behind each but the last, whose end is that of the text */
    size_t words_len;
    const char *text;
    uint32_t status;
    const char *begins; /* the front of the answer */
};

#define WORDS(words) words, sizeof words

static const struct call calls[] = {
    {WORDS("tree"), "p edge 2 1\ne 1 2\n", POPSAMPLE_OK, "s SAMPLE\na 2 1 1\nused 0\npops 0\n"},
    {WORDS("formula\0--height\0" "1"), "p cnf 1 1\n-1 0\n", POPSAMPLE_EXHAUSTED, "s EXHAUSTED\n"},
    {WORDS("tree\0--roof\0" "1"), "", POPSAMPLE_USAGE, "s USAGE 2\n"},
    {"", 0, "", POPSAMPLE_USAGE, "s USAGE 1\n"},
    {WORDS("tree"), "p edge 2\n", POPSAMPLE_MALFORMED, "s MALFORMED 1 11\n"},
    {WORDS("formula"), "p cnf 4294967295 0\n", POPSAMPLE_LIMIT, "s LIMIT 2 1\n"},
    {WORDS("check"), "p cnf 3 2\n1 2 0\n1 3 0\n", POPSAMPLE_CLASH, "s CLASH 1 2\n"},
    {WORDS("orient"), "p edge 2 0\n", POPSAMPLE_IMPOSSIBLE, "s ISOLATED 1\n"},
    {WORDS("formula\0--pops\0" "1\0--stacks\0" "0,0,1"), "p cnf 1 1\n1 0\n", POPSAMPLE_OPEN, "cert 1 formula\n"},
    {WORDS("replay"),
     "cert 1 tree\nstacks 1,0;0,0\nroot 1\ninput 29\np edge 3 3\ne 1 2\ne 2 3\ne 1 3\nlog 2 2\n"
     "pop 1 2 2:0 3:0\npop 2 2 2:1 3:1\n",
     POPSAMPLE_NOT_LEGAL, "s NOTLEGAL 2\n"},
    {WORDS("make\0grid\0" "4\0--report\0totals,heights,layers"), "", POPSAMPLE_OK, "s SAMPLE\ngrid 4\n"},
    {"tree", 4, "p edge 2 1\ne 1 2\n", POPSAMPLE_NO_WORDS, ""},
    {WORDS("tree\0\xff"), "p edge 2 1\ne 1 2\n", POPSAMPLE_NO_WORDS, ""},
};

static uint8_t output[ROOM];

static uint32_t run(const struct call *c, size_t room, size_t *written)
{
    memset(output, UNTOUCHED, sizeof output);
    return popsample_run((const uint8_t *)c->words, c->words_len, (const uint8_t *)c->text, strlen(c->text), output,
                         room, written);
}

/* The output is as it was from a byte on. */
static int is_untouched(size_t from)
{
    while (from < ROOM && output[from] == UNTOUCHED)
        from++;
    return from == ROOM;
}

/* A call answers so, in just as much room as it needs, and in less it tells how much that is. */
static void answers(const struct call *c)
{
    size_t need, written;

    if (run(c, ROOM, &need) != c->status)
        fail("another status");
    if (need > ROOM || !is_untouched(need) || strncmp((char *)output, c->begins, strlen(c->begins)) != 0)
        fail("another answer");
    if (run(c, need, &written) != c->status || written != need || !is_untouched(need))
        fail("another answer in just the room that it needs");
    if (need > 0 && (run(c, need - 1, &written) != POPSAMPLE_NO_ROOM || written != need || !is_untouched(0)))
        fail("another answer in too little room");
    if (held != 0)
        fail("memory is held");
}

/* However many blocks are given, the call has its answer, or memory ran out and nothing is left of the call. */
static void bears_refusals(const struct call *c)
{
    long given = 0;
    size_t written;
    uint32_t status;

    do {
        left = given++;
        status = run(c, ROOM, &written);
        if (held != 0 || (status == POPSAMPLE_MEMORY && (written != 0 || !is_untouched(0))))
            fail("something is left where memory ran out");
    } while (status == POPSAMPLE_MEMORY);
    left = NONE_REFUSED;
    if (status != c->status)
        fail("another status where memory ran out");
}

/* The tree of a grid under the key of this number. */
static size_t keyed(int number, uint8_t *to)
{
    char words[128];
    size_t written;
    int len = snprintf(words, sizeof words, "make%cgrid%c12%c--key%c%064x", 0, 0, 0, 0, number);

    if (popsample_run((uint8_t *)words, (size_t)len + 1, (const uint8_t *)"", 0, to, ROOM, &written) != POPSAMPLE_OK)
        fail("no tree of a grid");
    return written;
}

static uint8_t wanted[KEYS][ROOM];
static size_t lengths[KEYS];

static void *call_often(void *first)
{
    uint8_t found[ROOM];

    for (int i = 0; i < ROUNDS; i++) {
        int key = (i + *(int *)first) % KEYS;

        if (keyed(key, found) != lengths[key] || memcmp(found, wanted[key], lengths[key]) != 0)
            fail("threads don't agree with one");
    }
    return NULL;
}

static void agrees_on_threads(void)
{
    pthread_t threads[THREADS];
    int firsts[THREADS];

    for (int key = 0; key < KEYS; key++)
        lengths[key] = keyed(key, wanted[key]);
    for (int i = 0; i < THREADS; i++) {
        firsts[i] = i;
        if (pthread_create(&threads[i], NULL, call_often, &firsts[i]) != 0)
            fail("no thread");
    }
    for (int i = 0; i < THREADS; i++)
        pthread_join(threads[i], NULL);
}

int main(void)
{
    for (size_t i = 0; i < sizeof calls / sizeof *calls; i++) {
        answers(&calls[i]);
        bears_refusals(&calls[i]);
    }
    agrees_on_threads();
    puts("calls: ok");
    return 0;
}
