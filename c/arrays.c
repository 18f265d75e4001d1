/* The calls of the library with arrays: each status and kind with its place, arrays that stay as they were, budgets, memory
   that is refused, and calls on many threads. It is linked with libpopsample.a and memory.c. */
#include "memory.h"
#include <popsample.h>
#include <pthread.h>
#include <stdio.h>
#include <string.h>

enum { SIDE = 10, PLACES = SIDE * SIDE, GRID_EDGES = 2 * SIDE * (SIDE - 1), ROWS = 24, THREADS = 8, MOST = ROWS * GRID_EDGES };
enum { LITERALS = 2 * GRID_EDGES + PLACES };
enum { UNTOUCHED = 0xa5, TALL = 0x7fffffff };

static const uint8_t key[32] = {1, 2, 3};

/* What a call writes. The values of variables go to `directions`. */
struct arrays {
    uint32_t parents[MOST], edges[MOST], used[MOST];
    uint8_t directions[MOST];
    uint64_t counts[2 * ROWS], kind, place;
};

/* A call, and what it is to answer. A formula has its variables in `vertices`, its literals in `ends`, and `root` is 1 where
   it is sampled by rounds. */
struct call {
    uint32_t vertices;
    const uint32_t *ends;
    size_t ends_len;
    const uint32_t *weights;
    size_t weights_len;
    uint32_t root, height, first;
    const uint32_t *from;
    size_t from_len;
    uint64_t budget;
    size_t key_len, rows, row_len, used_len; /* row_len counts the numbers of a row of parents, or of directions */
    uint32_t status;
    uint64_t kind, place;
};

static uint32_t trees(const struct call *c, struct arrays *out)
{
    return popsample_trees(c->vertices, c->ends, c->ends_len, c->weights, c->weights_len, c->root, key, c->key_len,
                           c->height, c->first, c->from, c->from_len, c->budget, out->parents, c->rows * c->row_len,
                           out->edges, c->rows * c->row_len, out->used, c->used_len, out->counts, 2 * c->rows, &out->kind,
                           &out->place);
}

static uint32_t orientations(const struct call *c, struct arrays *out)
{
    return popsample_orientations(c->vertices, c->ends, c->ends_len, key, c->key_len, c->height, c->first, c->from,
                                  c->from_len, c->budget, out->directions, c->rows * c->row_len, out->used, c->used_len,
                                  out->counts, 2 * c->rows, &out->kind, &out->place);
}

static uint32_t assignments(const struct call *c, struct arrays *out)
{
    return popsample_assignments(c->vertices, (const int32_t *)c->ends, c->ends_len, c->root, key, c->key_len, c->height,
                                 c->first, c->from, c->from_len, c->budget, out->directions, c->rows * c->row_len, out->used,
                                 c->used_len, out->counts, 2 * c->rows, &out->kind, &out->place);
}

typedef uint32_t maker(const struct call *c, struct arrays *out);

/* A triangle with a loop at vertex 2 and a second edge between 0 and 1. */
static const uint32_t ends[] = {0, 1, 1, 2, 2, 0, 2, 2, 0, 1};
static const uint32_t no_vertex[] = {0, 1, 1, 7, 2, 0, 9, 2, 0, 1};
static const uint32_t weights[] = {1, 2, 3, 4, 5}, no_weight[] = {1, 2, 0, 4, 0};
static const uint32_t heavy[] = {1u << 31, 1u << 31, 3, 4, 5};
static const uint32_t zeros[8] = {0}, at_root[] = {0, 1, 0}, too_high[] = {100, 0, 0};

#define GRAPH 3, ends, 10
#define DRAW 100, 0, zeros, 0, UINT64_MAX, 32, 2
#define TREE_ROWS 3, 6
#define ORIENT_ROWS 5, 10

static const struct call of_trees[] = {
    {GRAPH, weights, 5, 1, DRAW, TREE_ROWS, POPSAMPLE_OK, 0, 0},
    {GRAPH, weights, 0, 1, DRAW, TREE_ROWS, POPSAMPLE_OK, 0, 0},
    {GRAPH, weights, 5, 1, DRAW, 3, 0, POPSAMPLE_OK, 0, 0},
    {1, ends, 0, weights, 0, 0, DRAW, 1, 2, POPSAMPLE_OK, 0, 0},
    {GRAPH, weights, 5, 1, 100, UINT32_MAX - 1, zeros, 3, UINT64_MAX, 32, 2, TREE_ROWS, POPSAMPLE_OK, 0, 0},
    {GRAPH, weights, 5, 1, 100, 0, zeros, 0, UINT64_MAX, 31, 2, TREE_ROWS, POPSAMPLE_USAGE, 0, 0},
    {GRAPH, weights, 5, 1, 0, 0, zeros, 0, UINT64_MAX, 32, 2, TREE_ROWS, POPSAMPLE_USAGE, 0, 0},
    {GRAPH, weights, 5, 1, 1u << 31, 0, zeros, 0, UINT64_MAX, 32, 2, TREE_ROWS, POPSAMPLE_USAGE, 0, 0},
    {GRAPH, weights, 5, 1, 100, UINT32_MAX, zeros, 0, UINT64_MAX, 32, 2, TREE_ROWS, POPSAMPLE_USAGE, 0, 0},
    {GRAPH, weights, 5, 1, DRAW, 2, 6, POPSAMPLE_USAGE, 0, 0},
    {GRAPH, weights, 5, 1, DRAW, 3, 5, POPSAMPLE_USAGE, 0, 0},
    {GRAPH, weights, 5, 1, 100, 0, zeros, 2, UINT64_MAX, 32, 2, TREE_ROWS, POPSAMPLE_USAGE, 0, 0},
    {GRAPH, weights, 5, 1, 100, 0, at_root, 3, UINT64_MAX, 32, 2, TREE_ROWS, POPSAMPLE_USAGE, 0, 0},
    {GRAPH, weights, 5, 1, 100, 0, too_high, 3, UINT64_MAX, 32, 2, TREE_ROWS, POPSAMPLE_USAGE, 0, 0},
    {GRAPH, weights, 5, 1, 100, 0, zeros, 0, UINT64_MAX - 1, 32, 2, 3, 0, POPSAMPLE_USAGE, 0, 0},
    {(1 << 22) + 1, ends, 9, weights, 0, 0, 100, 0, zeros, 0, UINT64_MAX, 32, 0, 3, 0, POPSAMPLE_LIMIT, 1, 0},
    {3, ends, 9, weights, 5, 1, DRAW, TREE_ROWS, POPSAMPLE_MALFORMED, 2, 0},
    {GRAPH, weights, 4, 1, DRAW, TREE_ROWS, POPSAMPLE_MALFORMED, 4, 0},
    {3, no_vertex, 10, no_weight, 5, 1, DRAW, TREE_ROWS, POPSAMPLE_MALFORMED, 5, 3},
    {GRAPH, no_weight, 5, 1, DRAW, TREE_ROWS, POPSAMPLE_MALFORMED, 6, 2},
    {GRAPH, weights, 5, 3, DRAW, TREE_ROWS, POPSAMPLE_IMPOSSIBLE, 7, 0},
    {4, ends, 10, weights, 5, 0, DRAW, 4, 8, POPSAMPLE_IMPOSSIBLE, 8, 3},
    {GRAPH, heavy, 5, 0, DRAW, TREE_ROWS, POPSAMPLE_LIMIT, 9, 1},
};

static const struct call of_orientations[] = {
    {GRAPH, NULL, 0, 0, DRAW, ORIENT_ROWS, POPSAMPLE_OK, 0, 0},
    {GRAPH, NULL, 0, 0, DRAW, 5, 0, POPSAMPLE_OK, 0, 0},
    {GRAPH, NULL, 0, 0, 100, 7, zeros, 5, UINT64_MAX, 32, 2, ORIENT_ROWS, POPSAMPLE_OK, 0, 0},
    {GRAPH, NULL, 0, 0, DRAW, 4, 10, POPSAMPLE_USAGE, 0, 0},
    {GRAPH, NULL, 0, 0, 100, 0, zeros, 4, UINT64_MAX, 32, 2, ORIENT_ROWS, POPSAMPLE_USAGE, 0, 0},
    {GRAPH, NULL, 0, 0, 100, 0, zeros, 0, 7, 32, 2, 5, 0, POPSAMPLE_USAGE, 0, 0},
    {(1 << 22) + 1, ends, 10, NULL, 0, 0, DRAW, ORIENT_ROWS, POPSAMPLE_LIMIT, 1, 0},
    {3, ends, 9, NULL, 0, 0, DRAW, 4, 8, POPSAMPLE_MALFORMED, 2, 0},
    {3, no_vertex, 10, NULL, 0, 0, DRAW, ORIENT_ROWS, POPSAMPLE_MALFORMED, 5, 3},
    {4, ends, 10, NULL, 0, 0, DRAW, ORIENT_ROWS, POPSAMPLE_IMPOSSIBLE, 10, 3},
};

/* In the first formula no two clauses can both be false, and in the second all can. */
static const int32_t extremal[] = {1, 2, 0, -1, 3, 0}, clashing[] = {1, 2, 0, 2, 3, 0}, no_literal[] = {1, 2, 0, -4, 5, 0};
static const int32_t unended[] = {1, 2, 0, -1, 3}, empty_clause[] = {1, 2, 0, 0, 2, 3, 0};

#define FORMULA(literals) 3, (const uint32_t *)(literals), sizeof(literals) / sizeof *(literals), NULL, 0
#define VALUE_ROWS 3, 6

static const struct call of_formulas[] = {
    {FORMULA(extremal), 0, DRAW, VALUE_ROWS, POPSAMPLE_OK, 0, 0},
    {FORMULA(extremal), 1, DRAW, VALUE_ROWS, POPSAMPLE_OK, 0, 0},
    {FORMULA(clashing), 1, DRAW, VALUE_ROWS, POPSAMPLE_OK, 0, 0},
    {FORMULA(extremal), 0, DRAW, 3, 0, POPSAMPLE_OK, 0, 0},
    {FORMULA(extremal), 0, 100, UINT32_MAX - 1, zeros, 3, UINT64_MAX, 32, 2, VALUE_ROWS, POPSAMPLE_OK, 0, 0},
    {3, zeros, 0, NULL, 0, 0, DRAW, VALUE_ROWS, POPSAMPLE_OK, 0, 0},
    {0, zeros, 0, NULL, 0, 1, DRAW, 0, 0, POPSAMPLE_OK, 0, 0},
    {FORMULA(extremal), 2, DRAW, VALUE_ROWS, POPSAMPLE_USAGE, 0, 0},
    {FORMULA(extremal), 0, 100, 0, zeros, 0, UINT64_MAX, 31, 2, VALUE_ROWS, POPSAMPLE_USAGE, 0, 0},
    {FORMULA(extremal), 0, 0, 0, zeros, 0, UINT64_MAX, 32, 2, VALUE_ROWS, POPSAMPLE_USAGE, 0, 0},
    {FORMULA(extremal), 0, DRAW, 2, 6, POPSAMPLE_USAGE, 0, 0},
    {FORMULA(extremal), 0, DRAW, 3, 5, POPSAMPLE_USAGE, 0, 0},
    {FORMULA(extremal), 1, 100, 0, zeros, 2, UINT64_MAX, 32, 2, VALUE_ROWS, POPSAMPLE_USAGE, 0, 0},
    {FORMULA(extremal), 1, 100, 0, too_high, 3, UINT64_MAX, 32, 2, VALUE_ROWS, POPSAMPLE_USAGE, 0, 0},
    {FORMULA(extremal), 1, 100, 0, zeros, 0, 7, 32, 2, 3, 0, POPSAMPLE_USAGE, 0, 0},
    {(1 << 22) + 1, zeros, 0, NULL, 0, 0, 100, 0, zeros, 0, UINT64_MAX, 32, 0, 3, 0, POPSAMPLE_LIMIT, 11, 0},
    {FORMULA(no_literal), 0, DRAW, VALUE_ROWS, POPSAMPLE_MALFORMED, 13, 3},
    {FORMULA(unended), 0, DRAW, VALUE_ROWS, POPSAMPLE_MALFORMED, 14, 0},
    {FORMULA(empty_clause), 0, DRAW, VALUE_ROWS, POPSAMPLE_IMPOSSIBLE, 15, 2},
    {FORMULA(empty_clause), 1, DRAW, VALUE_ROWS, POPSAMPLE_IMPOSSIBLE, 15, 2},
    {FORMULA(clashing), 0, DRAW, VALUE_ROWS, POPSAMPLE_CLASH, 16, ((uint64_t)1 << 32) + 2},
};

/* One vertex with more loops than a graph may have edges, and more clauses than a formula may have. */
static uint32_t many_ends[2 * ((1 << 23) + 1)];
static const struct call many_edges =
    {1, many_ends, 2 * ((1 << 23) + 1), NULL, 0, 0, 100, 0, zeros, 0, UINT64_MAX, 32, 0, 0, 0, POPSAMPLE_LIMIT, 3, 0};
static const struct call many_clauses =
    {1, many_ends, (1 << 22) + 1, NULL, 0, 0, 100, 0, zeros, 0, UINT64_MAX, 32, 0, 0, 0, POPSAMPLE_LIMIT, 12, 0};

static struct arrays found, untouched;

static int is_same(const struct arrays *a, const struct arrays *b)
{
    return memcmp(a->parents, b->parents, sizeof a->parents) == 0 && memcmp(a->edges, b->edges, sizeof a->edges) == 0
           && memcmp(a->used, b->used, sizeof a->used) == 0
           && memcmp(a->directions, b->directions, sizeof a->directions) == 0
           && memcmp(a->counts, b->counts, sizeof a->counts) == 0;
}

static uint32_t make(maker *calls, const struct call *c)
{
    memset(&found, UNTOUCHED, sizeof found);
    return calls(c, &found);
}

/* However many blocks are given, the call has its answer, or memory ran out. Returns how many blocks it asks for. */
static long bears_refusals(maker *calls, const struct call *c)
{
    long given = 0;
    uint32_t status;

    do {
        left = given++;
        status = make(calls, c);
        if (held != 0 || (status == POPSAMPLE_MEMORY && (found.kind != 0 || found.place != 0)))
            fail("something is left where memory ran out");
    } while (status == POPSAMPLE_MEMORY);
    left = NONE_REFUSED;
    if (status != c->status)
        fail("another status where memory ran out");
    return given - 1;
}

static void answers(maker *calls, const struct call *c)
{
    uint32_t status = make(calls, c);

    if (status != c->status || found.kind != c->kind || found.place != c->place)
        fail("another status, kind or place of a call with arrays");
    if (status != POPSAMPLE_OK && !is_same(&found, &untouched))
        fail("a refusal changes arrays");
    if (held != 0)
        fail("memory is held");
}

/* A grid, by the edges of its rows and then by those of its columns. */
static uint32_t grid[2 * GRID_EDGES];

static void make_grid(void)
{
    uint32_t *at = grid;

    for (uint32_t v = 0; v < PLACES; v++)
        if (v % SIDE != SIDE - 1) {
            *at++ = v;
            *at++ = v + 1;
        }
    for (uint32_t v = 0; v + SIDE < PLACES; v++) {
        *at++ = v;
        *at++ = v + SIDE;
    }
}

/* Its orientations without sinks as a formula: for each vertex a clause that some edge leaves it. */
static int32_t sinks[LITERALS];

static void make_sinks(void)
{
    int32_t *at = sinks;

    for (uint32_t v = 0; v < PLACES; v++) {
        for (int32_t i = 0; i < GRID_EDGES; i++) {
            if (grid[2 * i] == v)
                *at++ = -(i + 1);
            if (grid[2 * i + 1] == v)
                *at++ = i + 1;
        }
        *at++ = 0;
    }
}

/* What is sampled of the grid, by which call, and how many numbers a row has. */
struct source {
    maker *calls;
    size_t row_len;
    uint32_t by_rounds;
};

static const struct source of_grid_trees = {trees, PLACES, 0}, of_grid_orientations = {orientations, GRID_EDGES, 0};
static const struct source of_sinks = {assignments, GRID_EDGES, 0}, of_sinks_by_rounds = {assignments, GRID_EDGES, 1};

/* Samples of the grid: rows from one number on. */
static struct call of_grid(const struct source *source, size_t rows, uint32_t first)
{
    struct call c = {PLACES, grid, 2 * GRID_EDGES, zeros, 0, source->by_rounds, TALL, first, zeros, 0, UINT64_MAX,
                     32, rows, source->row_len, rows * source->row_len, POPSAMPLE_OK, 0, 0};

    if (source->calls == assignments) {
        c.vertices = GRID_EDGES;
        c.ends = (const uint32_t *)sinks;
        c.ends_len = LITERALS;
    }
    return c;
}

/* Some literal of each clause is true in a row of values. */
static void satisfies(const int32_t *literals, size_t len, const uint8_t *values)
{
    int is_true = 0;

    for (size_t k = 0; k < len; k++) {
        int32_t literal = literals[k];

        if (literal == 0 && !is_true)
            fail("a clause is false");
        is_true = literal != 0 && (is_true || values[(literal < 0 ? -literal : literal) - 1] == (literal > 0));
    }
}

/* Each arrow of a row of parents is along its edge, and leads on to the root. */
static void is_tree(const uint32_t *parents, const uint32_t *edges)
{
    for (uint32_t v = 1; v < PLACES; v++) {
        uint32_t i = edges[v], steps = 0;

        if (i >= GRID_EDGES || grid[2 * i] + grid[2 * i + 1] != v + parents[v] || (grid[2 * i] != v && grid[2 * i + 1] != v))
            fail("an arrow isn't along its edge");
        for (uint32_t w = v; w != 0; w = parents[w])
            if (++steps > PLACES)
                fail("arrows don't lead to the root");
    }
    if (parents[0] != POPSAMPLE_NONE || edges[0] != POPSAMPLE_NONE)
        fail("the root has an arrow");
}

/* An edge of a row of directions leaves each vertex. */
static void has_no_sink(const uint8_t *directions)
{
    uint32_t out[PLACES] = {0};

    for (uint32_t i = 0; i < GRID_EDGES; i++)
        out[grid[2 * i + (directions[i] != 0)]]++;
    for (uint32_t v = 0; v < PLACES; v++)
        if (out[v] == 0)
            fail("a vertex is a sink");
}

static struct arrays wanted, parts;

/* A call that stopped at row j left its parents, edges and directions, and all rows behind it, as they were. */
static int stays_behind(const struct arrays *out, size_t j, size_t rows, size_t row_len)
{
    size_t all = rows * row_len, here = j * row_len, next = here + row_len;

    return memcmp(out->parents + here, untouched.parents + here, (all - here) * sizeof *out->parents) == 0
           && memcmp(out->edges + here, untouched.edges + here, (all - here) * sizeof *out->edges) == 0
           && memcmp(out->directions + here, untouched.directions + here, all - here) == 0
           && memcmp(out->used + next, untouched.used + next, (all - next) * sizeof *out->used) == 0
           && memcmp(out->counts + 2 * j + 2, untouched.counts + 2 * j + 2, 2 * (rows - j - 1) * sizeof *out->counts) == 0;
}

/* Calls with a budget of so many pops each go on to the rows of the one call, with as many pops in all. */
static void goes_on_to_the_same(const struct source *source, uint64_t budget)
{
    static uint32_t start[GRID_EDGES];
    static struct arrays out;
    uint64_t pops[ROWS] = {0};
    size_t row = 0, stops = 0, row_len = source->row_len;
    struct call c;

    for (;;) {
        uint32_t status;
        size_t j = ROWS - row;

        c = of_grid(source, ROWS - row, (uint32_t)row);
        c.budget = budget;
        c.from = start;
        c.from_len = stops > 0 ? row_len : 0;
        memset(&out, UNTOUCHED, sizeof out);
        status = source->calls(&c, &out);
        if (status == POPSAMPLE_STOPPED)
            j = out.place;
        else if (status != POPSAMPLE_OK || out.place != 0)
            fail("another status of a call with a budget");
        memcpy(parts.parents + row * row_len, out.parents, j * row_len * sizeof *out.parents);
        memcpy(parts.edges + row * row_len, out.edges, j * row_len * sizeof *out.edges);
        memcpy(parts.used + row * row_len, out.used, j * row_len * sizeof *out.used);
        memcpy(parts.directions + row * row_len, out.directions, j * row_len);
        for (size_t k = 0; k < j; k++) {
            parts.counts[2 * (row + k)] = pops[row + k] + out.counts[2 * k];
            parts.counts[2 * (row + k) + 1] = out.counts[2 * k + 1];
        }
        if (status != POPSAMPLE_STOPPED)
            break;
        if (out.counts[2 * j + 1] == 0 || !stays_behind(&out, j, c.rows, row_len))
            fail("a call that stopped left something else");
        row += j;
        pops[row] += out.counts[2 * j];
        memcpy(start, out.used + j * row_len, row_len * sizeof *start);
        stops++;
    }
    if (stops < 2)
        fail("no call stopped");
}

static void draws_the_grid(const struct source *source)
{
    struct call c = of_grid(source, ROWS, 0);

    memset(&wanted, UNTOUCHED, sizeof wanted);
    if (source->calls(&c, &wanted) != POPSAMPLE_OK)
        fail("no samples of a grid");
    for (uint64_t budget = 1; budget < 20; budget = 3 * budget + 1) {
        memset(&parts, UNTOUCHED, sizeof parts);
        goes_on_to_the_same(source, budget);
        if (!is_same(&parts, &wanted))
            fail("calls that are stopped and go on make other rows");
    }
    c.budget = 20;
    c.status = POPSAMPLE_STOPPED;
    if (bears_refusals(source->calls, &c) < 2)
        fail("samples of a grid take no memory");
}

/* A stack of one entry runs out. */
static void tells_exhausted(const struct source *source)
{
    struct call c = of_grid(source, ROWS, 0);
    uint64_t stuck = 0;

    c.height = 1;
    if (make(source->calls, &c) != POPSAMPLE_EXHAUSTED)
        fail("no stack ran out");
    for (size_t j = 0; j < ROWS; j++)
        stuck += found.counts[2 * j + 1];
    if (stuck == 0)
        fail("no event occurs where stacks ran out");
}

/* Each thread draws three rows of those of one call. */
struct part {
    const struct source *source;
    size_t number;
};

static void *draw_part(void *given)
{
    static struct arrays own[THREADS];
    const struct part *part = given;
    size_t k = part->number, rows = ROWS / THREADS, size = rows * part->source->row_len;
    struct arrays *out = &own[k];

    memset(out, UNTOUCHED, sizeof *out);
    for (int round = 0; round < 20; round++) {
        struct call c = of_grid(part->source, rows, (uint32_t)(k * rows));

        if (part->source->calls(&c, out) != POPSAMPLE_OK
            || memcmp(out->parents, wanted.parents + k * size, size * sizeof *out->parents) != 0
            || memcmp(out->directions, wanted.directions + k * size, size) != 0)
            fail("threads don't agree with one call");
    }
    return NULL;
}

static void agrees_on_threads(const struct source *source)
{
    pthread_t threads[THREADS];
    struct part parts[THREADS];

    for (size_t i = 0; i < THREADS; i++) {
        parts[i].source = source;
        parts[i].number = i;
        if (pthread_create(&threads[i], NULL, draw_part, &parts[i]) != 0)
            fail("no thread");
    }
    for (size_t i = 0; i < THREADS; i++)
        pthread_join(threads[i], NULL);
}

/* The formula of sinks has the samples of the orientations, by popping and by rounds. Only the counts of rounds are others. */
static void agrees_with_orientations(const struct source *source)
{
    static struct arrays oriented;
    struct call c = of_grid(&of_grid_orientations, ROWS, 0);

    memset(&oriented, UNTOUCHED, sizeof oriented);
    if (orientations(&c, &oriented) != POPSAMPLE_OK)
        fail("no orientations of a grid");
    if (source->by_rounds)
        memcpy(oriented.counts, wanted.counts, sizeof oriented.counts);
    if (!is_same(&wanted, &oriented))
        fail("assignments of the formula of sinks aren't the orientations");
    for (size_t j = 0; j < ROWS; j++)
        satisfies(sinks, LITERALS, wanted.directions + j * GRID_EDGES);
}

int main(void)
{
    memset(&untouched, UNTOUCHED, sizeof untouched);
    make_grid();
    make_sinks();
    for (size_t i = 0; i < sizeof of_trees / sizeof *of_trees; i++) {
        answers(trees, &of_trees[i]);
        bears_refusals(trees, &of_trees[i]);
    }
    for (size_t i = 0; i < sizeof of_orientations / sizeof *of_orientations; i++) {
        answers(orientations, &of_orientations[i]);
        bears_refusals(orientations, &of_orientations[i]);
    }
    for (size_t i = 0; i < sizeof of_formulas / sizeof *of_formulas; i++) {
        answers(assignments, &of_formulas[i]);
        bears_refusals(assignments, &of_formulas[i]);
    }
    answers(orientations, &many_edges);
    answers(assignments, &many_clauses);
    tells_exhausted(&of_grid_trees);
    tells_exhausted(&of_grid_orientations);
    tells_exhausted(&of_sinks);
    tells_exhausted(&of_sinks_by_rounds);
    draws_the_grid(&of_grid_orientations);
    for (size_t j = 0; j < ROWS; j++)
        has_no_sink(wanted.directions + j * GRID_EDGES);
    draws_the_grid(&of_sinks);
    agrees_with_orientations(&of_sinks);
    agrees_on_threads(&of_sinks);
    draws_the_grid(&of_sinks_by_rounds);
    agrees_with_orientations(&of_sinks_by_rounds);
    agrees_on_threads(&of_sinks_by_rounds);
    draws_the_grid(&of_grid_trees);
    for (size_t j = 0; j < ROWS; j++)
        is_tree(wanted.parents + j * PLACES, wanted.edges + j * PLACES);
    agrees_on_threads(&of_grid_trees);
    puts("arrays: ok");
    return 0;
}
