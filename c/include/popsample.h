/* popsample for C: random spanning trees, orientations without sinks and solutions of formulas, in the caller's own
   process. Link libpopsample.a or libpopsample.so. docs/FORMATS.md has the words, the texts and the answers of
   popsample_run. popsample_trees, popsample_orientations and popsample_assignments take and fill arrays.

   Nothing is kept from one call to the next, no thread is started, and calls may be made from several threads at once.
   Memory is taken by malloc, and given back before a call returns. */
#ifndef POPSAMPLE_H
#define POPSAMPLE_H

#include <stddef.h>
#include <stdint.h>

#ifdef __cplusplus
extern "C" {
#endif

/* The statuses of a call: those of the program popsample up to 11, and two more. With those of the program, except
   POPSAMPLE_MEMORY, the output has a result. Its first line is named here. */
enum popsample_status {
    POPSAMPLE_OK = 0,         /* s SAMPLE, batch, s EXTREMAL, or s LEGAL with a log that reaches a sample */
    POPSAMPLE_EXHAUSTED = 1,  /* s EXHAUSTED, batch with an exhausted sample, or s LEGAL of such a run */
    POPSAMPLE_USAGE = 2,      /* s USAGE: the arguments are not valid */
    POPSAMPLE_MALFORMED = 3,  /* s MALFORMED, s COUNT, s ROWS, s EMPTYROW or s VALUE: a line or a row is invalid */
    POPSAMPLE_LIMIT = 4,      /* s LIMIT: the input exceeds a limit */
    POPSAMPLE_CLASH = 5,      /* s CLASH: two clauses share a variable and can both be false */
    POPSAMPLE_IMPOSSIBLE = 6, /* s EMPTY, s ISOLATED, s ROOT, s CUTOFF, or witness none: the input has no such thing */
    POPSAMPLE_MEMORY = 9,     /* out of memory; *written is 0 */
    POPSAMPLE_OPEN = 10,      /* cert, or s LEGAL with a log from which the run can continue */
    POPSAMPLE_STOPPED = 10,   /* a call with arrays: its budget was spent */
    POPSAMPLE_NOT_LEGAL = 11, /* s NOTLEGAL: a record of the certificate's log is not valid */
    POPSAMPLE_NO_ROOM = 12,   /* the output has less room than *written, which the result needs */
    POPSAMPLE_NO_WORDS = 13   /* the last argument does not end with a byte 0, or one is not UTF-8; *written is 0 */
};

/* Does what `popsample WORD.. < text` does. The output of the program is written to `output`, *written bytes of it, and
   the status is returned. A byte 0 ends each of the arguments (words), as in "tree\0--root\0" "2": with the last byte 0
   its length is 14. Without arguments the length is 0. If the status is POPSAMPLE_MEMORY, POPSAMPLE_NO_ROOM or
   POPSAMPLE_NO_WORDS, the output stays as it was. The bytes after the result always stay as they were.

   `--workers` and `--board` are accepted, and change nothing: the calling thread does all work, also that of `--count`.

   The caller must ensure the following, which nothing checks:

   - No pointer is NULL, even if its length is 0. Each points to as many bytes as its length says, fewer than 2^63.
   - The output and *written overlap neither each other nor the arguments nor the text. Nothing else writes to any of
     these before the call returns.
   - malloc, realloc and free belong to one allocator. It aligns a block to each power of two up to 16 that divides its
     size.
   - The call is not made from a signal handler, nor in a child that was forked from a process with threads. */
uint32_t popsample_run(const uint8_t *words, size_t words_len, const uint8_t *text, size_t text_len,
                       uint8_t *output, size_t room, size_t *written);

/* ---- Samples of graphs and formulas in arrays ----

   popsample_trees and popsample_orientations read a graph from arrays, popsample_assignments reads a formula, and all write
   samples to arrays. They read and write no text. Vertices, edges, samples, rows and positions count from 0.

   The graph. Edge i joins the vertices ends[2 i] and ends[2 i + 1]. Self-loops and parallel edges are allowed. A graph has
   at most 2^22 (4,194,304) vertices and 2^23 (8,388,608) edges.

   The formula. `literals` has the clauses one after another, each followed by a 0, as in DIMACS files. The literal v, from
   1 to `variables`, means that variable v is true, and -v means that it is false. A formula has at most 2^22 (4,194,304)
   variables, 2^22 clauses and 2^25 (33,554,432) literals.

   The samples. `key` is 32 random bytes. The same key and the same input give the same samples on every machine. The
   height, from 1 to 2^31 - 1, is the number of entries in the stack of each vertex, edge or variable. At 2^31 - 1 no stack
   runs out in practice. A call writes `counts_len / 2` samples, one in each row: row j has the sample number `first + j`.
   It is the sample of that number of `popsample tree --count`, `popsample orient --count` or `popsample formula --count`
   under the same key. So several calls, threads or machines can share the samples of one key. `first` plus the number of
   samples is at most 2^32.

   The rows. All rows of an array have one length and follow one another. The length of each array must fit the number of
   samples. An optional array of length 0 is not written. Row j of `counts` has two numbers: counts[2 j] is the number of
   pops, and counts[2 j + 1] is the number of bad events that occur at the end. The second number is 0 for a sample. It is
   above 0 if a stack ran out.

   The budget. `budget` is the maximum number of pops of the call, for all rows together. UINT64_MAX means no limit. A
   budget below UINT64_MAX requires the array `used`. If the budget is spent before a row is at its end, the status is
   POPSAMPLE_STOPPED and *place is the number of that row. Rows before it are complete. In its own row, `used` has the
   positions in the stacks and `counts` has the pops of this call and the number of bad events that occur there. Its other
   arrays and all rows after it are unchanged. To continue, call again with `first + *place`, with the arrays from that row
   on, and with that row of `used` as `from`. The samples do not depend on the budgets. The pops of a row are the sum over
   the calls.

   The start. `from` has length 0, or it is a row of `used`. Then the first sample continues from these positions, which
   must be below the height. All other samples start at the beginning.

   Rounds. If popsample_assignments samples by rounds, `counts` and `budget` count rounds instead of pops. A call can then
   stop at a row whose stacks have run out. The call that continues it makes no round in this row and finds it exhausted.

   Errors. The status is one of these:

       POPSAMPLE_OK          every row is a sample
       POPSAMPLE_EXHAUSTED   every row is complete, and in some rows a stack ran out
       POPSAMPLE_STOPPED     the budget was spent at row *place
       POPSAMPLE_USAGE       a length, the key, the height, `first`, `from`, `budget` or `by_rounds` is not valid
       POPSAMPLE_MALFORMED, POPSAMPLE_LIMIT, POPSAMPLE_CLASH, POPSAMPLE_IMPOSSIBLE
                             the graph or the formula is rejected: *kind says why, and *place says where
       POPSAMPLE_MEMORY      malloc returned NULL; rows may be incomplete

   After POPSAMPLE_USAGE and after a rejected input no array has changed. *kind is 0 unless the input is rejected. *place is 0
   unless the input is rejected or the budget was spent. If several errors apply, the first one in the order of
   `enum popsample_kind` is reported. All requirements on pointers and memory of popsample_run apply here too: no pointer is
   NULL, also if its length is 0, and an array that is written overlaps no other argument. */
#define POPSAMPLE_NONE UINT32_MAX /* no vertex, or no edge; -1 as int32_t */

/* Why a graph or a formula is rejected. The status and the meaning of *place are in parentheses; without a meaning, *place
   is 0. Clauses count from 1 here, as in the output of the program. */
enum popsample_kind {
    POPSAMPLE_MANY_VERTICES = 1,   /* more than 2^22 vertices (LIMIT) */
    POPSAMPLE_ODD_ENDS = 2,        /* ends_len is odd (MALFORMED) */
    POPSAMPLE_MANY_EDGES = 3,      /* more than 2^23 edges (LIMIT) */
    POPSAMPLE_WEIGHT_COUNT = 4,    /* weights_len is neither 0 nor the number of edges (MALFORMED) */
    POPSAMPLE_NO_VERTEX = 5,       /* a number in `ends` is not a vertex (MALFORMED; the lowest position in `ends`) */
    POPSAMPLE_NO_WEIGHT = 6,       /* a weight is 0 (MALFORMED; the lowest position in `weights`) */
    POPSAMPLE_NO_ROOT = 7,         /* the root is not a vertex (IMPOSSIBLE) */
    POPSAMPLE_CUT_OFF = 8,         /* a vertex is not connected to the root (IMPOSSIBLE; the lowest such vertex) */
    POPSAMPLE_HEAVY = 9,           /* the weights at a vertex exceed 2^32 - 1 in total (LIMIT; the lowest such vertex) */
    POPSAMPLE_ISOLATED = 10,       /* a vertex has no edge (IMPOSSIBLE; the lowest such vertex) */
    POPSAMPLE_MANY_VARIABLES = 11, /* more than 2^22 variables (LIMIT) */
    POPSAMPLE_MANY_LITERALS = 12,  /* more than 2^25 literals or 2^22 clauses (LIMIT) */
    POPSAMPLE_NO_LITERAL = 13,     /* a number is neither 0 nor a literal (MALFORMED; the lowest position in `literals`) */
    POPSAMPLE_UNENDED = 14,        /* the last clause is not followed by a 0 (MALFORMED) */
    POPSAMPLE_EMPTY_CLAUSE = 15,   /* a clause has no literal (IMPOSSIBLE; the lowest such clause) */
    POPSAMPLE_CLASHING = 16        /* by popping, two clauses share a variable and can both be false (CLASH; the lowest such
                                      pair: the first times 2^32 plus the second) */
};

/* Samples spanning trees, with the arrows of all vertices towards `root`. The probability of a tree is proportional to the
   product of the weights of its edges. weights[i] is the weight of edge i, from 1 to 2^32 - 1. With weights_len 0 every
   weight is 1.

   A row of `parents`, `edges` and `used` has one number for each vertex: the vertex to which its arrow points, the edge of
   that arrow, and the number of stack entries that were passed. At the root these are POPSAMPLE_NONE, POPSAMPLE_NONE and 0.
   `edges` and `used` are optional. A bad event is a cycle of arrows. */
uint32_t popsample_trees(uint32_t vertices, const uint32_t *ends, size_t ends_len,
                         const uint32_t *weights, size_t weights_len, uint32_t root,
                         const uint8_t *key, size_t key_len, uint32_t height, uint32_t first,
                         const uint32_t *from, size_t from_len, uint64_t budget,
                         uint32_t *parents, size_t parents_len, uint32_t *edges, size_t edges_len,
                         uint32_t *used, size_t used_len, uint64_t *counts, size_t counts_len,
                         uint64_t *kind, uint64_t *place);

/* Samples orientations without sinks, all with the same probability.

   A row of `directions` has one byte for each edge: 0 if it points from ends[2 i] to ends[2 i + 1], and 1 if it points the
   other way. A row of `used` has the number of stack entries of each edge that were passed. `used` is optional. A bad event
   is a sink: a vertex that no edge leaves. */
uint32_t popsample_orientations(uint32_t vertices, const uint32_t *ends, size_t ends_len,
                                const uint8_t *key, size_t key_len, uint32_t height, uint32_t first,
                                const uint32_t *from, size_t from_len, uint64_t budget,
                                uint8_t *directions, size_t directions_len, uint32_t *used, size_t used_len,
                                uint64_t *counts, size_t counts_len, uint64_t *kind, uint64_t *place);

/* Samples assignments that satisfy a formula, all with the same probability. `by_rounds` is 0 to sample by popping, which
   takes formulas whose clauses do not clash, as `popsample formula` does. It is 1 to sample by rounds, which takes any
   formula, as `popsample rounds` does. Sample 0 by rounds is the sample of `popsample rounds` under the same key.

   A row of `values` has one byte for each variable: 1 if it is true, and 0 if it is false. A row of `used` has the number
   of stack entries of each variable that were passed. `used` is optional. A bad event is a clause that is false. */
uint32_t popsample_assignments(uint32_t variables, const int32_t *literals, size_t literals_len, uint32_t by_rounds,
                               const uint8_t *key, size_t key_len, uint32_t height, uint32_t first,
                               const uint32_t *from, size_t from_len, uint64_t budget,
                               uint8_t *values, size_t values_len, uint32_t *used, size_t used_len,
                               uint64_t *counts, size_t counts_len, uint64_t *kind, uint64_t *place);

#ifdef __cplusplus
}
#endif

#endif
