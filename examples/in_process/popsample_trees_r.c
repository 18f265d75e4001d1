/* Spanning trees for R: .Call("popsample_trees_r", vertices, ends, weights, root, key, count) gives a matrix of parents with
   a column for each tree. `ends` has two vertices for each edge, `weights` a whole number for each edge, and `key` is a raw
   vector of 32 bytes. Vertices count from 1, and the root's parent is NA. array_tree.R has the command that makes it. */
#include <popsample.h>
#include <R.h>
#include <Rinternals.h>

SEXP popsample_trees_r(SEXP vertices, SEXP ends, SEXP weights, SEXP root, SEXP key, SEXP count)
{
    int n = asInteger(vertices), trees = asInteger(count);
    R_xlen_t ends_len = xlength(ends), size = (R_xlen_t)n * trees;
    SEXP parents = PROTECT(allocMatrix(INTSXP, n, trees));
    uint32_t none = 0, *numbers = (uint32_t *)R_alloc(ends_len + 1, sizeof *numbers);
    uint32_t *heads = (uint32_t *)INTEGER(parents);
    uint64_t *counts = (uint64_t *)R_alloc(2 * (size_t)trees + 1, sizeof *counts), kind, place;

    for (R_xlen_t i = 0; i < ends_len; i++)
        numbers[i] = (uint32_t)INTEGER(ends)[i] - 1;
    uint32_t status = popsample_trees((uint32_t)n, numbers, ends_len, (uint32_t *)INTEGER(weights), xlength(weights),
                                      (uint32_t)asInteger(root) - 1, RAW(key), xlength(key), 4096, 0, &none, 0, UINT64_MAX,
                                      heads, size, &none, 0, &none, 0, counts, 2 * (size_t)trees, &kind, &place);
    if (status != POPSAMPLE_OK)
        error("status %u, kind %u, place %u", status, (unsigned)kind, (unsigned)place);
    for (R_xlen_t i = 0; i < size; i++)
        INTEGER(parents)[i] = heads[i] == POPSAMPLE_NONE ? NA_INTEGER : (int)heads[i] + 1;
    UNPROTECT(1);
    return parents;
}
