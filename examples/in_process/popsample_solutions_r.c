/* Solutions of formulas for R: .Call("popsample_solutions_r", variables, literals, key, count) gives a logical matrix with a
   column for each solution. `literals` has the clauses one after another, a 0 ends each, and `key` is a raw vector of 32
   bytes. If clauses clash, the solutions are drawn by rounds. array_solutions.R has the command that makes it. */
#include <popsample.h>
#include <R.h>
#include <Rinternals.h>

SEXP popsample_solutions_r(SEXP variables, SEXP literals, SEXP key, SEXP count)
{
    int n = asInteger(variables), solutions = asInteger(count);
    R_xlen_t size = (R_xlen_t)n * solutions;
    SEXP matrix = PROTECT(allocMatrix(LGLSXP, n, solutions));
    uint32_t none = 0, status = POPSAMPLE_CLASH;
    uint8_t *values = (uint8_t *)R_alloc((size_t)size + 1, 1);
    uint64_t *counts = (uint64_t *)R_alloc(2 * (size_t)solutions + 1, sizeof *counts), kind, place;

    for (uint32_t by_rounds = 0; status == POPSAMPLE_CLASH && by_rounds < 2; by_rounds++)
        status = popsample_assignments((uint32_t)n, INTEGER(literals), xlength(literals), by_rounds, RAW(key), xlength(key),
                                       0x7fffffff, 0, &none, 0, UINT64_MAX, values, size, &none, 0, counts,
                                       2 * (size_t)solutions, &kind, &place);
    if (status != POPSAMPLE_OK)
        error("status %u, kind %u, place %u", status, (unsigned)kind, (unsigned)place);
    for (R_xlen_t i = 0; i < size; i++)
        LOGICAL(matrix)[i] = values[i];
    UNPROTECT(1);
    return matrix;
}
