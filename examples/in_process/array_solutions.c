/* Draws solutions of the formula on standard input by arrays, and prints a line for each:

       cc -Ic/include -o array_solutions examples/in_process/array_solutions.c crates/popsample_c/out/libpopsample.a
       ./array_solutions a7e8b266ea9514109c9a658bc61f21124fe41c0814138e4855d11a7599f94bc6 5 < examples/chain.cnf

   The arguments are the key, of 64 hexadecimal digits, and how many solutions there are to be. The same key and formula
   give the solutions of `popsample formula --count`. If clauses clash, they are drawn by rounds. */
#include <popsample.h>
#include <stdio.h>
#include <stdlib.h>
#include <string.h>

/* Room for the formulas of this folder. */
enum { VARIABLES = 1024, LITERALS = 8192, SOLUTIONS = 64 };

static int32_t literals[LITERALS];
static uint8_t values[SOLUTIONS * VARIABLES];
static uint64_t counts[2 * SOLUTIONS];

/* Reads the clauses, each of which a 0 ends, and returns how many numbers there are. */
static size_t read_literals(uint32_t *variables)
{
    char line[4096];
    size_t count = 0;

    *variables = 0;
    while (fgets(line, sizeof line, stdin)) {
        char *at = line, *end;

        if (line[0] == 'c' || sscanf(line, "p cnf %u", variables) == 1)
            continue;
        for (long literal = strtol(at, &end, 10); end != at && count < LITERALS; literal = strtol(at, &end, 10)) {
            literals[count++] = (int32_t)literal;
            at = end;
        }
    }
    return count;
}

int main(int argc, char **argv)
{
    uint8_t key[32];
    uint32_t variables, none = 0, status = POPSAMPLE_CLASH;
    uint64_t kind, place;
    size_t len = read_literals(&variables), solutions = argc == 3 ? strtoul(argv[2], NULL, 10) : 0;

    if (argc != 3 || strlen(argv[1]) != 64 || variables > VARIABLES || solutions > SOLUTIONS) {
        fputs("usage: array_solutions KEY COUNT < FORMULA\n", stderr);
        return 2;
    }
    for (int i = 0; i < 32; i++) {
        unsigned byte = 0;

        sscanf(argv[1] + 2 * i, "%2x", &byte);
        key[i] = (uint8_t)byte;
    }
    for (uint32_t by_rounds = 0; status == POPSAMPLE_CLASH && by_rounds < 2; by_rounds++)
        status = popsample_assignments(variables, literals, len, by_rounds, key, sizeof key, 0x7fffffff, 0, &none, 0,
                                       UINT64_MAX, values, solutions * variables, &none, 0, counts, 2 * solutions, &kind,
                                       &place);
    if (status != POPSAMPLE_OK) {
        fprintf(stderr, "status %u, kind %u, place %llu\n", status, (unsigned)kind, (unsigned long long)place);
        return (int)status;
    }
    for (size_t j = 0; j < solutions; j++) {
        putchar('v');
        for (uint32_t v = 0; v < variables; v++)
            printf(values[j * variables + v] ? " %u" : " -%u", v + 1);
        puts(" 0");
    }
    return 0;
}
