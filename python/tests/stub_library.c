/* A library that samples nothing: it answers what the tests of the module work out for themselves, so that they see how
   the module calls a library. With ASSIGNMENTS it has popsample_assignments, and otherwise popsample_run alone. */
#include <popsample.h>
#include <string.h>

static const char SOLUTION[] = "s SAMPLE\nv 1 2 0\nused 0 0\nrounds 0\n";

uint32_t popsample_run(const uint8_t *words, size_t words_len, const uint8_t *text, size_t text_len,
                       uint8_t *output, size_t room, size_t *written) {
    (void)words, (void)words_len, (void)text, (void)text_len, (void)room;
    *written = strlen(SOLUTION);
    memcpy(output, SOLUTION, *written);
    return 0;
}

#ifdef ASSIGNMENTS
enum { OK = 0, EXHAUSTED = 1, USAGE = 2, REFUSED = 4, STOPPED = 10, STEPS = 5, REFUSING = 1000 };

/* Sample S takes S modulo STEPS steps, which are the pops or the rounds, and so many values of each variable are passed.
   Its values are the bits of the sum of S, the last byte of the key, `by_rounds` and all literals. If the height has
   no room for its steps it is exhausted, and all its values are 0. With 1000 + K variables the refusal is of kind K. */
uint32_t popsample_assignments(uint32_t variables, const int32_t *literals, size_t literals_len, uint32_t by_rounds,
                               const uint8_t *key, size_t key_len, uint32_t height, uint32_t first,
                               const uint32_t *from, size_t from_len, uint64_t budget,
                               uint8_t *values, size_t values_len, uint32_t *used, size_t used_len,
                               uint64_t *counts, size_t counts_len, uint64_t *kind, uint64_t *place) {
    size_t rows = counts_len / 2, row, i;
    uint32_t status = OK, added = by_rounds;
    *kind = *place = 0;
    if (key_len != 32 || by_rounds > 1 || height == 0 || values_len != rows * variables || used_len != values_len ||
        (from_len != 0 && from_len != variables) || literals_len == 0 || literals[literals_len - 1] != 0)
        return USAGE;
    if (variables > REFUSING) {
        *kind = variables - REFUSING;
        *place = ((uint64_t)2 << 32) + 3;
        return REFUSED;
    }
    for (i = 0; i < literals_len; i++)
        added += (uint32_t)literals[i];
    for (row = 0; row < rows; row++) {
        uint32_t sample = first + (uint32_t)row, bits = sample + key[31] + added, wanted = sample % STEPS;
        uint32_t done = row == 0 && from_len ? from[0] : 0, began = done;
        uint32_t end = wanted < height ? wanted : height - 1;
        while (done < end && budget > 0)
            done++, budget--;
        counts[2 * row] = done - began;
        counts[2 * row + 1] = wanted > done;
        for (i = 0; i < variables; i++)
            used[row * variables + i] = done;
        if (done < end) {
            *place = row;
            return STOPPED;
        }
        for (i = 0; i < variables; i++)
            values[row * variables + i] = wanted == done && (bits >> i & 1);
        if (wanted > done)
            status = EXHAUSTED;
    }
    return status;
}
#endif
