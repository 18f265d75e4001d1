/* popsample for R: .Call("popsample_r", words, text) gives the status and what the program would print. tree.R has the
   command that makes it. */
#include <popsample.h>
#include <R.h>
#include <Rinternals.h>
#include <string.h>

SEXP popsample_r(SEXP words, SEXP text)
{
    size_t len = 0, room = 65536, written = 0;

    for (R_xlen_t i = 0; i < xlength(words); i++)
        len += strlen(CHAR(STRING_ELT(words, i))) + 1;
    /* What R_alloc gives is taken back at the end of the call. */
    char *line = R_alloc(len + 1, 1), *at = line;
    for (R_xlen_t i = 0; i < xlength(words); i++, at += strlen(at) + 1)
        strcpy(at, CHAR(STRING_ELT(words, i)));
    const char *input = CHAR(STRING_ELT(text, 0));
    for (;;) {
        uint8_t *output = (uint8_t *)R_alloc(room, 1);
        uint32_t status = popsample_run((uint8_t *)line, len, (const uint8_t *)input, strlen(input), output, room, &written);
        if (status == POPSAMPLE_NO_ROOM) {
            room = written;
            continue;
        }
        SEXP answer = PROTECT(ScalarString(mkCharLen((char *)output, (int)written)));
        setAttrib(answer, install("status"), ScalarInteger((int)status));
        UNPROTECT(1);
        return answer;
    }
}
