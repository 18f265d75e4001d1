/* Memory that is counted and can be refused, for the tests of the library. They are linked with memory.c, and with --wrap
   for malloc, realloc and free. */
#ifndef POPSAMPLE_TEST_MEMORY_H
#define POPSAMPLE_TEST_MEMORY_H

#include <stdatomic.h>

enum { NONE_REFUSED = -1 };

/* How many blocks the library holds, and how many more it is given before one is refused. */
extern atomic_long held;
extern atomic_long left;

/* Ends the test with this sentence. */
_Noreturn void fail(const char *what);

#endif
