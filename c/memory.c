/* Memory that is counted and can be refused. */
#include "memory.h"
#include <stdio.h>
#include <stdlib.h>

atomic_long held = 0;
atomic_long left = NONE_REFUSED;

void *__real_malloc(size_t size);
void *__real_realloc(void *block, size_t size);
void __real_free(void *block);
void *__wrap_malloc(size_t size);
void *__wrap_realloc(void *block, size_t size);
void __wrap_free(void *block);

static int is_refused(void)
{
    return left != NONE_REFUSED && (left == 0 || left-- == 0);
}

void *__wrap_malloc(size_t size)
{
    void *block = is_refused() ? NULL : __real_malloc(size);

    held += block != NULL;
    return block;
}

void *__wrap_realloc(void *block, size_t size)
{
    return is_refused() ? NULL : __real_realloc(block, size);
}

void __wrap_free(void *block)
{
    held -= block != NULL;
    __real_free(block);
}

void fail(const char *what)
{
    fprintf(stderr, "tests of the library: %s\n", what);
    exit(1);
}
