/* For aarch64: the memory of proved code by malloc, as the toolchain's liblibc_c.a has it for x86-64. */
#include <stdbool.h>
#include <stdlib.h>

struct tried { /* whether there is a block, and the block */
    bool ok;
    void *p;
};

static _Alignas(16) char nothing[16];

static struct tried tried(void *p)
{
    return (struct tried){p != NULL, p != NULL ? p : nothing};
}

/* A block of no bytes has as many as its alignment, which is 16 at most. */
struct tried rattle_alloc(size_t size, size_t align)
{
    return tried(malloc(size == 0 ? align : size));
}

struct tried rattle_realloc(void *block, size_t kept, size_t size, size_t align)
{
    (void)kept;
    return tried(realloc(block, size == 0 ? align : size));
}

void rattle_dealloc(void *block)
{
    free(block);
}
