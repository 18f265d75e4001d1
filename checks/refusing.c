/* Refuses one call of a program that is linked to the C library: put before its libraries by LD_PRELOAD.

   REFUSED has the kind of call and its number, from 1, as in `alloc 7`; all other calls are made. PIECE is the greatest
   number of bytes that a read or a write moves. TALLY names a file of 32 bytes, in which the calls of each kind are
   counted as they come: a count of 64 bits each. */
#define _GNU_SOURCE
#include <dlfcn.h>
#include <errno.h>
#include <fcntl.h>
#include <pthread.h>
#include <stdatomic.h>
#include <stdint.h>
#include <stdio.h>
#include <stdlib.h>
#include <string.h>
#include <sys/mman.h>
#include <sys/syscall.h>
#include <unistd.h>

enum kind { ALLOC, THREAD, READ, WRITE, KINDS };

static const char *const names[KINDS] = {"alloc", "thread", "read", "write"};
static _Atomic unsigned long unseen[KINDS];
static _Atomic unsigned long *calls = unseen;
static enum kind refused_kind = KINDS;
static unsigned long refused_call;
static size_t piece = SIZE_MAX;

/* The calls of the C library's own, which glibc exports. */
extern void *__libc_malloc(size_t bytes);
extern void *__libc_realloc(void *block, size_t bytes);

/* Counts a call, and says whether it is the refused one. */
static int is_refused(enum kind kind) {
    unsigned long call = atomic_fetch_add(&calls[kind], 1) + 1;
    return kind == refused_kind && call == refused_call;
}

static void share_tally(const char *path) {
    int file = open(path, O_RDWR);
    void *shared = mmap(NULL, sizeof unseen, PROT_READ | PROT_WRITE, MAP_SHARED, file, 0);
    close(file);
    if (shared == MAP_FAILED)
        abort();
    calls = shared;
}

__attribute__((constructor)) static void begin(void) {
    const char *refused = getenv("REFUSED"), *most = getenv("PIECE"), *tally = getenv("TALLY");
    char name[8];
    if (most)
        piece = strtoul(most, NULL, 10);
    if (tally)
        share_tally(tally);
    if (refused && sscanf(refused, "%7s %lu", name, &refused_call) == 2)
        for (enum kind kind = ALLOC; kind < KINDS; kind++)
            if (strcmp(name, names[kind]) == 0)
                refused_kind = kind;
}

void *malloc(size_t bytes) {
    if (!is_refused(ALLOC))
        return __libc_malloc(bytes);
    errno = ENOMEM;
    return NULL;
}

void *realloc(void *block, size_t bytes) {
    if (!is_refused(ALLOC))
        return __libc_realloc(block, bytes);
    errno = ENOMEM;
    return NULL;
}

int pthread_create(pthread_t *thread, const pthread_attr_t *how, void *(*body)(void *), void *given) {
    int (*next)(pthread_t *, const pthread_attr_t *, void *(*)(void *), void *) = dlsym(RTLD_NEXT, "pthread_create");
    return is_refused(THREAD) ? EAGAIN : next(thread, how, body, given);
}

ssize_t read(int file, void *bytes, size_t count) {
    if (!is_refused(READ))
        return syscall(SYS_read, file, bytes, count < piece ? count : piece);
    errno = EIO;
    return -1;
}

ssize_t write(int file, const void *bytes, size_t count) {
    if (!is_refused(WRITE))
        return syscall(SYS_write, file, bytes, count < piece ? count : piece);
    errno = EIO;
    return -1;
}
