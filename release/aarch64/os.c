/* For aarch64: the calls of the system that the program makes through C, as the toolchain's libos_c.a has them for
   x86-64. */
#include <errno.h>
#include <stdint.h>
#include <string.h>
#include <sys/types.h>

int32_t rattle_errno(void)
{
    return errno;
}

void rattle_set_errno(int32_t error)
{
    errno = error;
}

/* The arguments of the program: glibc passes those of main to what runs before it. */
static int count;
static char **words;

__attribute__((constructor)) static void keep(int argc, char **argv)
{
    count = argc;
    words = argv;
}

/* The length of an argument, which is put to the front of the room. It is -1 if there is no such argument, and -2 if
   the argument doesn't fit; then the room is full. */
ssize_t rattle_arg(size_t index, char *room, size_t length)
{
    size_t has;

    if (index >= (size_t)count || words[index] == NULL)
        return -1;
    has = strlen(words[index]);
    memcpy(room, words[index], has < length ? has : length);
    return has <= length ? (ssize_t)has : -2;
}
