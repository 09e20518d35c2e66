/*
 * The kit's own C of its library `os`, as far as the programs call it, for a processor for which the kit brings none. tools/native links it,
 * for measurements alone; the programs that are proved and tested are linked with the kit's.
 */
#include <errno.h>
#include <stddef.h>
#include <stdint.h>
#include <string.h>
#include <sys/types.h>

static int count;
static char **words;

/* The C library hands the arguments to each function that it runs before main. */
__attribute__((constructor)) static void keep(int argc, char **argv)
{
    count = argc;
    words = argv;
}

int32_t rattle_errno(void) { return errno; }

void rattle_set_errno(int32_t error) { errno = error; }

size_t rattle_arg_count(void) { return (size_t)count; }

ssize_t rattle_arg(size_t i, uint8_t *buffer, size_t length)
{
    if (i >= (size_t)count)
        return -1;
    size_t size = strlen(words[i]);
    memcpy(buffer, words[i], size < length ? size : length);
    return size <= length ? (ssize_t)size : -2;
}
