/*
 * What read and write answer in the system's place, for the cases of tools/runs that have a file `answers`: loaded before the C library
 * into the program that is run. BRAVOLITH_ANSWERS has the lines of the file. Each call takes the next line of its kind, and does as the
 * system does where none is left; a write to error output takes none.
 */
#include <errno.h>
#include <stdlib.h>
#include <string.h>
#include <sys/syscall.h>
#include <unistd.h>

static const struct {
    const char *name;
    int number;
} failures[] = {{"EINTR", EINTR}, {"EAGAIN", EAGAIN}, {"EIO", EIO}, {"ENOSPC", ENOSPC}, {"EPIPE", EPIPE}};

/* What stands behind the kind in its next line, and `at` moves past it; NULL where none is left. */
static const char *next_line(const char *kind, const char **at)
{
    size_t length = strlen(kind);
    if (*at == NULL && (*at = getenv("BRAVOLITH_ANSWERS")) == NULL)
        *at = "";
    while (**at != 0) {
        const char *line = *at, *end = strchr(line, '\n');
        *at = end != NULL ? end + 1 : line + strlen(line);
        if (strncmp(line, kind, length) == 0 && line[length] == ' ')
            return line + length + 1;
    }
    return NULL;
}

/* A failure by its name, or at most so many bytes. */
static long answer(const char *line, long call, int file, const void *bytes, size_t length)
{
    if (line != NULL) {
        for (size_t i = 0; i < sizeof failures / sizeof *failures; i++)
            if (strncmp(line, failures[i].name, strlen(failures[i].name)) == 0) {
                errno = failures[i].number;
                return -1;
            }
        size_t most = strtoul(line, NULL, 10);
        length = length < most ? length : most;
    }
    return syscall(call, file, bytes, length);
}

ssize_t read(int file, void *bytes, size_t length)
{
    static const char *at;
    return answer(next_line("read", &at), SYS_read, file, bytes, length);
}

ssize_t write(int file, const void *bytes, size_t length)
{
    static const char *at;
    return answer(file == STDERR_FILENO ? NULL : next_line("write", &at), SYS_write, file, bytes, length);
}
