/* A stand-in for the program, to try tools/shell.py: it reads standard input in one of several ways, and hands what it read to the program itself.

       wrong_shell KIND PROGRAM

   KIND is `right`, `reads_once`, `loses_a_read`, `stops_at_the_limit`, `a_failed_read_ends_the_input` or `a_failed_write_is_silent`. */
#define _GNU_SOURCE
#include <errno.h>
#include <fcntl.h>
#include <stdio.h>
#include <string.h>
#include <unistd.h>

int main(int argc, char **argv) {
    if (argc != 3)
        return 2;
    const char *kind = argv[1];
    char script[1024];
    size_t most = strcmp(kind, "stops_at_the_limit") ? 1024 : 1023;
    size_t n = 0;
    while (n < most) {
        ssize_t got = read(0, script + n, most - n);
        if (got > 0 && !strcmp(kind, "loses_a_read"))
            got = read(0, script + n, most - n);
        if (got < 0 && strcmp(kind, "a_failed_read_ends_the_input")) {
            fprintf(stderr, "tarbucket: standard input: %s (os error %d)\n", strerror(errno), errno);
            return 0;
        }
        if (got <= 0)
            break;
        n += (size_t)got;
        if (!strcmp(kind, "reads_once"))
            break;
    }
    int ends[2];
    if (pipe2(ends, O_CLOEXEC))
        return 2;
    /* beyond the first three, which may be closed */
    int in = fcntl(ends[0], F_DUPFD_CLOEXEC, 10);
    if (in < 0 || write(ends[1], script, n) != (ssize_t)n)
        return 2;
    close(ends[0]);
    close(ends[1]);
    if (dup2(in, 0) < 0)
        return 2;
    if (!strcmp(kind, "a_failed_write_is_silent"))
        dup2(open("/dev/null", O_WRONLY | O_CLOEXEC), 2);
    execv(argv[2], argv + 2);
    return 2;
}
