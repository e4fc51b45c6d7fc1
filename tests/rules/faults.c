/* Loaded before the C library: the reads of standard input and the writes of standard output of the program `rules` fail, stop short or are interrupted,
   as the environment says. */
#define _GNU_SOURCE
#include <errno.h>
#include <stdlib.h>
#include <string.h>
#include <sys/syscall.h>
#include <unistd.h>

static long number(const char *name)
{
    const char *value = getenv(name);
    return value ? atol(value) : 0;
}

static int in_rules(void)
{
    return strcmp(program_invocation_short_name, "rules") == 0;
}

/* READ_FAILS: the read that fails, from 1; READ_SIGNAL: every so many reads one is interrupted; READ_MOST: no read gives more bytes. */
ssize_t read(int fd, void *buffer, size_t n)
{
    static long count;
    if (fd == 0 && in_rules()) {
        long fails = number("READ_FAILS"), signal = number("READ_SIGNAL"), most = number("READ_MOST");
        count++;
        if (count == fails) { errno = EIO; return -1; }
        if (signal && count % signal == 0) { errno = EINTR; return -1; }
        if (most && n > (size_t)most) n = most;
    }
    return syscall(SYS_read, fd, buffer, n);
}

/* WRITE_FAILS: the write that fails, from 1; WRITE_NONE: the write that takes nothing; WRITE_MOST: no write takes more bytes. */
ssize_t write(int fd, const void *buffer, size_t n)
{
    static long count;
    if (fd == 1 && in_rules()) {
        long fails = number("WRITE_FAILS"), none = number("WRITE_NONE"), most = number("WRITE_MOST");
        count++;
        if (count == fails) { errno = ENOSPC; return -1; }
        if (count == none) return 0;
        if (most && n > (size_t)most) n = most;
    }
    return syscall(SYS_write, fd, buffer, n);
}
