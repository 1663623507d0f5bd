/* Stands between a program and its standard input and output, loaded before the C library (LD_PRELOAD); the program itself is as
 * users compile it. Reads of descriptor 0 and writes to descriptor 1 come here, those of stdio too, whose two streams are replaced
 * before `main`. FAULT is a word and a number n:
 *   read               once n bytes are read, each read fails with EIO
 *   read_interrupted   once n bytes are read, one read fails with EINTR
 *   write              once n bytes are written, each write fails with ENOSPC
 *   write_interrupted  once n bytes are written, one write fails with EINTR
 *   short              a read or a write moves n bytes at most */
#define _GNU_SOURCE
#include <errno.h>
#include <stdio.h>
#include <stdlib.h>
#include <string.h>
#include <sys/syscall.h>
#include <sys/types.h>
#include <unistd.h>

static const char *const fails[] = {"read", "write"}, *const stops[] = {"read_interrupted", "write_interrupted"};
static const int errors[] = {EIO, ENOSPC};
static char word[32];
static size_t n, moved[2]; /* the bytes read and written so far */
static int stopped;

static size_t least(size_t a, size_t b)
{
    return a < b ? a : b;
}

/* How many of so many bytes a call on descriptor 0 or 1 may move; -1 where it fails. */
static ssize_t allowed(int file, size_t length)
{
    int stop = strcmp(word, stops[file]) == 0 && !stopped;
    if (strcmp(word, "short") == 0)
        return (ssize_t)least(length, n);
    if (!stop && strcmp(word, fails[file]) != 0)
        return (ssize_t)length;
    if (moved[file] < n)
        return (ssize_t)least(length, n - moved[file]);
    stopped = stop;
    errno = stop ? EINTR : errors[file];
    return -1;
}

/* A read or a write, which the system calls so. */
static ssize_t call(long number, int file, void *bytes, size_t length)
{
    int concerns = file == (number == SYS_write);
    ssize_t most = concerns ? allowed(file, length) : (ssize_t)length;
    if (most < 0)
        return -1;
    ssize_t done = syscall(number, file, bytes, (size_t)most);
    if (concerns && done > 0)
        moved[file] += (size_t)done;
    return done;
}

ssize_t read(int file, void *bytes, size_t length)
{
    return call(SYS_read, file, bytes, length);
}

ssize_t write(int file, const void *bytes, size_t length)
{
    return call(SYS_write, file, (void *)bytes, length);
}

/* The same for the streams of stdio: a write is made again until all is written or one fails, as stdio does it. */
static ssize_t stream_read(void *file, char *bytes, size_t length)
{
    (void)file;
    return read(0, bytes, length);
}

static ssize_t stream_write(void *file, const char *bytes, size_t length)
{
    size_t done = 0;
    (void)file;
    while (done < length) {
        ssize_t more = write(1, bytes + done, length - done);
        if (more <= 0)
            break;
        done += (size_t)more;
    }
    return (ssize_t)done;
}

__attribute__((constructor)) static void begin(void)
{
    const char *fault = getenv("FAULT");
    if (fault == NULL || sscanf(fault, "%31s %zu", word, &n) != 2)
        abort();
    stdin = fopencookie(NULL, "r", (cookie_io_functions_t){.read = stream_read});
    stdout = fopencookie(NULL, "w", (cookie_io_functions_t){.write = stream_write});
    if (stdin == NULL || stdout == NULL)
        abort();
}
