/* Stands between a program and the system's calls on files, linked in by the linker's --wrap; the program itself is as users compile it. Each call
 * that is made is noted in the file that TRACE names, with the bytes that it wrote, so that a test knows what is on the disk and what is durable.
 * FAULT is a word and a number n, and says what happens at the n-th call that it concerns:
 *   die        the program is killed before the call; concerns the calls that create, write, cut, rename or sync
 *   half       it is killed after half of a write
 *   fail       the call is not made, and fails with EIO; concerns every call
 *   interrupt  a read or a write is not made, and fails with EINTR
 *   short      a read or a write is made by half, and says so
 * An fsync is noted and not made: a test keeps account of what would be lost. */
#define _XOPEN_SOURCE 700
#include <errno.h>
#include <fcntl.h>
#include <signal.h>
#include <stdarg.h>
#include <stdio.h>
#include <stdlib.h>
#include <string.h>
#include <sys/types.h>
#include <unistd.h>

int __real_open64(const char *path, int flags, ...);
int __real_openat(int folder, const char *path, int flags, ...);
ssize_t __real_read(int file, void *bytes, size_t length);
ssize_t __real_pread64(int file, void *bytes, size_t length, off_t at);
ssize_t __real_pwrite64(int file, const void *bytes, size_t length, off_t at);
int __real_ftruncate64(int file, off_t length);
int __real_renameat(int from_folder, const char *from, int to_folder, const char *to);

int __wrap_open(const char *path, int flags, ...);
int __wrap_open64(const char *path, int flags, ...);
int __wrap_openat(int folder, const char *path, int flags, ...);
ssize_t __wrap_read(int file, void *bytes, size_t length);
ssize_t __wrap_pread(int file, void *bytes, size_t length, off_t at);
ssize_t __wrap_pread64(int file, void *bytes, size_t length, off_t at);
ssize_t __wrap_pwrite(int file, const void *bytes, size_t length, off_t at);
ssize_t __wrap_pwrite64(int file, const void *bytes, size_t length, off_t at);
int __wrap_fsync(int file);
int __wrap_ftruncate(int file, off_t length);
int __wrap_ftruncate64(int file, off_t length);
int __wrap_rename(const char *from, const char *to);
int __wrap_renameat(int from_folder, const char *from, int to_folder, const char *to);

enum { READS = 1, WRITES = 2, CHANGES = 4, NOTHING = 0 };
static int trace = -1;
static char word[16];
static long left;

/* Reads what the test asks for. The trace takes a place far from the standard streams', which may be closed. */
static void begin(void)
{
    const char *fault = getenv("FAULT");
    if (trace >= 0)
        return;
    int first = __real_open64(getenv("TRACE"), O_WRONLY | O_APPEND);
    trace = fcntl(first, F_DUPFD, 100);
    close(first);
    if (trace < 0 || (fault != NULL && sscanf(fault, "%15s %ld", word, &left) != 2))
        abort();
}

/* Whether this call of a kind is the one at which the word happens. */
static int due(const char *asked, int concerns, int kind)
{
    begin();
    return strcmp(word, asked) == 0 && (concerns & kind) != 0 && --left == 0;
}

/* Before a call: dies, or says whether it fails. */
static int fails(int kind)
{
    if (due("die", CHANGES, kind))
        kill(getpid(), SIGKILL);
    errno = EIO;
    if (due("fail", ~0, kind | 8))
        return 1;
    errno = EINTR;
    return due("interrupt", READS | WRITES, kind);
}

static void note(const char *form, ...)
{
    char line[512];
    va_list rest;
    va_start(rest, form);
    int n = vsnprintf(line, sizeof line, form, rest);
    va_end(rest);
    if (n < 0 || (size_t)n >= sizeof line || write(trace, line, (size_t)n) != n)
        abort();
}

/* The last part of a path. */
static const char *last(const char *path)
{
    const char *end = strrchr(path, '/');
    return end == NULL ? path : end + 1;
}

static int opened(int folder, const char *path, int flags, int mode)
{
    int file;
    if (fails((flags & (O_CREAT | O_TRUNC)) != 0 ? CHANGES : NOTHING))
        return -1;
    file = __real_openat(folder, path, flags, mode);
    if (file >= 0)
        note("open %d %s %s\n", file, (flags & O_TRUNC) != 0 ? "empty" : "whole", last(path));
    return file;
}

int __wrap_open(const char *path, int flags, ...)
{
    return opened(AT_FDCWD, path, flags, 0666);
}

int __wrap_open64(const char *path, int flags, ...)
{
    return opened(AT_FDCWD, path, flags, 0666);
}

int __wrap_openat(int folder, const char *path, int flags, ...)
{
    return opened(folder, path, flags, 0666);
}

ssize_t __wrap_read(int file, void *bytes, size_t length)
{
    return fails(READS) ? -1 : __real_read(file, bytes, due("short", READS, READS) ? (length + 1) / 2 : length);
}

ssize_t __wrap_pread64(int file, void *bytes, size_t length, off_t at)
{
    return fails(READS) ? -1 : __real_pread64(file, bytes, due("short", READS, READS) ? (length + 1) / 2 : length, at);
}

ssize_t __wrap_pread(int file, void *bytes, size_t length, off_t at)
{
    return __wrap_pread64(file, bytes, length, at);
}

ssize_t __wrap_pwrite64(int file, const void *bytes, size_t length, off_t at)
{
    int half = 0;
    ssize_t n;
    if (fails(WRITES | CHANGES))
        return -1;
    half = due("half", WRITES, WRITES);
    n = __real_pwrite64(file, bytes, half || due("short", WRITES, WRITES) ? (length + 1) / 2 : length, at);
    if (n >= 0) {
        note("write %d %lld %zd\n", file, (long long)at, n);
        if (write(trace, bytes, (size_t)n) != n)
            abort();
    }
    if (half)
        kill(getpid(), SIGKILL);
    return n;
}

ssize_t __wrap_pwrite(int file, const void *bytes, size_t length, off_t at)
{
    return __wrap_pwrite64(file, bytes, length, at);
}

int __wrap_fsync(int file)
{
    if (fails(CHANGES))
        return -1;
    note("sync %d\n", file);
    return 0;
}

int __wrap_ftruncate64(int file, off_t length)
{
    if (fails(CHANGES) || __real_ftruncate64(file, length) != 0)
        return -1;
    note("cut %d %lld\n", file, (long long)length);
    return 0;
}

int __wrap_ftruncate(int file, off_t length)
{
    return __wrap_ftruncate64(file, length);
}

int __wrap_renameat(int from_folder, const char *from, int to_folder, const char *to)
{
    if (fails(CHANGES) || __real_renameat(from_folder, from, to_folder, to) != 0)
        return -1;
    note("rename %s %s\n", last(from), last(to));
    return 0;
}

int __wrap_rename(const char *from, const char *to)
{
    return __wrap_renameat(AT_FDCWD, from, AT_FDCWD, to);
}
