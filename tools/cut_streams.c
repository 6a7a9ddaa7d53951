/*
 * Cuts the streams of the program that it is preloaded into, and counts the calls that are made on them. Only `read` and `write` are cut
 * and counted. A program that makes other calls, as `readv` or `writev`, has counts of 0, at which the checks fail. What the
 * environment names:
 *
 *   MOST_READ      how many bytes a read of descriptor 0 gives at most
 *   AFTER          what comes after the input: end, failure, or spaces without end
 *   MOST_WRITTEN   how many bytes a write takes at most
 *   ROOM           how many bytes descriptor 1 takes in all; then a write takes none
 *   FAILED_OUTPUT  the number of the write to descriptor 1 that fails, from 0
 *   FAILED_ERROR   the same of descriptor 2
 *   INTERRUPTED    what fails says that it was interrupted, and not that the device failed
 *   COUNTS         a file that is there already, and holds, after each call, three numbers of eight bytes: how many reads there were,
 *                  and how many writes to either descriptor, those that failed among them; without it the program is aborted at its
 *                  first read or write
 *
 * A limit that is not named is none.
 */
#define _GNU_SOURCE
#include <dlfcn.h>
#include <errno.h>
#include <fcntl.h>
#include <stdint.h>
#include <stdlib.h>
#include <string.h>
#include <unistd.h>

static int64_t calls[3];
static size_t taken;

/* A number of the environment, or one that is too large for any call. */
static size_t limit(const char *name)
{
    const char *text = getenv(name);
    return text == NULL ? (size_t)-1 >> 1 : strtoull(text, NULL, 10);
}

/* Counts a call, and says which one it is, from 0. */
static size_t count_call(int descriptor)
{
    static int counts = -1;
    size_t number = (size_t)calls[descriptor]++;
    const char *name = getenv("COUNTS");
    if (counts < 0 && name != NULL)
        counts = open(name, O_WRONLY | O_CLOEXEC);
    if (pwrite(counts, calls, sizeof calls, 0) != (ssize_t)sizeof calls)
        abort();
    return number;
}

static ssize_t fail(void)
{
    errno = getenv("INTERRUPTED") == NULL ? EIO : EINTR;
    return -1;
}

ssize_t read(int descriptor, void *bytes, size_t size)
{
    static ssize_t (*real)(int, void *, size_t);
    const char *after = getenv("AFTER");
    if (real == NULL)
        real = dlsym(RTLD_NEXT, "read");
    if (descriptor != 0)
        return real(descriptor, bytes, size);
    count_call(descriptor);
    if (size > limit("MOST_READ"))
        size = limit("MOST_READ");
    ssize_t given = real(descriptor, bytes, size);
    if (given != 0 || after == NULL || strcmp(after, "end") == 0)
        return given;
    if (strcmp(after, "failure") == 0)
        return fail();
    memset(bytes, ' ', size);
    return (ssize_t)size;
}

ssize_t write(int descriptor, const void *bytes, size_t size)
{
    static ssize_t (*real)(int, const void *, size_t);
    if (real == NULL)
        real = dlsym(RTLD_NEXT, "write");
    if (descriptor != 1 && descriptor != 2)
        return real(descriptor, bytes, size);
    if (count_call(descriptor) == limit(descriptor == 1 ? "FAILED_OUTPUT" : "FAILED_ERROR"))
        return fail();
    if (size > limit("MOST_WRITTEN"))
        size = limit("MOST_WRITTEN");
    if (descriptor == 1 && size > limit("ROOM") - taken)
        size = limit("ROOM") - taken;
    ssize_t written = size == 0 ? 0 : real(descriptor, bytes, size);
    if (descriptor == 1 && written > 0)
        taken += (size_t)written;
    return written;
}
