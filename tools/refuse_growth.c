/*
 * Refuses one allocation of the program that it is preloaded into: the one whose number, from 1, is in REFUSED_GROWTH.
 * It writes one byte to descriptor 3 when it does, so that a caller knows when every allocation had its turn.
 */
#define _GNU_SOURCE
#include <dlfcn.h>
#include <errno.h>
#include <stdlib.h>
#include <unistd.h>

static long growths;

static int is_refused(void)
{
    const char *number = getenv("REFUSED_GROWTH");
    if (number == NULL || ++growths != atol(number))
        return 0;
    if (write(3, "x", 1) != 1)
        abort();
    errno = ENOMEM;
    return 1;
}

void *malloc(size_t size)
{
    static void *(*real)(size_t);
    if (real == NULL)
        real = dlsym(RTLD_NEXT, "malloc");
    return is_refused() ? NULL : real(size);
}

void *realloc(void *old, size_t size)
{
    static void *(*real)(void *, size_t);
    if (real == NULL)
        real = dlsym(RTLD_NEXT, "realloc");
    return is_refused() ? NULL : real(old, size);
}
