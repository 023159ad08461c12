/* Loaded before a program, it refuses one allocation: that of the number in REFUSED_GROWTH, counted from 1. Where REFUSED_GAP has a
   number, it refuses one after another from there on, for a program that tries again after each refusal: so many allocations
   later the next one, then one more later the next, and so on. For each refusal there is a byte more in the file that
   REFUSAL_TOLD names. */
#define _GNU_SOURCE
#include <dlfcn.h>
#include <fcntl.h>
#include <stdlib.h>
#include <unistd.h>

static void tell(void)
{
    const char *told = getenv("REFUSAL_TOLD");
    int file = told ? open(told, O_CREAT | O_WRONLY | O_APPEND, 0600) : -1;
    if (file < 0)
        return;
    if (write(file, ".", 1) != 1)
        abort();
    close(file);
}

static int refuses(void)
{
    static long seen, next, gap;
    const char *first = getenv("REFUSED_GROWTH"), *later = getenv("REFUSED_GAP");
    if (!next && first)
        next = atol(first);
    if (!gap && later)
        gap = atol(later);
    if (++seen != next)
        return 0;
    if (gap)
        next += gap++;
    tell();
    return 1;
}

void *malloc(size_t size)
{
    static void *(*real)(size_t);
    if (!real)
        real = dlsym(RTLD_NEXT, "malloc");
    return refuses() ? NULL : real(size);
}

void *realloc(void *block, size_t size)
{
    static void *(*real)(void *, size_t);
    if (!real)
        real = dlsym(RTLD_NEXT, "realloc");
    return refuses() ? NULL : real(block, size);
}
