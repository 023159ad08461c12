/* Loaded before a program, it refuses the thread of the number in REFUSED_THREAD, counted from 1, as where no more processes may be made; and all
   that come after it. */
#define _GNU_SOURCE
#include <dlfcn.h>
#include <errno.h>
#include <pthread.h>
#include <stdlib.h>

int pthread_create(pthread_t *thread, const pthread_attr_t *attributes, void *(*start)(void *), void *argument)
{
    static int (*real)(pthread_t *, const pthread_attr_t *, void *(*)(void *), void *);
    static long seen;
    const char *refused = getenv("REFUSED_THREAD");
    if (!real)
        real = dlsym(RTLD_NEXT, "pthread_create");
    if (refused && __atomic_add_fetch(&seen, 1, __ATOMIC_SEQ_CST) >= atol(refused))
        return EAGAIN;
    return real(thread, attributes, start, argument);
}
