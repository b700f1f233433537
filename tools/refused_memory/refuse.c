/* Preloaded before a program: refuses what REFUSED names, "memory N" or "thread N", its Nth allocation or its Nth
   start of a thread, from 1, and tells so by a byte on the descriptor in TOLD. A block that is made larger is an
   allocation; one that is given back is none. What the start of a thread allocates for itself is not counted: it is
   asked for at another place of the program than the first allocation. */

#define _GNU_SOURCE
#include <dlfcn.h>
#include <errno.h>
#include <pthread.h>
#include <stdatomic.h>
#include <stdio.h>
#include <stdlib.h>
#include <unistd.h>

extern void *__libc_malloc(size_t size);
extern void *__libc_realloc(void *block, size_t size);

static long refused_allocation;
static long refused_start;
static int told;
static atomic_long allocations;
static atomic_long starts;
static _Atomic(void *) place;

__attribute__((constructor)) static void begin(void)
{
    const char *what = getenv("REFUSED");
    const char *descriptor = getenv("TOLD");
    told = descriptor ? atoi(descriptor) : -1;
    if (what && sscanf(what, "memory %ld", &refused_allocation) != 1)
        sscanf(what, "thread %ld", &refused_start);
    atomic_store(&place, NULL);
    atomic_store(&allocations, 0);
}

static void tell(void)
{
    if (write(told, "r", 1) != 1)
        _exit(99);
}

static int is_refused(void)
{
    if (atomic_fetch_add(&allocations, 1) + 1 != refused_allocation)
        return 0;
    tell();
    errno = ENOMEM;
    return 1;
}

void *malloc(size_t size)
{
    void *here = __builtin_return_address(0);
    void *none = NULL;
    atomic_compare_exchange_strong(&place, &none, here);
    return here == atomic_load(&place) && is_refused() ? NULL : __libc_malloc(size);
}

void *realloc(void *block, size_t size)
{
    return is_refused() ? NULL : __libc_realloc(block, size);
}

int pthread_create(pthread_t *thread, const pthread_attr_t *attributes, void *(*run)(void *), void *with)
{
    int (*create)(pthread_t *, const pthread_attr_t *, void *(*)(void *), void *) = dlsym(RTLD_NEXT, "pthread_create");
    if (atomic_fetch_add(&starts, 1) + 1 == refused_start) {
        tell();
        return EAGAIN;
    }
    return create(thread, attributes, run, with);
}
