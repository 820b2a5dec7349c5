// A library to be loaded before the C library: it refuses the Nth allocation of a program, and no other, where
// N is the number in REFUSED_ALLOCATION. scripts/each_allocation_fails makes it and uses it.
#define _GNU_SOURCE
#include <dlfcn.h>
#include <stdatomic.h>
#include <stddef.h>
#include <stdlib.h>

// How many allocations are left up to the one that is refused; 0 where none is. Threads count together.
static atomic_long left;

__attribute__((constructor)) static void read_the_number(void) {
    const char *number = getenv("REFUSED_ALLOCATION");
    atomic_store(&left, number ? atol(number) : 0);
}

static int is_refused(void) {
    long now = atomic_load(&left);
    while (now > 0)
        if (atomic_compare_exchange_weak(&left, &now, now - 1))
            return now == 1;
    return 0;
}

void *malloc(size_t size) {
    static void *(*next)(size_t);
    if (!next)
        next = (void *(*)(size_t))dlsym(RTLD_NEXT, "malloc");
    return is_refused() ? NULL : next(size);
}

void *realloc(void *old, size_t size) {
    static void *(*next)(void *, size_t);
    if (!next)
        next = (void *(*)(void *, size_t))dlsym(RTLD_NEXT, "realloc");
    return is_refused() ? NULL : next(old, size);
}
