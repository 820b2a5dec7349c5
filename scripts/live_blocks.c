// A library to be loaded before the C library: it counts the blocks that a program holds. The counts stand in the file that
// LIVE_BLOCKS names, as three 64-bit numbers that may be read at any time: blocks that live, their bytes, and how often a
// block was taken. scripts/live_blocks makes it and uses it.
#include <errno.h>
#include <fcntl.h>
#include <malloc.h>
#include <stdatomic.h>
#include <stddef.h>
#include <stdlib.h>
#include <sys/mman.h>
#include <unistd.h>

// The C library's own, by the names that it keeps for whoever stands before it.
void *__libc_malloc(size_t size);
void *__libc_calloc(size_t count, size_t size);
void *__libc_realloc(void *old, size_t size);
void *__libc_memalign(size_t alignment, size_t size);
void __libc_free(void *block);

struct counts {
    atomic_long blocks, bytes, taken;
};

// What was taken before the file was there is counted here, and then added to it.
static struct counts early;
static struct counts *_Atomic counts = &early;

__attribute__((constructor)) static void open_the_file(void) {
    const char *path = getenv("LIVE_BLOCKS");
    int file = path ? open(path, O_RDWR) : -1;
    if (file < 0)
        return;
    struct counts *shared = mmap(NULL, sizeof *shared, PROT_READ | PROT_WRITE, MAP_SHARED, file, 0);
    close(file);
    if (shared == MAP_FAILED)
        return;
    atomic_fetch_add(&shared->blocks, early.blocks);
    atomic_fetch_add(&shared->bytes, early.bytes);
    atomic_fetch_add(&shared->taken, early.taken);
    counts = shared;
}

static void *is_taken(void *block) {
    if (block) {
        atomic_fetch_add(&counts->blocks, 1);
        atomic_fetch_add(&counts->bytes, malloc_usable_size(block));
        atomic_fetch_add(&counts->taken, 1);
    }
    return block;
}

static void is_given_back(size_t bytes) {
    atomic_fetch_sub(&counts->blocks, 1);
    atomic_fetch_sub(&counts->bytes, bytes);
}

void *malloc(size_t size) { return is_taken(__libc_malloc(size)); }

void *calloc(size_t count, size_t size) { return is_taken(__libc_calloc(count, size)); }

void *memalign(size_t alignment, size_t size) { return is_taken(__libc_memalign(alignment, size)); }

void *aligned_alloc(size_t alignment, size_t size) { return is_taken(__libc_memalign(alignment, size)); }

int posix_memalign(void **block, size_t alignment, size_t size) {
    void *taken = is_taken(__libc_memalign(alignment, size));
    if (taken)
        *block = taken;
    return taken ? 0 : ENOMEM;
}

void *realloc(void *old, size_t size) {
    size_t bytes = old ? malloc_usable_size(old) : 0;
    void *block = __libc_realloc(old, size);
    // Where memory is refused the old block stays. A size of 0 frees it.
    if (old && (block || !size))
        is_given_back(bytes);
    return is_taken(block);
}

void free(void *block) {
    if (block)
        is_given_back(malloc_usable_size(block));
    __libc_free(block);
}
