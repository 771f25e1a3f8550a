// Loaded before a program (LD_PRELOAD), it counts the bytes that the program has allocated at a time, and stores the maximum
// in the file that LIVE_REPORT names, as a number of 64 bits.
#define _GNU_SOURCE
#include <fcntl.h>
#include <malloc.h>
#include <stdatomic.h>
#include <stddef.h>
#include <stdlib.h>
#include <sys/mman.h>
#include <unistd.h>

extern void *__libc_malloc(size_t);
extern void *__libc_calloc(size_t, size_t);
extern void *__libc_realloc(void *, size_t);
extern void *__libc_memalign(size_t, size_t);
extern void __libc_free(void *);

static atomic_long live, unseen;
static atomic_long *most = &unseen;

static void add(long bytes) {
    long now = atomic_fetch_add(&live, bytes) + bytes;
    long before = atomic_load(most);
    while (before < now && !atomic_compare_exchange_weak(most, &before, now)) {
    }
}

static void *added(void *at) {
    if (at)
        add((long)malloc_usable_size(at));
    return at;
}

void *malloc(size_t size) {
    return added(__libc_malloc(size));
}

void *calloc(size_t count, size_t size) {
    return added(__libc_calloc(count, size));
}

void *realloc(void *at, size_t size) {
    long before = at ? (long)malloc_usable_size(at) : 0;
    void *result = __libc_realloc(at, size);
    if (result)
        add((long)malloc_usable_size(result) - before);
    return result;
}

void *memalign(size_t alignment, size_t size) {
    return added(__libc_memalign(alignment, size));
}

void *aligned_alloc(size_t alignment, size_t size) {
    return added(__libc_memalign(alignment, size));
}

int posix_memalign(void **at, size_t alignment, size_t size) {
    void *result = added(__libc_memalign(alignment, size));
    if (!result)
        return 12;
    *at = result;
    return 0;
}

void free(void *at) {
    if (at)
        atomic_fetch_sub(&live, (long)malloc_usable_size(at));
    __libc_free(at);
}

__attribute__((constructor)) static void begin(void) {
    const char *report = getenv("LIVE_REPORT");
    int file = report ? open(report, O_CREAT | O_TRUNC | O_RDWR | O_CLOEXEC, 0600) : -1;
    if (file < 0)
        return;
    if (ftruncate(file, sizeof *most) == 0) {
        void *at = mmap(NULL, sizeof *most, PROT_READ | PROT_WRITE, MAP_SHARED, file, 0);
        if (at != MAP_FAILED)
            most = at;
    }
    close(file);
}
