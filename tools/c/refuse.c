// Loaded before a program (LD_PRELOAD), it fails one allocation of the program: the REFUSE-th, counted from 1, or, if REFUSE_ON
// is set, that one and all after it. If one failed, it creates the file that REFUSE_REPORT names.
#define _GNU_SOURCE
#include <errno.h>
#include <fcntl.h>
#include <stdatomic.h>
#include <stddef.h>
#include <stdlib.h>
#include <unistd.h>

extern void *__libc_malloc(size_t);
extern void *__libc_calloc(size_t, size_t);
extern void *__libc_realloc(void *, size_t);
extern void *__libc_memalign(size_t, size_t);

static unsigned long refused, all_on;
static const char *report;
static atomic_ulong allocations;

__attribute__((constructor)) static void begin(void) {
    const char *number = getenv("REFUSE");
    all_on = getenv("REFUSE_ON") != NULL;
    report = getenv("REFUSE_REPORT");
    refused = number ? strtoul(number, NULL, 10) : 0;
}

static int is_refused(void) {
    if (!refused)
        return 0;
    unsigned long allocation = atomic_fetch_add(&allocations, 1) + 1;
    if (allocation < refused || (allocation > refused && !all_on))
        return 0;
    if (allocation == refused && report)
        close(open(report, O_CREAT | O_WRONLY | O_CLOEXEC, 0600));
    errno = ENOMEM;
    return 1;
}

void *malloc(size_t size) {
    return is_refused() ? NULL : __libc_malloc(size);
}

void *calloc(size_t count, size_t size) {
    return is_refused() ? NULL : __libc_calloc(count, size);
}

void *realloc(void *at, size_t size) {
    return is_refused() ? NULL : __libc_realloc(at, size);
}

void *memalign(size_t alignment, size_t size) {
    return is_refused() ? NULL : __libc_memalign(alignment, size);
}

void *aligned_alloc(size_t alignment, size_t size) {
    return is_refused() ? NULL : __libc_memalign(alignment, size);
}

int posix_memalign(void **at, size_t alignment, size_t size) {
    void *result = is_refused() ? NULL : __libc_memalign(alignment, size);
    if (!result)
        return ENOMEM;
    *at = result;
    return 0;
}
