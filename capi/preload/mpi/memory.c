/* memory.c: memory of the checker. Without memory it cannot keep its counts, so it ends the program. */
#include "check.h"
#include <stdio.h>
#include <stdlib.h>

void *reallocate(void *old, size_t bytes) {
    void *room = realloc(old, bytes ? bytes : 1);
    if (room) return room;
    fprintf(stderr, "gerfmuod: rank %d: out of memory\n", checker.me);
    PMPI_Abort(MPI_COMM_WORLD, 1);
    abort();
}

/* Returns zeroed memory. */
void *allocate(size_t bytes) {
    char *room = reallocate(NULL, bytes);
    for (size_t n = 0; n < bytes; n++) room[n] = 0;
    return room;
}
