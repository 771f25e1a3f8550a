/* threads.c: MPI_THREAD_MULTIPLE is not served. Whether a rank is idle is unknown if another of its threads may call MPI.
 *
 * MPI_Init_thread grants at most MPI_THREAD_SERIALIZED. Many programs ignore that, so their calls are guarded. */
#define _GNU_SOURCE
#include "wrapper.h"
#include <pthread.h>
#include <stdio.h>

static int is_guarded;
static pthread_mutex_t lock = PTHREAD_RECURSIVE_MUTEX_INITIALIZER_NP; /* held by the thread that is in a call */

void threads_guard(void) { is_guarded = 1; }

int thread_enter(void) {
    if (!is_guarded) return 0;
    if (!pthread_mutex_trylock(&lock)) return 1;
    fprintf(stderr, "gerfmuod: rank %d: two threads call MPI at the same time, which needs MPI_THREAD_MULTIPLE: not served\n",
            checker.me);
    end_job(1);
}

void thread_leave(int *entered) {
    if (*entered) pthread_mutex_unlock(&lock);
}
