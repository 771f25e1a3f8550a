/* cost.c [TASKS TURNS CHAINED]: makes tasks in one thread, independent ones or 64 chains of tasks with depend clauses, whose bodies turn
 * this often in a loop, and prints the time of a task. Without arguments it prints the turns of a microsecond. `tools/dev bench preloaded`
 * runs it with and without the tool, in turns. */
#define _POSIX_C_SOURCE 200809L /* clock_gettime */
#include <stdio.h>
#include <stdlib.h>
#include <time.h>

enum { CHAINS = 64 };
static double seconds(void) {
    struct timespec t;
    clock_gettime(CLOCK_MONOTONIC, &t);
    return (double)t.tv_sec + (double)t.tv_nsec / 1e9;
}
static void body(long turns) {
    for (volatile long k = 0; k < turns; k++) {}
}

/* Prints the microseconds of a task. */
static int run(int tasks, long turns, int is_chained) {
    static char chains[CHAINS];
    double begin = 0, end = 0;
#pragma omp parallel
    {
#pragma omp barrier
#pragma omp single
        {
            begin = seconds();
            for (int k = 0; k < tasks; k++) {
                if (is_chained) {
#pragma omp task depend(inout : chains[k % CHAINS])
                    body(turns);
                } else {
#pragma omp task
                    body(turns);
                }
            }
        }
        /* (at the barrier here the threads run the tasks) */
#pragma omp single
        end = seconds();
    }
    (void)chains;
    printf("%.3f us a task\n", (end - begin) * 1e6 / tasks);
    return 0;
}

int main(int count, char **arguments) {
    if (count == 4) return run(atoi(arguments[1]), atol(arguments[2]), atoi(arguments[3]));
    double begin = seconds();
    body(100000000);
    printf("%.1f turns a microsecond\n", 100000000 / ((seconds() - begin) * 1e6));
    return 0;
}
