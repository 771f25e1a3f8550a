/* timing.h: shared by the measured programs of this folder: a clock, and the times of some ways of running. */
#ifndef TIMING_H
#define TIMING_H
#include <stdio.h>
#include <stdlib.h>
#include <time.h>

enum { MAX_WAYS = 16, MAX_ROUNDS = 64 };

static inline double seconds_now(void) {
    struct timespec t;
    clock_gettime(CLOCK_MONOTONIC, &t);
    return (double)t.tv_sec + (double)t.tv_nsec * 1e-9;
}

/* Exits the program if a call was refused. */
static inline void need(unsigned refused, const char *what) {
    if (refused) {
        fprintf(stderr, "%s: refused %u\n", what, refused);
        exit(3);
    }
}

/* Prints `WAY UNITS T1 T2 ..`, with times in milliseconds. */
static inline void print_times(const char *way, size_t units, const double *seconds, int rounds) {
    printf("%s %zu", way, units);
    for (int r = 0; r < rounds; r++) printf(" %.4f", seconds[r] * 1e3);
    printf("\n");
}

/* What is measured: how a round is prepared, and whether its result is right; and the number of tasks, which may be known later. */
struct measured {
    void (*prepare)(void);
    void (*go)(const char *way);
    int (*is_right)(void);
    const size_t *units;
};

/* Runs each way in each round, and prints the times of all rounds but the first. Exits the program if a result is wrong. */
static inline void measure(struct measured it, const char *rounds_text, char **ways, int count) {
    static double times[MAX_WAYS][MAX_ROUNDS];
    int rounds = atoi(rounds_text);
    need(count < 1 || count > MAX_WAYS || rounds >= MAX_ROUNDS, "the number of ways or of rounds");
    for (int r = 0; r <= rounds; r++)
        for (int w = 0; w < count; w++) {
            it.prepare();
            double from = seconds_now();
            it.go(ways[w]);
            times[w][r ? r - 1 : 0] = seconds_now() - from;
            if (it.is_right()) continue;
            printf("%s: the result is wrong\n", ways[w]);
            exit(2);
        }
    for (int w = 0; w < count; w++) print_times(ways[w], *it.units, times[w], rounds);
}
#endif
