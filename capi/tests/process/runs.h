/* runs.h: runs of a random program, each with a seed of its own, for cases that judge all of them. */
#ifndef RUNS_H
#define RUNS_H
#include "../random.h"
#include "../violations.h"

#define IN_RUN "in run %" PRIu64 ", of seed %#" PRIx64

static uint64_t runs, present; /* how many there are, and the number of the present one */

/* Of the test that includes this file. */
static void make_run(void);

static inline uint64_t seed_of_run(void) { return 0x9e3779b97f4a7c15u * (present + 1); }

static void make_runs(void) {
    for (; present < runs; present++) {
        seed = seed_of_run();
        make_run();
    }
}

/* Counts violations in the present run. */
static inline void judge(violations *of, uint64_t count) { count_violations(of, count, IN_RUN, present, seed_of_run()); }
#endif
