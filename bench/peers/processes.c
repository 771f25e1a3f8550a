/* processes.c: what the detectors of capi/mpi/detectors.h cost without a network.
 *
 *   processes calls send|message|wave proved|hand|safra TIMES     a call, again and again
 *   processes steps proved|hand|safra PROCESSES                   the end of idle processes, over a network with a clock
 *
 * calls prints how many calls there were and the nanoseconds of each. send: a message is counted as sent. message: one is
 * counted as received, and its work is finished. wave: a leaf takes the token and passes it on.
 * steps prints in how many steps of the clock all processes learn of the end, if a control message takes one step and a call
 * none, and how many control messages and waves there were. The exit status is 1 if a process does not learn of the end. */
#define _POSIX_C_SOURCE 199309L
#include "../../capi/mpi/detectors.h"
#include <inttypes.h>
#include <stdio.h>
#include <stdlib.h>
#include <time.h>

static double now(void) {
    struct timespec t;
    clock_gettime(CLOCK_MONOTONIC, &t);
    return (double)t.tv_sec * 1e9 + (double)t.tv_nsec;
}

/* ---- calls */

static uint64_t send_once(detector *d, uint64_t k) {
    (void)k;
    return 1 + detector_sent(d);
}

static uint64_t receive_once(detector *d, uint64_t k) {
    (void)k;
    return 2 + detector_received(d) + detector_finish_work(d);
}

/* Process 2 of 3 is a leaf of the tree, and the first that process 0 of the ring sends the token to. */
static uint64_t pass_wave(detector *d, uint64_t k) {
    control down = {0}, up;
    down.to = 2;
    down.wave = k + 1;
    down.processes = 3;
    unsigned refused = detector_take(d, &down), next = detector_next(d, &up);
    return 3 + refused + (next != GERFMUOD_PROCESS_SEND) + (detector_next(d, &up) != GERFMUOD_PROCESS_NOTHING);
}

static int print_calls(const char *what, int kind, uint64_t times) {
    detector d;
    uint64_t calls = 0, each = *what == 's' ? 1 : *what == 'm' ? 2 : 3;
    detector_new(&d, kind, 2, 3);
    if (each > 1) detector_finish_work(&d);
    double begun = now();
    for (uint64_t k = 0; k < times; k++) calls += each == 1 ? send_once(&d, k) : each == 2 ? receive_once(&d, k) : pass_wave(&d, k);
    double took = now() - begun;
    printf("%" PRIu64 " calls, %.3f ns each\n", calls, calls ? took / (double)calls : 0);
    return calls != each * times;
}

/* ---- steps */

static control *present, *coming;
static size_t present_count, coming_count;

/* Asks a process what to do until it has to wait, or knows the end. */
static void ask(detector *d) {
    unsigned next;
    do {
        next = detector_next(d, &coming[coming_count]);
        coming_count += next == GERFMUOD_PROCESS_SEND;
    } while (next == GERFMUOD_PROCESS_SEND || next == GERFMUOD_PROCESS_AGAIN);
}

static int print_steps(int kind, size_t n) {
    detector *processes = malloc(n * sizeof *processes);
    uint64_t steps = 0, controls = 0, uninformed = 0;
    control c;
    present = malloc((n + 4) * sizeof *present);
    coming = malloc((n + 4) * sizeof *coming);
    if (!processes || !present || !coming) return 9;
    for (size_t i = 0; i < n; i++) {
        detector_new(&processes[i], kind, (int)i, (int)n);
        detector_finish_work(&processes[i]);
    }
    ask(&processes[0]);
    while (coming_count) {
        control *old = present;
        present = coming;
        coming = old;
        present_count = coming_count;
        coming_count = 0;
        steps++;
        for (size_t k = 0; k < present_count; k++) {
            detector_take(&processes[present[k].to], &present[k]);
            ask(&processes[present[k].to]);
        }
    }
    for (size_t i = 0; i < n; i++) {
        controls += processes[i].controls;
        uninformed += detector_next(&processes[i], &c) != GERFMUOD_PROCESS_ENDED;
    }
    printf("%zu processes: %" PRIu64 " steps, %" PRIu64 " control messages, %" PRIu64 " waves, %" PRIu64 " not informed\n", n, steps,
           controls, detector_waves(&processes[0]), uninformed);
    free(processes);
    free(present);
    free(coming);
    return uninformed != 0;
}

int main(int argc, char **argv) {
    if (argc == 5 && !strcmp(argv[1], "calls")) return print_calls(argv[2], detector_named(argv[3]), strtoull(argv[4], NULL, 10));
    if (argc == 4 && !strcmp(argv[1], "steps")) return print_steps(detector_named(argv[2]), strtoull(argv[3], NULL, 10));
    fputs("processes calls send|message|wave DETECTOR TIMES | processes steps DETECTOR PROCESSES\n", stderr);
    return 2;
}
