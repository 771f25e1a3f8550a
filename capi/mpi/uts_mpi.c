/* uts_mpi.c: the Unbalanced Tree Search over MPI. Each process searches a part of the tree; a process with nothing left asks
 * a random other one for some of its nodes. A detector reports when the whole tree is searched.
 *
 *   mpicc -O2 -Icapi/include capi/mpi/uts_mpi.c -Llib -lgerfmuod -lm -o uts_mpi
 *   mpirun -n 4 ./uts_mpi [--profile FILE] T1|T3|T0 [proved|hand|safra|reductions] [right|late|late_kept|early|uncounted] [seed]
 *
 * Messages with nodes are counted. Requests and refusals of requests create no work, so they need not be counted.
 * The third argument selects a faulty variant, to show that the check can fail. late: counts a receipt after its work, and
 * sends even if the detector refuses. late_kept: the same, but obeys the refusals. early: closes the work of a message
 * when it comes. uncounted: does not count what it sends; it never ends. The exit status is 1 if nodes are missing.
 * With --profile, FILE gets the searches, the messages with nodes and the waves of all processes as trace events. */
#define _POSIX_C_SOURCE 200809L
#include <mpi.h>
#include "detectors.h"
#include "rank_events.h"
#include "uts.h"
#include <inttypes.h>
#include <stdio.h>
#include <stdlib.h>

enum { ASK = 1, WORK = 2, NONE = 3, CONTROL = 4 };
enum wrong { RIGHT, LATE, LATE_KEPT, EARLY, UNCOUNTED };
enum { CHUNK = 64, POLL = 32, ROOM = 1 << 20 };

static int me, n, asked = -1, uncounted_receipts, deepest;
static bool has_ended, is_working = true;
static enum wrong wrong = RIGHT;
static detector d;
static node *stack;
static size_t many;
static uint64_t nodes, leaves, steals, asks, refusals, left, late;
static double last_work, told_at;
static rank_events events; /* nothing is recorded without --profile, nor the waves of other detectors */
static wave_log waves;
static uint64_t seed;

static uint32_t draw(void) {
    seed ^= seed << 13;
    seed ^= seed >> 7;
    seed ^= seed << 17;
    return (uint32_t)(seed >> 32);
}

static void note_wave(unsigned next, const control *c) {
    if (events.kept && d.kind == PROVED) wave_log_note(&waves, &d.proved, next, c, nanoseconds_now());
}

static unsigned next_of_detector(control *c) {
    unsigned next = detector_next(&d, c);
    note_wave(next, c);
    return next;
}

static void ask_detector(void) {
    control c;
    unsigned next;
    while ((next = next_of_detector(&c)) == GERFMUOD_PROCESS_SEND)
        MPI_Send(&c, sizeof c, MPI_BYTE, (int)c.to, CONTROL, MPI_COMM_WORLD);
    if (next == GERFMUOD_PROCESS_ENDED && !has_ended) {
        has_ended = true;
        told_at = MPI_Wtime();
    }
}

static void count_receipt(void) { refusals += detector_received(&d) != 0; }

/* Takes half of the nodes here, the oldest first, at most a chunk. */
static void give_work(int to) {
    size_t give = many / 2 < CHUNK ? many / 2 : CHUNK;
    asks++;
    if (give > 0 && wrong != UNCOUNTED && detector_sent(&d)) {
        refusals++;
        if (wrong != LATE) give = 0;
    }
    if (give == 0) {
        MPI_Send(NULL, 0, MPI_BYTE, to, NONE, MPI_COMM_WORLD);
        return;
    }
    note_message(&events, SENT_WORK, to);
    MPI_Send(stack, (int)(give * sizeof(node)), MPI_BYTE, to, WORK, MPI_COMM_WORLD);
    memmove(stack, stack + give, (many - give) * sizeof(node));
    many -= give;
}

static void take_work(const MPI_Status *s) {
    int bytes;
    MPI_Get_count(s, MPI_BYTE, &bytes);
    if (wrong == LATE || wrong == LATE_KEPT) uncounted_receipts++;
    else count_receipt();
    MPI_Recv(stack + many, bytes, MPI_BYTE, s->MPI_SOURCE, WORK, MPI_COMM_WORLD, MPI_STATUS_IGNORE);
    note_search(&events, true);
    note_message(&events, RECEIVED_WORK, s->MPI_SOURCE);
    many += (size_t)bytes / sizeof(node);
    steals++;
    asked = -1;
    is_working = true;
    if (wrong == EARLY) detector_finish_work(&d);
}

/* Receives a message, if one came. */
static bool poll(void) {
    MPI_Status s;
    int there;
    MPI_Iprobe(MPI_ANY_SOURCE, MPI_ANY_TAG, MPI_COMM_WORLD, &there, &s);
    if (!there) return false;
    if (s.MPI_TAG == CONTROL) {
        control c;
        MPI_Recv(&c, sizeof c, MPI_BYTE, s.MPI_SOURCE, CONTROL, MPI_COMM_WORLD, MPI_STATUS_IGNORE);
        detector_take(&d, &c);
        note_wave(GERFMUOD_PROCESS_NOTHING, &c);
    } else if (s.MPI_TAG == WORK) {
        take_work(&s);
    } else {
        MPI_Recv(NULL, 0, MPI_BYTE, s.MPI_SOURCE, s.MPI_TAG, MPI_COMM_WORLD, MPI_STATUS_IGNORE);
        if (s.MPI_TAG == ASK) give_work(s.MPI_SOURCE);
        else asked = -1;
    }
    return true;
}

static void search(const tree *t) {
    for (int k = 0; many && k < POLL; k++) {
        node at = stack[--many];
        int children = uts_children(t, &at);
        nodes++;
        if (at.height > deepest) deepest = at.height;
        if (!children) leaves++;
        for (int i = 0; i < children; i++) stack[many++] = uts_child(&at, i);
    }
}

/* Closes the piece of work that the beginning or the last message opened. */
static void finish_work(void) {
    is_working = false;
    note_search(&events, false);
    last_work = MPI_Wtime();
    if (uncounted_receipts) {
        count_receipt();
        uncounted_receipts = 0;
    }
    if (wrong != EARLY || steals == 0) detector_finish_work(&d);
}

static void ask_for_work(void) {
    asked = (int)(draw() % (uint32_t)(n - 1));
    if (asked >= me) asked++;
    MPI_Send(NULL, 0, MPI_BYTE, asked, ASK, MPI_COMM_WORLD);
}

/* The end is known. Receives the replies that are still in flight; nodes in them came after the end. */
static void drain(void) {
    MPI_Request barrier;
    bool has_entered = false;
    int done = 0;
    left = many;
    while (!done) {
        uint64_t before = steals;
        many = 0;
        poll();
        late += steals - before;
        if (asked < 0 && !has_entered) {
            MPI_Ibarrier(MPI_COMM_WORLD, &barrier);
            has_entered = true;
        }
        if (has_entered) MPI_Test(&barrier, &done, MPI_STATUS_IGNORE);
    }
}

/* Adds up the counts of all processes; process 0 prints them. Returns whether the whole tree was searched. */
static int report(const tree *t, const char *kind, const char *how, double begun) {
    uint64_t mine[8] = {nodes, leaves, steals, asks, d.controls, refusals, left, late}, sum[8];
    double times[2] = {last_work, told_at}, last[2];
    int depth, is_right = 1;
    MPI_Reduce(mine, sum, 8, MPI_UINT64_T, MPI_SUM, 0, MPI_COMM_WORLD);
    MPI_Reduce(&deepest, &depth, 1, MPI_INT, MPI_MAX, 0, MPI_COMM_WORLD);
    MPI_Reduce(times, last, 2, MPI_DOUBLE, MPI_MAX, 0, MPI_COMM_WORLD);
    if (me == 0) {
        is_right = sum[0] == t->nodes && sum[1] == t->leaves && depth == t->deepest;
        printf("%s %s %s: %d processes, %" PRIu64 " nodes, %" PRIu64 " leaves, depth %d, %.3f s, %.3f ms to detect the end, %" PRIu64
               " waves, %" PRIu64 " control messages, %" PRIu64 " steals of %" PRIu64 " asked, %" PRIu64 " calls refused, %" PRIu64
               " nodes left, %" PRIu64 " steals after the end: %s\n",
               t->name, kind, how, n, sum[0], sum[1], depth, last[1] - begun, 1e3 * (last[1] - last[0]), detector_waves(&d), sum[4], sum[2],
               sum[3], sum[5], sum[6], sum[7], is_right ? "right" : "WRONG");
    }
    MPI_Bcast(&is_right, 1, MPI_INT, 0, MPI_COMM_WORLD);
    return is_right;
}

int main(int argc, char **argv) {
    static const char *const names[] = {"right", "late", "late_kept", "early", "uncounted"};
    MPI_Init(&argc, &argv);
    MPI_Comm_rank(MPI_COMM_WORLD, &me);
    MPI_Comm_size(MPI_COMM_WORLD, &n);
    const char *profile = argc > 2 && !strcmp(argv[1], "--profile") ? argv[2] : NULL;
    if (profile) argc -= 2, argv += 2, open_events(&events, n);
    int64_t offset = profile ? clock_offset(me, n) : 0;
    const tree *t = uts_tree(argc > 1 ? argv[1] : "T1");
    const char *kind = argc > 2 ? argv[2] : "proved", *how = argc > 3 ? argv[3] : "right";
    while (wrong < UNCOUNTED && strcmp(how, names[wrong])) wrong++;
    seed = 0x9e3779b97f4a7c15u * (uint64_t)(me + 1) + (argc > 4 ? strtoull(argv[4], NULL, 10) * 0xd1342543de82ef95u : 0);
    stack = malloc(ROOM * sizeof *stack);
    if (!stack) MPI_Abort(MPI_COMM_WORLD, 9);
    uint64_t before = nanoseconds_now();
    MPI_Barrier(MPI_COMM_WORLD);
    double begun = MPI_Wtime();
    note_search(&events, true);
    detector_new(&d, detector_named(kind), me, n);
    if (me == 0) stack[many++] = uts_root(t);
    while (!has_ended) {
        search(t);
        while (poll()) {}
        if (!many && is_working) finish_work();
        ask_detector();
        if (!many && !has_ended && asked < 0 && n > 1) ask_for_work();
    }
    drain();
    int is_right = report(t, kind, how, begun);
    if (profile && !write_events(&events, &waves, profile, before, offset, me, n)) {
        fprintf(stderr, "%s: not written\n", profile);
        MPI_Abort(MPI_COMM_WORLD, 4);
    }
    MPI_Finalize();
    return is_right ? 0 : 1;
}
