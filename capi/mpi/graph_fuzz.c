/* graph_fuzz.c: random task graphs over MPI, compared with the sequential program: data with random owners and sizes, and tasks with
 * random accesses, classes and pauses. Each process compares its own data with a run of all tasks in their order. MPI completes sends
 * late, and no buffer may be written before.
 *
 *     mpicc -O2 -Icapi/include capi/mpi/graph_fuzz.c capi/include/gerfmuod/mpi.c -Llib -lgerfmuod -pthread -o graph_fuzz
 *     mpirun -n 4 ./graph_fuzz FIRST LAST THREADS [FAILS]
 *
 * The seeds FIRST to LAST are tried, after each refusal of a description. With FAILS, in each graph one task fails, and every process
 * has to return STOPPED with that task. Prints one line; the exit status is not 0 if a graph was wrong. */
#define _POSIX_C_SOURCE 200809L
#include "slow_sends.h"
#include <gerfmuod/mpi.h>

#include <stdbool.h>
#include <stdio.h>
#include <stdlib.h>
#include <string.h>
#include <time.h>

enum { MOST_DATA = 12, MOST_TASKS = 120, MOST_ACCESSES = 10, MOST_WORDS = 20000, FEW_WORDS = 4, NONE = -1 };

typedef struct {
    uint32_t number, count, words[MOST_ACCESSES], modes[MOST_ACCESSES], pause;
    bool fails;
} arguments;

static uint64_t state;

static uint32_t below(uint32_t n) {
    state = state * 6364136223846793005u + 1442695040888963407u;
    return (uint32_t)(state >> 33) % n;
}

static uint64_t mixed(uint64_t x, uint64_t y) {
    x = (x ^ y) * 0xff51afd7ed558ccdu;
    return x ^ x >> 29;
}

/* Reads all that the task reads, and writes all words of what it writes. */
static int body(const void *context, void *const *values) {
    const arguments *a = context;
    uint64_t sum = a->number;
    if (a->pause) nanosleep(&(struct timespec){.tv_nsec = a->pause * 1000L}, NULL);
    for (uint32_t k = 0; k < a->count; k++)
        for (uint32_t w = 0; a->modes[k] != GERFMUOD_WRITE && w < a->words[k]; w++) sum = mixed(sum, ((const uint64_t *)values[k])[w]);
    for (uint32_t k = 0; k < a->count; k++)
        for (uint32_t w = 0; a->modes[k] != GERFMUOD_READ && w < a->words[k]; w++) ((uint64_t *)values[k])[w] = mixed(sum, k << 8 | w);
    return a->fails;
}

static int me, processes;
static struct {
    uint32_t words, handle;
    int owner;
    uint64_t own[MOST_WORDS], expected[MOST_WORDS];
} data[MOST_DATA];

static void draw_data(gerfmuod_mpi *graph, uint32_t count) {
    for (uint32_t d = 0; d < count; d++) {
        data[d].words = below(6) ? below(FEW_WORDS) : MOST_WORDS; /* MPI may send many only once they are received */
        data[d].owner = (int)below((uint32_t)processes);
        for (uint32_t w = 0; w < data[d].words; w++) data[d].own[w] = data[d].expected[w] = mixed(d, w);
        data[d].handle = gerfmuod_mpi_data(graph, data[d].owner, data[d].owner == me ? data[d].own : NULL, data[d].words * 8);
    }
}

/* A task that updates or writes data of one process, and reads any. A datum is named once: what a body does is then its own. */
static void draw_task(gerfmuod_mpi *graph, uint32_t count, arguments a) {
    gerfmuod_access accesses[MOST_ACCESSES];
    void *expected[MOST_ACCESSES];
    int owner = NONE;
    bool is_named[MOST_DATA] = {false};
    for (uint32_t most = 1 + below(MOST_ACCESSES); a.count < most;) {
        uint32_t d = below(count), mode = 1 + below(3);
        if (is_named[d]) break;
        if (mode != GERFMUOD_READ && owner != NONE && data[d].owner != owner) mode = GERFMUOD_READ;
        if (mode != GERFMUOD_READ) owner = data[d].owner;
        is_named[d] = true;
        accesses[a.count] = (gerfmuod_access){data[d].handle, mode};
        expected[a.count] = data[d].expected, a.words[a.count] = data[d].words, a.modes[a.count++] = mode;
    }
    gerfmuod_mpi_task_on(graph, below(4), body, &a, sizeof a, accesses, a.count);
    a.pause = 0;
    body(&a, expected);
}

/* Returns whether a graph was right here. */
static bool try_seed(uint64_t seed, uint32_t threads, bool fails, uint64_t *messages) {
    gerfmuod_mpi *graph;
    state = seed * 2 + 1;
    if (gerfmuod_mpi_open(&graph, MPI_COMM_WORLD)) return false;
    uint32_t count = 1 + below(MOST_DATA), tasks = 1 + below(MOST_TASKS), failing = fails ? below(tasks) : MOST_TASKS, at = 0;
    int process = NONE;
    draw_data(graph, count);
    for (uint32_t t = 0; t < tasks; t++)
        draw_task(graph, count, (arguments){.number = t, .pause = below(8) ? 0 : below(200), .fails = t == failing});
    uint32_t refused = gerfmuod_mpi_run(graph, threads);
    bool is_right = refused == (fails ? GERFMUOD_REFUSED_STOPPED : GERFMUOD_OK);
    if (fails && is_right) gerfmuod_mpi_failed(graph, &process, &at), is_right = at == failing && process >= 0 && process < processes;
    for (uint32_t d = 0; !fails && d < count; d++)
        is_right &= data[d].owner != me || !memcmp(data[d].own, data[d].expected, data[d].words * 8);
    *messages += gerfmuod_mpi_messages(graph);
    gerfmuod_mpi_close(graph);
    return is_right;
}

/* Descriptions that are refused, in every process, also if only the last one made them. */
enum wrong { NO_OWNER, TWO_OWNERS, NO_DATUM, NO_HANDLE, NO_CLASS, LARGE, NO_THREADS, OTHER_CLASS, TWICE, WRONGS };
static const uint32_t reasons[WRONGS] = {
    GERFMUOD_REFUSED_NO_NODE, GERFMUOD_REFUSED_NO_NODE,  GERFMUOD_REFUSED_BAD_SPEC,  GERFMUOD_REFUSED_BAD_SPEC, GERFMUOD_REFUSED_BAD_SPEC,
    GERFMUOD_REFUSED_BAD_SPEC, GERFMUOD_REFUSED_NO_THREAD, GERFMUOD_REFUSED_DIFFERENT, GERFMUOD_REFUSED_WRONG_LIFE,
};

static int leave(const void *ran, void *const *values) {
    (void)values, **(bool *const *)ran = true;
    return 0;
}

static bool is_refused(enum wrong wrong) {
    gerfmuod_mpi *graph;
    bool ran = false, *at = &ran, is_last = me == processes - 1;
    uint64_t own[2] = {0, 0};
    if (gerfmuod_mpi_open(&graph, MPI_COMM_WORLD)) return false;
    uint32_t a = gerfmuod_mpi_data(graph, wrong == NO_OWNER ? processes : 0, own, sizeof own[0]);
    uint32_t b = gerfmuod_mpi_data(graph, processes - 1, own + 1, wrong == LARGE ? (size_t)1 << 31 : sizeof own[1]);
    uint32_t class_ = wrong == NO_CLASS ? 4 : wrong == OTHER_CLASS && is_last ? 1 : 0;
    gerfmuod_mpi_task(graph, class_, leave, &at, sizeof at, GERFMUOD_WRITES(a), GERFMUOD_READS(b));
    if (wrong == TWO_OWNERS) gerfmuod_mpi_task(graph, 0, leave, &at, sizeof at, GERFMUOD_WRITES(a), GERFMUOD_UPDATES(b));
    if (wrong == NO_DATUM && is_last) gerfmuod_mpi_task_on(graph, 0, leave, &at, sizeof at, NULL, 0);
    if (wrong == NO_HANDLE) gerfmuod_mpi_task(graph, 0, leave, &at, sizeof at, GERFMUOD_READS(b + 1));
    uint32_t refused = gerfmuod_mpi_run(graph, wrong == NO_THREADS && is_last ? 0 : 1);
    if (wrong == TWICE) ran = refused != GERFMUOD_OK, refused = gerfmuod_mpi_run(graph, 1);
    gerfmuod_mpi_close(graph);
    bool has_two = (wrong != TWO_OWNERS && wrong != OTHER_CLASS) || processes > 1;
    return !has_two || (refused == reasons[wrong] && !ran);
}

/* A graph without tasks ends at once, with a datum that has no memory, and without any. */
static bool is_empty(int owner) {
    gerfmuod_mpi *graph;
    if (gerfmuod_mpi_open(&graph, MPI_COMM_WORLD)) return false;
    if (owner != NONE) (void)gerfmuod_mpi_data(graph, owner, NULL, 0);
    bool is_right = gerfmuod_mpi_run(graph, 2) == GERFMUOD_OK && gerfmuod_mpi_messages(graph) == 0;
    gerfmuod_mpi_close(graph);
    return is_right;
}

/* The last process describes another graph from task `at` on: a task of another class, or after one more datum, or no more tasks. Every
 * process has to find that task, of few tasks, and of many one before it. */
enum difference { CLASS, DATUM, FEWER, DIFFERENCES };
static bool is_found(enum difference difference, uint32_t tasks, uint32_t at) {
    gerfmuod_mpi *graph;
    uint64_t own[2] = {0, 0};
    uint32_t data[2], task = tasks, apart = tasks < 32000 ? 0 : tasks / 16384;
    int process = NONE, differs = me == processes - 1;
    if (gerfmuod_mpi_open(&graph, MPI_COMM_WORLD)) return false;
    for (int k = 0; k < 2; k++) data[k] = gerfmuod_mpi_data(graph, k * (processes - 1), &own[k], sizeof own[k]);
    for (uint32_t t = 0; t < (differs && difference == FEWER ? at : tasks); t++) {
        if (differs && difference == DATUM && t == at) (void)gerfmuod_mpi_data(graph, 0, own, sizeof own[0]);
        uint32_t class_ = differs && difference == CLASS && t == at;
        gerfmuod_mpi_task(graph, class_, leave, NULL, 0, GERFMUOD_WRITES(data[t % 2]), GERFMUOD_READS(data[1 - t % 2]));
    }
    uint32_t refused = gerfmuod_mpi_run(graph, 1);
    if (refused) gerfmuod_mpi_failed(graph, &process, &task);
    gerfmuod_mpi_close(graph);
    return refused == GERFMUOD_REFUSED_DIFFERENT && process == processes - 1 && task <= at && at - task <= apart;
}

static bool are_found(void) {
    static const uint32_t places[][2] = {{1, 0}, {9, 0}, {9, 8}, {100, 63}, {40000, 20001}, {33000, 32901}};
    bool is_right = true;
    for (enum difference d = 0; d < DIFFERENCES && processes > 1; d++)
        for (size_t k = 0; k < sizeof places / sizeof *places; k++) is_right &= is_found(d, places[k][0], places[k][1]);
    return is_right;
}

/* A body fails in the last process while process 0 sends it several large values, which nothing there reads any more. */
static bool is_stopped_between(uint64_t seed) {
    enum { VALUES = 8 };
    static uint64_t large[VALUES][MOST_WORDS];
    gerfmuod_mpi *graph;
    uint64_t word = 0;
    state = seed * 2 + 1;
    if (gerfmuod_mpi_open(&graph, MPI_COMM_WORLD)) return false;
    uint32_t last = gerfmuod_mpi_data(graph, processes - 1, &word, sizeof word);
    arguments a = {.count = 1, .words = {1}, .modes = {GERFMUOD_UPDATE}, .pause = below(600), .fails = true};
    gerfmuod_mpi_task(graph, 0, body, &a, sizeof a, GERFMUOD_UPDATES(last));
    for (uint32_t k = 0; k < VALUES; k++) {
        uint32_t value = gerfmuod_mpi_data(graph, 0, large[k], sizeof large[k]);
        a = (arguments){.number = k, .count = 1, .words = {MOST_WORDS}, .modes = {GERFMUOD_UPDATE}, .pause = below(200)};
        gerfmuod_mpi_task(graph, 0, body, &a, sizeof a, GERFMUOD_UPDATES(value));
        gerfmuod_mpi_task(graph, 0, body, &a, sizeof a, GERFMUOD_UPDATES(last), GERFMUOD_READS(value));
    }
    uint32_t refused = gerfmuod_mpi_run(graph, 2);
    gerfmuod_mpi_close(graph);
    return refused == GERFMUOD_REFUSED_STOPPED;
}

int main(int argc, char **argv) {
    int provided;
    MPI_Init_thread(&argc, &argv, MPI_THREAD_FUNNELED, &provided);
    MPI_Comm_rank(MPI_COMM_WORLD, &me);
    MPI_Comm_size(MPI_COMM_WORLD, &processes);
    if (argc < 4 || provided < MPI_THREAD_FUNNELED) MPI_Abort(MPI_COMM_WORLD, 2);
    uint64_t first = strtoull(argv[1], NULL, 10), last = strtoull(argv[2], NULL, 10), mine[2] = {0, 0}, all[2];
    for (enum wrong wrong = 0; wrong < WRONGS; wrong++)
        if (!is_refused(wrong) && !mine[1]++) fprintf(stderr, "process %d: description %d is not refused\n", me, (int)wrong);
    if (!(is_empty(NONE) && is_empty(processes - 1)) && !mine[1]++) fprintf(stderr, "process %d: a graph without tasks is wrong\n", me);
    if (!are_found() && !mine[1]++) fprintf(stderr, "process %d: a difference of the descriptions is not found\n", me);
    for (uint64_t seed = first; seed <= last; seed++) {
        bool is_right = try_seed(seed, (uint32_t)atoi(argv[3]), argc > 4, &mine[0]) && (argc < 5 || is_stopped_between(seed));
        if (!is_right && !mine[1]++) fprintf(stderr, "process %d: seed %llu is wrong\n", me, (unsigned long long)seed);
    }
    MPI_Allreduce(mine, all, 2, MPI_UINT64_T, MPI_SUM, MPI_COMM_WORLD);
    if (me == 0)
        printf("%llu graphs over %d processes with %s threads each, %llu messages: %s\n", (unsigned long long)(last - first + 1),
               processes, argv[3], (unsigned long long)all[0], all[1] ? "WRONG" : "right");
    MPI_Finalize();
    return all[1] != 0;
}
