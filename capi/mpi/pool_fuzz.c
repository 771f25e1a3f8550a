/* pool_fuzz.c: random tasks that make others over MPI, compared with the same tasks in one loop. A task has a random seed, makes up to
 * four others in random processes, each with some bytes that depend on its seed, and counts itself.
 *
 *     mpicc -O2 -Icapi/include capi/mpi/pool_fuzz.c capi/include/gerfmuod/mpi{_pool,}.c -Llib -lgerfmuod -pthread -o pool_fuzz
 *     mpirun -n 4 ./pool_fuzz FIRST LAST THREADS [FAILS]
 *
 * The seeds FIRST to LAST are runs of one pool, after each refusal. With FAILS, in every second run one body fails, and every process has
 * to return STOPPED. Prints one line, without FAILS with the number of tasks; the exit status is not 0 if a run was wrong. */
#define _POSIX_C_SOURCE 200809L
#include "slow_sends.h"
#include <gerfmuod/mpi_pool.h>

#include <pthread.h>
#include <stdbool.h>
#include <stdio.h>
#include <stdlib.h>
#include <string.h>
#include <time.h>

enum { DEEPEST = 5, MOST_CHILDREN = 4, MOST_WORDS = 4000, FEW_WORDS = 4, KINDS = 2 };

/* The arguments of a task, and behind it `words` words. */
typedef struct {
    uint64_t seed;
    uint32_t depth, words;
    bool fails; /* or the first below it that has no child */
} node;

/* What tasks leave: how many they are, and the sum of their seeds. */
typedef struct {
    uint64_t count, sum;
} tally;

static int me, processes;
static tally own;
static bool is_damaged;
static pthread_mutex_t lock = PTHREAD_MUTEX_INITIALIZER;

static uint64_t mixed(uint64_t x, uint64_t y) {
    x = (x ^ y) * 0xff51afd7ed558ccdu;
    return x ^ x >> 29;
}

/* A number below n for a node, another one for each use. */
static uint32_t drawn(const node *n, uint32_t use, uint32_t below) { return (uint32_t)(mixed(mixed(n->seed, use), 77) >> 33) % below; }

static uint32_t children_of(const node *n) { return n->depth < DEEPEST ? drawn(n, 1, MOST_CHILDREN + 1) : 0; }

static node child_of(const node *n, uint32_t k) {
    node child = {.seed = mixed(n->seed, 1000 + k), .depth = n->depth + 1, .fails = n->fails && k == 0};
    child.words = drawn(&child, 2, 6) ? drawn(&child, 3, FEW_WORDS) : MOST_WORDS; /* MPI may send many only once they are received */
    return child;
}

/* The tasks below a node, and it, in one thread. */
static tally counted(const node *n) {
    tally all = {1, n->seed};
    for (uint32_t k = 0; k < children_of(n); k++) {
        node child = child_of(n, k);
        tally below = counted(&child);
        all.count += below.count, all.sum += below.sum;
    }
    return all;
}

static void note(const node *n, bool is_well) {
    pthread_mutex_lock(&lock);
    own.count++, own.sum += n->seed;
    is_damaged |= !is_well;
    pthread_mutex_unlock(&lock);
}

/* Makes the task of a node in a process. Returns the refusal. */
static uint32_t make(gerfmuod_mpi_pool *pool, int to, const node *n) {
    unsigned char *bytes = malloc(sizeof *n + n->words * sizeof n->seed);
    if (!bytes) return GERFMUOD_REFUSED_NO_MEMORY;
    memcpy(bytes, n, sizeof *n);
    for (uint32_t w = 0; w < n->words; w++) memcpy(bytes + sizeof *n + w * sizeof n->seed, &(uint64_t){mixed(n->seed, w)}, sizeof n->seed);
    uint32_t refused = gerfmuod_mpi_pool_spawn(pool, to, drawn(n, 4, KINDS), bytes, sizeof *n + n->words * sizeof n->seed);
    return free(bytes), refused;
}

static int body(gerfmuod_mpi_pool *pool, void *context, const void *arguments, size_t size) {
    const node *n = arguments;
    const uint64_t *words = (const uint64_t *)(n + 1);
    bool is_well = size == sizeof *n + n->words * sizeof n->seed && *(const uint32_t *)context == drawn(n, 4, KINDS);
    for (uint32_t w = 0; is_well && w < n->words; w++) is_well = words[w] == mixed(n->seed, w);
    if (!drawn(n, 5, 8)) nanosleep(&(struct timespec){.tv_nsec = drawn(n, 6, 200) * 1000L}, NULL);
    note(n, is_well);
    for (uint32_t k = 0; k < children_of(n); k++) {
        node child = child_of(n, k);
        uint32_t refused = make(pool, (int)drawn(&child, 7, (uint32_t)processes), &child);
        if (refused && refused != GERFMUOD_REFUSED_STOPPED) note(&child, false);
    }
    return n->fails && !children_of(n);
}

/* A task of the other kind, which is never made. */
static int leave(gerfmuod_mpi_pool *pool, void *context, const void *arguments, size_t size) {
    (void)pool, (void)context, (void)arguments, (void)size;
    return 0;
}

/* Returns whether a run was right here: all tasks of all processes are those of the loop. */
static bool try_seed(gerfmuod_mpi_pool *pool, uint64_t seed, uint32_t threads, bool fails) {
    tally expected = {0, 0};
    uint64_t all[2];
    own = (tally){0, 0};
    for (int p = 0; p < processes; p++) { /* each process begins with a task, which it makes where it likes */
        node root = {.seed = mixed(seed, (uint64_t)p), .fails = fails && p == processes - 1};
        tally below = counted(&root);
        expected.count += below.count, expected.sum += below.sum;
        if (p == me && make(pool, (int)drawn(&root, 8, (uint32_t)processes), &root)) return false;
    }
    uint32_t refused = gerfmuod_mpi_pool_run(pool, threads);
    MPI_Allreduce(&own, all, 2, MPI_UINT64_T, MPI_SUM, MPI_COMM_WORLD);
    if (!fails) return refused == GERFMUOD_OK && !is_damaged && all[0] == expected.count && all[1] == expected.sum;
    int process = -1;
    uint32_t kind = KINDS;
    if (refused == GERFMUOD_REFUSED_STOPPED) gerfmuod_mpi_pool_failed(pool, &process, &kind);
    return !is_damaged && process >= 0 && process < processes && kind < KINDS && all[0] <= expected.count;
}

/* Returns whether what cannot be is refused, in every process, also if only the last one asks for it; and a run without tasks ends. */
static bool refuses(void) {
    gerfmuod_mpi_pool *pool;
    uint32_t number = 0;
    bool is_last = me == processes - 1;
    if (gerfmuod_mpi_pool_open(&pool, MPI_COMM_WORLD)) return false;
    bool is_well = gerfmuod_mpi_pool_kind(pool, body, &number) == 0 && gerfmuod_mpi_pool_run(pool, 2) == GERFMUOD_OK;
    is_well &= gerfmuod_mpi_pool_spawn(pool, processes, 0, NULL, 0) == GERFMUOD_REFUSED_NO_NODE;
    is_well &= gerfmuod_mpi_pool_spawn(pool, -1, 0, NULL, 0) == GERFMUOD_REFUSED_NO_NODE;
    is_well &= gerfmuod_mpi_pool_spawn(pool, 0, 1, NULL, 0) == GERFMUOD_REFUSED_BAD_SPEC;
    is_well &= gerfmuod_mpi_pool_spawn(pool, 0, 0, NULL, (size_t)1 << 31) == GERFMUOD_REFUSED_BAD_SPEC;
    is_well &= gerfmuod_mpi_pool_run(pool, is_last ? 0 : 1) == GERFMUOD_REFUSED_NO_THREAD;
    if (is_last) is_well &= gerfmuod_mpi_pool_kind(pool, leave, NULL) == 1;
    is_well &= gerfmuod_mpi_pool_run(pool, 1) == (processes > 1 ? GERFMUOD_REFUSED_DIFFERENT : GERFMUOD_OK);
    is_well &= gerfmuod_mpi_pool_ran(pool) == 0 && gerfmuod_mpi_pool_rank(pool) == me && gerfmuod_mpi_pool_size(pool) == processes;
    gerfmuod_mpi_pool_close(pool);
    return is_well;
}

int main(int argc, char **argv) {
    gerfmuod_mpi_pool *pool;
    uint32_t numbers[KINDS] = {0, 1};
    int provided;
    MPI_Init_thread(&argc, &argv, MPI_THREAD_FUNNELED, &provided);
    MPI_Comm_rank(MPI_COMM_WORLD, &me);
    MPI_Comm_size(MPI_COMM_WORLD, &processes);
    if (argc < 4 || provided < MPI_THREAD_FUNNELED) MPI_Abort(MPI_COMM_WORLD, 2);
    uint64_t first = strtoull(argv[1], NULL, 10), last = strtoull(argv[2], NULL, 10), mine[3] = {0, 0, !refuses()}, all[3];
    if (gerfmuod_mpi_pool_open(&pool, MPI_COMM_WORLD)) MPI_Abort(MPI_COMM_WORLD, 2);
    for (uint32_t k = 0; k < KINDS; k++) gerfmuod_mpi_pool_kind(pool, body, &numbers[k]);
    for (uint64_t seed = first; seed <= last; seed++)
        if (!try_seed(pool, seed, (uint32_t)atoi(argv[3]), argc > 4 && seed % 2) && !mine[2]++)
            fprintf(stderr, "process %d: seed %llu is wrong\n", me, (unsigned long long)seed);
    mine[0] = gerfmuod_mpi_pool_ran(pool), mine[1] = gerfmuod_mpi_pool_sent(pool);
    gerfmuod_mpi_pool_close(pool);
    MPI_Allreduce(mine, all, 3, MPI_UINT64_T, MPI_SUM, MPI_COMM_WORLD);
    if (me == 0) {
        printf("%llu runs over %d processes with %s threads each", (unsigned long long)(last - first + 1), processes, argv[3]);
        if (argc < 5) printf(", %llu tasks, %llu of them sent", (unsigned long long)all[0], (unsigned long long)all[1]);
        printf(": %s\n", all[2] ? "WRONG" : "right");
    }
    MPI_Finalize();
    return all[2] != 0;
}
