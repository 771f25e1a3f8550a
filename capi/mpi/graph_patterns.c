/* graph_patterns.c: Task Bench's patterns `stencil` and `spread` over processes: steps of short tasks, one for each column, in blocks of
 * neighbouring columns for each process; as one task graph, and with MPI alone.
 *
 *     mpicc -O2 -Icapi/include capi/mpi/graph_patterns.c capi/include/gerfmuod/mpi.c -Llib -lgerfmuod -pthread -o graph_patterns
 *     mpirun -n 4 ./graph_patterns WAY PATTERN WIDTH STEPS THREADS RUNS ITERATIONS..
 *
 * A WAY is
 *     graph   one graph over all processes; the time begins before its description
 *     run     the same, but the time begins after the description
 *     plain   MPI_Irecv, MPI_Isend and MPI_Waitall before each step, and one thread in each process
 *
 * A value is a message of its own to each process that reads it, in all ways: none packs several. All keep the values of two rows. So a
 * task of the graph also waits for those that read what it overwrites, in `spread` for some by a message without a value. The relation of
 * columns and the kernel are those of bench/peers/patterns.hpp. A time ends in the last process. For each number of ITERATIONS of a task,
 * one line has the nanoseconds of an iteration in a single long task, the least of several, and the time of each of RUNS runs; the first
 * run, in which MPI connects the processes, is not counted. Each run's checksum is compared with that of one process that computes all
 * tasks in sequence.
 * The exit status is not 0 if one differs. */
#define _POSIX_C_SOURCE 200809L
#include <gerfmuod/mpi.h>
#include <stdbool.h>
#include <stdio.h>
#include <stdlib.h>
#include <string.h>

/* The inputs of a task, at most; the rows whose values are kept; the iterations of the long task. */
enum { MOST_INPUTS = 5, ROWS = 2, KERNEL = 2000000 };
static const uint64_t limit = (uint64_t)1 << 31;

typedef struct {
    uint32_t count, columns[MOST_INPUTS];
} relation;

static int me, processes;
static bool is_spread;
static uint32_t width, steps, threads;
static uint64_t iterations, messages;
/* The process of each column. */
static int *owners;
/* The values of the last rows. A process has those of its columns and, with MPI alone, those that it received. */
static uint64_t *values;
/* For each row after the first, until the relation comes again: the inputs of each column, and whether a column goes to a process. */
static uint32_t period;
static relation *inputs;
static bool *goes;

static void need(uint32_t refused, const char *what) {
    if (!refused) return;
    fprintf(stderr, "process %d: %s: refused, %u\n", me, what, (unsigned)refused);
    MPI_Abort(MPI_COMM_WORLD, 3);
}

static void *allocate(size_t count, size_t size) {
    void *block = calloc(count, size);
    if (!block) MPI_Abort(MPI_COMM_WORLD, 9);
    return block;
}

/* ---- what is computed */

/* What a column makes of the sum of its inputs: `count` times x(2x + 1) + 1013904223 mod 2^31, computed over 2x + 1. */
static uint64_t made(uint64_t count, uint32_t column, uint64_t total) {
    uint32_t y = (uint32_t)(2 * (total + column + 1) + 1);
    for (uint64_t k = 0; k < count; k++) y = y * (y - 1) + 2027808447u;
    return y / 2;
}

/* The columns of the row before that feed a column of a row, which is 1 or more. */
static relation inputs_of(uint32_t step, uint32_t to) {
    relation r = {0, {0}};
    if (!is_spread) {
        for (uint32_t from = to ? to - 1 : 0; from <= to + 1 && from < width; from++) r.columns[r.count++] = from;
        return r;
    }
    r.columns[r.count++] = to;
    for (uint32_t fifths = 1; fifths < MOST_INPUTS; fifths++) {
        uint32_t from = (to + fifths * width / 5 + step - 1) % width, k = 0;
        while (k < r.count && r.columns[k] != from) k++;
        if (k == r.count) r.columns[r.count++] = from;
    }
    return r;
}

/* Computes the tables, in each run anew. */
static void draw(void) {
    for (uint32_t row = 0; row < period; row++)
        for (uint32_t to = 0; to < width; to++) {
            relation *r = &inputs[row * width + to];
            *r = inputs_of(row + 1, to);
            for (uint32_t k = 0; k < r->count; k++) goes[(row * width + r->columns[k]) * (uint32_t)processes + (uint32_t)owners[to]] = true;
        }
}

static const relation *inputs_at(uint32_t step, uint32_t to) {
    static const relation none = {0, {0}};
    return step ? &inputs[(step - 1) % period * width + to] : &none;
}

static uint64_t *value(uint32_t step, uint32_t column) { return &values[step % ROWS * width + column]; }

/* Computes a task from the values of the row before. */
static void compute(uint32_t step, uint32_t to) {
    const relation *r = inputs_at(step, to);
    uint64_t total = 0;
    for (uint32_t k = 0; k < r->count; k++) total += *value(step - 1, r->columns[k]);
    *value(step, to) = made(iterations, to, total);
}

/* This process's part of the checksum, which is the sum of the last row. */
static uint64_t own_sum(void) {
    uint64_t sum = 0;
    for (uint32_t c = 0; c < width; c++)
        if (owners[c] == me) sum += *value(steps - 1, c);
    return sum;
}

/* The checksum, by one process alone. */
static uint64_t in_sequence(void) {
    uint64_t sum = 0;
    for (uint32_t step = 0; step < steps; step++)
        for (uint32_t to = 0; to < width; to++) compute(step, to);
    for (uint32_t c = 0; c < width; c++) sum += *value(steps - 1, c);
    return sum % limit;
}

/* ---- the ways; each returns seconds */
static double begin(void) {
    MPI_Barrier(MPI_COMM_WORLD);
    return MPI_Wtime();
}

/* Exchanges the values of the row before a step; returns the number of requests. */
static int exchange(uint32_t step, MPI_Request *requests) {
    int count = 0;
    const bool *to = &goes[(step - 1) % period * width * (uint32_t)processes];
    for (uint32_t c = 0; c < width; c++, to += processes)
        if (owners[c] != me && to[me])
            MPI_Irecv(value(step - 1, c), 1, MPI_UINT64_T, owners[c], (int)c, MPI_COMM_WORLD, &requests[count++]);
        else if (owners[c] == me)
            for (int p = 0; p < processes; p++)
                if (p != me && to[p]) {
                    MPI_Isend(value(step - 1, c), 1, MPI_UINT64_T, p, (int)c, MPI_COMM_WORLD, &requests[count++]);
                    messages++;
                }
    return count;
}

static double plain(void) {
    MPI_Request *requests = allocate((size_t)width * (size_t)processes, sizeof *requests);
    MPI_Status *statuses = allocate((size_t)width * (size_t)processes, sizeof *statuses); /* GCC warns of MPICH's MPI_STATUSES_IGNORE */
    double from = begin();
    draw();
    for (uint32_t step = 0; step < steps; step++) {
        if (step) MPI_Waitall(exchange(step, requests), requests, statuses);
        for (uint32_t to = 0; to < width; to++)
            if (owners[to] == me) compute(step, to);
    }
    double seconds = MPI_Wtime() - from;
    free(requests), free(statuses);
    return seconds;
}

/* The arguments of a body. */
typedef struct {
    uint32_t column, count;
} job;

static int body(const void *arguments, void *const *v) {
    const job *j = arguments;
    uint64_t total = 0;
    for (uint32_t k = 1; k <= j->count; k++) total += *(const uint64_t *)v[k];
    *(uint64_t *)v[0] = made(iterations, j->column, total);
    return 0;
}

/* Describes a datum for each value that is kept, and a task for each column of each step. */
static void describe(gerfmuod_mpi *graph) {
    uint32_t *data = allocate((size_t)ROWS * width, sizeof *data);
    for (uint32_t k = 0; k < ROWS * width; k++) data[k] = gerfmuod_mpi_data(graph, owners[k % width], &values[k], sizeof values[k]);
    for (uint32_t step = 0; step < steps; step++)
        for (uint32_t to = 0; to < width; to++) {
            const relation *r = inputs_at(step, to);
            gerfmuod_access accesses[1 + MOST_INPUTS] = {GERFMUOD_WRITES(data[step % ROWS * width + to])};
            for (uint32_t k = 0; k < r->count; k++)
                accesses[1 + k] = (gerfmuod_access)GERFMUOD_READS(data[(step - 1) % ROWS * width + r->columns[k]]);
            gerfmuod_mpi_task_on(graph, 0, body, &(job){to, r->count}, sizeof(job), accesses, 1 + r->count);
        }
    free(data);
}

static double graph_from(bool is_described_before) {
    gerfmuod_mpi *graph;
    double from = begin();
    draw();
    need(gerfmuod_mpi_open(&graph, MPI_COMM_WORLD), "open");
    describe(graph);
    if (is_described_before) from = begin();
    need(gerfmuod_mpi_run(graph, threads), "run");
    double seconds = MPI_Wtime() - from;
    messages = gerfmuod_mpi_messages(graph);
    gerfmuod_mpi_close(graph);
    return seconds;
}

static double whole_graph(void) { return graph_from(false); }
static double run_of_graph(void) { return graph_from(true); }

static const struct {
    const char *name;
    double (*seconds)(void);
} ways[] = {{"graph", whole_graph}, {"run", run_of_graph}, {"plain", plain}};
enum { WAYS = sizeof ways / sizeof *ways };

/* ---- the runs */

/* Nanoseconds of an iteration in a long task. */
static double iteration(void) {
    static volatile uint64_t result;
    double from = MPI_Wtime();
    result = made(KERNEL, 0, result);
    return 1e9 * (MPI_Wtime() - from) / KERNEL;
}

/* Runs once, with no value of a run before; returns whether the checksum is right, in process 0. */
static bool run(double (*way)(void), uint64_t expected, double *seconds, uint64_t *sent) {
    memset(values, 255, (size_t)ROWS * width * sizeof *values);
    messages = 0;
    double own = way();
    uint64_t own_part = own_sum(), sum = 0;
    MPI_Reduce(&own, seconds, 1, MPI_DOUBLE, MPI_MAX, 0, MPI_COMM_WORLD);
    MPI_Reduce(&own_part, &sum, 1, MPI_UINT64_T, MPI_SUM, 0, MPI_COMM_WORLD);
    MPI_Reduce(&messages, sent, 1, MPI_UINT64_T, MPI_SUM, 0, MPI_COMM_WORLD);
    return me || sum % limit == expected;
}

/* Prints the line of a size of tasks. Returns whether all runs were right. */
static bool measure(int way, const char *pattern, int runs) {
    double *seconds = allocate((size_t)runs + 1, sizeof *seconds), least = 1e300;
    int is_right = true;
    uint64_t sent = 0;
    draw();
    uint64_t expected = me ? 0 : in_sequence();
    for (int r = 0; r <= runs; r++) {
        double now = me ? least : iteration();
        if (now < least) least = now;
        is_right &= run(ways[way].seconds, expected, &seconds[r], &sent);
    }
    if (me == 0) {
        printf("%s as %s, %u columns, %u steps of %llu iterations, %d processes: %.4f ns an iteration, microseconds", pattern,
               ways[way].name, (unsigned)width, (unsigned)steps, (unsigned long long)iterations, processes, least);
        for (int r = 1; r <= runs; r++) printf(" %.1f", 1e6 * seconds[r]);
        printf(", %llu messages, checksum %llu: %s\n", (unsigned long long)sent, (unsigned long long)expected,
               is_right ? "right" : "WRONG");
    }
    MPI_Bcast(&is_right, 1, MPI_INT, 0, MPI_COMM_WORLD);
    free(seconds);
    return is_right;
}

static void allocate_all(void) {
    period = is_spread ? width : 1;
    owners = allocate(width, sizeof *owners);
    values = allocate((size_t)ROWS * width, sizeof *values);
    inputs = allocate((size_t)period * width, sizeof *inputs);
    goes = allocate((size_t)period * width * (size_t)processes, sizeof *goes);
    for (uint32_t p = 0, all = (uint32_t)processes; p < all; p++)
        for (uint32_t c = width * p / all; c < width * (p + 1) / all; c++) owners[c] = (int)p;
}

int main(int argc, char **argv) {
    int provided, way = 0;
    bool is_right = true;
    MPI_Init_thread(&argc, &argv, MPI_THREAD_FUNNELED, &provided);
    MPI_Comm_rank(MPI_COMM_WORLD, &me);
    MPI_Comm_size(MPI_COMM_WORLD, &processes);
    while (argc > 1 && way < WAYS && strcmp(argv[1], ways[way].name)) way++;
    if (argc < 8 || way == WAYS || provided < MPI_THREAD_FUNNELED) MPI_Abort(MPI_COMM_WORLD, 2);
    is_spread = !strcmp(argv[2], "spread");
    width = (uint32_t)atoi(argv[3]), steps = (uint32_t)atoi(argv[4]), threads = (uint32_t)atoi(argv[5]);
    if (!width || !steps || (!is_spread && strcmp(argv[2], "stencil"))) MPI_Abort(MPI_COMM_WORLD, 2);
    allocate_all();
    for (int k = 7; k < argc; k++) {
        iterations = strtoull(argv[k], NULL, 10);
        is_right &= measure(way, argv[2], atoi(argv[6]));
    }
    free(owners), free(values), free(inputs), free(goes);
    MPI_Finalize();
    return is_right ? 0 : 1;
}
