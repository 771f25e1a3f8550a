/* graph_rows.c: the times of a task graph over MPI as rows of a table: each body, and each message from its send to its arrival. It is
 * linked with a program that runs one graph, and stands between it and the library; the program stays as it is:
 *
 *     mpicc -O2 -Icapi/include capi/mpi/graph_cholesky.c capi/mpi/graph_rows.c capi/include/gerfmuod/mpi.c \
 *         -Wl,--wrap=gerfmuod_mpi_data,--wrap=gerfmuod_mpi_task_on,--wrap=gerfmuod_mpi_run -Llib -lgerfmuod -pthread -lm -o graph_cholesky
 *     GERFMUOD_ROWS=FILE mpirun -n 4 ./graph_cholesky 1536 256 1
 *
 * Process 0 writes the file: the names of the columns, a row of the run, and rows of bodies and messages by task. The clock is
 * CLOCK_MONOTONIC, so all processes are on one machine. The program is ended if a row cannot be: a task has no body, a message is sent
 * before its task ended or comes before it was sent, or they are not those that the library counts. */
#define _POSIX_C_SOURCE 200809L
#include <gerfmuod/mpi.h>
#include <inttypes.h>
#include <stdbool.h>
#include <stdio.h>
#include <stdlib.h>
#include <string.h>
#include <time.h>

/* What is known of a task: when its body began and ended, its process, and behind it, for each process, when its value was sent there and
 * came. In each process a part is known, and all else is 0. */
enum { BEGAN, ENDED, PROCESS, MESSAGES };

/* The arguments of a task whose body is timed. */
typedef struct {
    gerfmuod_mpi_body body;
    uint32_t task;
    _Alignas(16) unsigned char arguments[];
} timed;

/* The table has a row for each datum too: its initial value has a number, and no body. */
static uint64_t *table;
static uint32_t rows, *tasks_before, tasks, width;
static int me, processes;
static bool is_running;
static const MPI_Request *receiving;
static int tag_received;

uint32_t __real_gerfmuod_mpi_data(gerfmuod_mpi *graph, int owner, void *at, size_t size);
void __real_gerfmuod_mpi_task_on(gerfmuod_mpi *graph, uint32_t class_, gerfmuod_mpi_body body, const void *arguments, size_t size,
                                 const gerfmuod_access *accesses, size_t count);
uint32_t __real_gerfmuod_mpi_run(gerfmuod_mpi *graph, uint32_t threads);

static uint64_t now(void) {
    struct timespec time;
    clock_gettime(CLOCK_MONOTONIC, &time);
    return (uint64_t)time.tv_sec * 1000000000u + (uint64_t)time.tv_nsec;
}

static void *need(void *block) {
    if (!block) MPI_Abort(MPI_COMM_WORLD, 9);
    return block;
}

static void add_row(void) {
    if (!rows) {
        MPI_Comm_rank(MPI_COMM_WORLD, &me);
        MPI_Comm_size(MPI_COMM_WORLD, &processes);
        width = MESSAGES + 2 * (uint32_t)processes;
    }
    table = need(realloc(table, (rows + 1) * width * sizeof *table));
    tasks_before = need(realloc(tasks_before, (rows + 1) * sizeof *tasks_before));
    memset(table + rows * width, 0, width * sizeof *table);
    tasks_before[rows++] = tasks;
}

static int run_timed(const void *arguments, void *const *values) {
    const timed *t = arguments;
    uint64_t *row = table + t->task * width;
    row[PROCESS] = (uint64_t)me, row[BEGAN] = now();
    int failed = t->body(t->arguments, values);
    row[ENDED] = now();
    return failed;
}

uint32_t __wrap_gerfmuod_mpi_data(gerfmuod_mpi *graph, int owner, void *at, size_t size);
uint32_t __wrap_gerfmuod_mpi_data(gerfmuod_mpi *graph, int owner, void *at, size_t size) {
    add_row();
    return __real_gerfmuod_mpi_data(graph, owner, at, size);
}

void __wrap_gerfmuod_mpi_task_on(gerfmuod_mpi *graph, uint32_t class_, gerfmuod_mpi_body body, const void *arguments, size_t size,
                                 const gerfmuod_access *accesses, size_t count);
void __wrap_gerfmuod_mpi_task_on(gerfmuod_mpi *graph, uint32_t class_, gerfmuod_mpi_body body, const void *arguments, size_t size,
                                 const gerfmuod_access *accesses, size_t count) {
    timed *t = need(malloc(sizeof *t + size));
    *t = (timed){.body = body, .task = rows};
    if (size) memcpy(t->arguments, arguments, size);
    add_row();
    tasks++;
    __real_gerfmuod_mpi_task_on(graph, class_, run_timed, t, sizeof *t + size, accesses, count);
    free(t);
}

/* The tag of a message is the number of its task, from 1; tag 0 has no value. */
static void note(int tag, int process, uint32_t what) {
    if (is_running && tag > 0) table[((uint32_t)tag - 1) * width + MESSAGES + 2 * (uint32_t)process + what] = now();
}

int MPI_Isend(const void *at, int count, MPI_Datatype type, int to, int tag, MPI_Comm communicator, MPI_Request *request) {
    note(tag, to, 0);
    return PMPI_Isend(at, count, type, to, tag, communicator, request);
}

int MPI_Irecv(void *at, int count, MPI_Datatype type, int from, int tag, MPI_Comm communicator, MPI_Request *request) {
    receiving = request, tag_received = tag;
    return PMPI_Irecv(at, count, type, from, tag, communicator, request);
}

int MPI_Test(MPI_Request *request, int *is_complete, MPI_Status *status) {
    int result = PMPI_Test(request, is_complete, status);
    if (*is_complete && request == receiving) note(tag_received, me, 1), receiving = NULL;
    return result;
}

/* What is written: the file, and the times of the run. */
static struct {
    FILE *file;
    uint64_t begin, end;
} run;

/* Writes a row, if its times are in the run and not before `least`. */
static void write_row(uint64_t process, uint32_t task, const char *to, const uint64_t *times, uint64_t least) {
    if (times[0] < run.begin || times[0] < least || times[1] < times[0] || times[1] > run.end) {
        fprintf(stderr, "task %" PRIu32 ", %s: %" PRIu64 " to %" PRIu64 " cannot be\n", task, to, times[0], times[1]);
        MPI_Abort(MPI_COMM_WORLD, 8);
    }
    double begin = (double)(times[0] - run.begin) / 1000, length = (double)(times[1] - times[0]) / 1000;
    fprintf(run.file, "%" PRIu64 ",%" PRIu32 ",%s,%.1f,%.1f\n", process, task, to, begin, length);
}

/* Writes the rows of a task; returns the number of its messages. */
static uint64_t write_task(const uint64_t *row, uint32_t task, bool has_body) {
    uint64_t messages = 0;
    if (has_body) write_row(row[PROCESS], task, "body", row, 0);
    for (int p = 0; p < processes; p++) {
        const uint64_t *times = row + MESSAGES + 2 * p;
        char to[16];
        snprintf(to, sizeof to, "%d", p);
        if (times[0] || times[1]) write_row(row[PROCESS], task, to, times, row[ENDED]), messages++;
    }
    return messages;
}

static void write_rows(const char *path, uint64_t sent) {
    run.file = need(fopen(path, "w"));
    fprintf(run.file, "process,task,to,begin us,length us\n");
    write_row((uint64_t)processes, tasks, "run", &run.begin, 0);
    for (uint32_t k = 0; k < rows; k++)
        sent -= write_task(table + k * width, tasks_before[k], (k + 1 < rows ? tasks_before[k + 1] : tasks) > tasks_before[k]);
    if (sent) fprintf(stderr, "%" PRId64 " messages have no row\n", (int64_t)sent);
    if (fclose(run.file) || sent) MPI_Abort(MPI_COMM_WORLD, 8);
}

uint32_t __wrap_gerfmuod_mpi_run(gerfmuod_mpi *graph, uint32_t threads);
uint32_t __wrap_gerfmuod_mpi_run(gerfmuod_mpi *graph, uint32_t threads) {
    uint64_t mine[2] = {~now()}, all[2], messages, sent = 0;
    is_running = true;
    uint32_t refused = __real_gerfmuod_mpi_run(graph, threads);
    is_running = false;
    mine[1] = now(), messages = gerfmuod_mpi_messages(graph);
    MPI_Reduce(&messages, &sent, 1, MPI_UINT64_T, MPI_SUM, 0, MPI_COMM_WORLD);
    MPI_Reduce(mine, all, 2, MPI_UINT64_T, MPI_MAX, 0, MPI_COMM_WORLD);
    MPI_Reduce(me ? table : MPI_IN_PLACE, table, (int)(rows * width), MPI_UINT64_T, MPI_MAX, 0, MPI_COMM_WORLD);
    run.begin = ~all[0], run.end = all[1];
    if (me == 0 && !refused && getenv("GERFMUOD_ROWS")) write_rows(getenv("GERFMUOD_ROWS"), sent);
    return refused;
}
