/* graph_costs.c: what a task graph over two processes costs: a message of 8 bytes from a task to a task of the other process, next to the
 * same by MPI_Send and MPI_Recv, and the description of a task of the other process.
 *
 *     mpicc -O2 -Icapi/include capi/mpi/graph_costs.c capi/include/gerfmuod/mpi.c -Llib -lgerfmuod -pthread -o graph_costs
 *     mpirun -n 2 ./graph_costs TASKS
 *
 * Prints one line: medians of eleven runs, in turns. The exit status is not 0 if a value is wrong, or if such a task takes memory. */
#define _GNU_SOURCE
#include <gerfmuod/mpi.h>
#include <malloc.h>
#include <stdio.h>
#include <stdlib.h>

enum { RUNS = 11, DATA = 64 };

static int me;

static void need(int holds, const char *what) {
    if (holds) return;
    fprintf(stderr, "process %d: %s\n", me, what);
    MPI_Abort(MPI_COMM_WORLD, 3);
}

static int by_number(const void *a, const void *b) {
    double x = *(const double *)a, y = *(const double *)b;
    return x < y ? -1 : x > y;
}

static double median(double *numbers) {
    qsort(numbers, RUNS, sizeof *numbers, by_number);
    return numbers[RUNS / 2];
}

/* Seconds a message: each process waits for the number of the other, and sends one more. */
static double by_mpi_alone(int tasks) {
    int64_t number = 0;
    MPI_Barrier(MPI_COMM_WORLD);
    double from = MPI_Wtime();
    for (int k = 0; k < tasks; k++)
        if (k % 2 == me) number++, MPI_Send(&number, 1, MPI_INT64_T, 1 - me, 0, MPI_COMM_WORLD);
        else MPI_Recv(&number, 1, MPI_INT64_T, 1 - me, 0, MPI_COMM_WORLD, MPI_STATUS_IGNORE);
    double seconds = MPI_Wtime() - from;
    need(number == tasks, "with MPI alone: a wrong number");
    return seconds / tasks;
}

/* values[0] is this process's number, values[1] that of the other. */
static int count(const void *unused, void *const *values) {
    (void)unused;
    *(int64_t *)values[0] = *(const int64_t *)values[1] + 1;
    return 0;
}

/* The same as a graph: a task for each message. */
static double by_graph(int tasks) {
    gerfmuod_mpi *graph;
    int64_t number = 0;
    uint32_t t[2];
    need(gerfmuod_mpi_open(&graph, MPI_COMM_WORLD) == 0, "open");
    for (int p = 0; p < 2; p++) t[p] = gerfmuod_mpi_data(graph, p, &number, sizeof number);
    for (int k = 0; k < tasks; k++)
        gerfmuod_mpi_task(graph, 0, count, NULL, 0, GERFMUOD_UPDATES(t[k % 2]), GERFMUOD_READS(t[1 - k % 2]));
    MPI_Barrier(MPI_COMM_WORLD);
    double from = MPI_Wtime();
    need(gerfmuod_mpi_run(graph, 1) == 0, "run");
    double seconds = MPI_Wtime() - from;
    gerfmuod_mpi_close(graph);
    need(number == tasks - (tasks % 2 == me), "as a graph: a wrong number");
    return seconds / tasks;
}

static int raise(const void *unused, void *const *values) { return (void)unused, ++*(int64_t *)values[0], 0; }

/* Seconds that process 0 takes to describe a task of process 1; *bytes is the memory that it takes. */
static double described(int tasks, double *bytes) {
    gerfmuod_mpi *graph;
    int64_t numbers[DATA] = {0}, sum = 0;
    uint32_t t[DATA];
    need(gerfmuod_mpi_open(&graph, MPI_COMM_WORLD) == 0, "open");
    for (int k = 0; k < DATA; k++) t[k] = gerfmuod_mpi_data(graph, 1, &numbers[k], sizeof numbers[k]);
    struct mallinfo2 before = mallinfo2();
    double from = MPI_Wtime();
    for (int k = 0; k < tasks; k++) gerfmuod_mpi_task(graph, 0, raise, NULL, 0, GERFMUOD_UPDATES(t[k % DATA]));
    double seconds = MPI_Wtime() - from;
    struct mallinfo2 after = mallinfo2();
    *bytes = ((double)after.uordblks + (double)after.hblkhd - (double)before.uordblks - (double)before.hblkhd) / tasks;
    need(gerfmuod_mpi_run(graph, 1) == 0, "run");
    gerfmuod_mpi_close(graph);
    for (int k = 0; k < DATA; k++) sum += numbers[k];
    need(sum == (me ? tasks : 0), "described: a wrong sum");
    return seconds / tasks;
}

int main(int argc, char **argv) {
    int level, processes, tasks = argc > 1 ? atoi(argv[1]) : 10000;
    double hand[RUNS], graph[RUNS], foreign[RUNS], bytes[RUNS];
    MPI_Init_thread(&argc, &argv, MPI_THREAD_FUNNELED, &level);
    MPI_Comm_rank(MPI_COMM_WORLD, &me);
    MPI_Comm_size(MPI_COMM_WORLD, &processes);
    need(level >= MPI_THREAD_FUNNELED && processes == 2 && tasks > 0, "two processes, and MPI_THREAD_FUNNELED");
    for (int r = 0; r < RUNS; r++) {
        hand[r] = by_mpi_alone(tasks);
        graph[r] = by_graph(tasks);
        foreign[r] = described(tasks, &bytes[r]);
    }
    if (me == 0)
        printf("a message of 8 bytes from task to task %.3f us, with MPI alone %.3f us; a task of the other process %.4f us\n",
               1e6 * median(graph), 1e6 * median(hand), 1e6 * median(foreign));
    need(me || median(bytes) < 1, "described: a task of the other process takes memory");
    MPI_Finalize();
    return 0;
}
