/* graph_crash.c: what becomes of a task graph over MPI, or of a pool of tasks, if a process ends in a body, while all others wait for it.
 *
 *     mpicc -O2 -Icapi/include capi/mpi/graph_crash.c capi/include/gerfmuod/mpi_pool.c capi/include/gerfmuod/mpi.c -Llib -lgerfmuod \
 *         -pthread -o graph_crash
 *     mpirun -n 4 ./graph_crash none|kill|exit|abort THREADS [return|pool]
 *
 * The last process ends by SIGKILL, exit(3) or abort(). With `return`, an error of MPI does not end the program; with `pool`, the others
 * wait for a task that the last process makes. With `none` no process ends: then, and only then, the program prints a line, and its exit
 * status is 0. */
#define _POSIX_C_SOURCE 200809L
#include <gerfmuod/mpi_pool.h>
#include <signal.h>
#include <stdio.h>
#include <stdlib.h>
#include <string.h>
#include <sys/resource.h>
#include <time.h>

/* Ends the process as the text says, when the others wait. */
static int end(const void *way, void *const *values) {
    nanosleep(&(struct timespec){.tv_nsec = 100000000}, NULL);
    if (!strcmp(way, "kill")) raise(SIGKILL);
    if (!strcmp(way, "exit")) exit(3);
    if (!strcmp(way, "abort")) abort();
    *(int *)values[0] = 1;
    return 0;
}

static int copy(const void *unused, void *const *values) { return (void)unused, *(int *)values[0] = *(const int *)values[1], 0; }

/* Runs the graph: the last process ends or makes the value, which all others read. Returns the refusal. */
static uint32_t run_graph(const char *way, uint32_t threads, int processes, int *value) {
    gerfmuod_mpi *graph;
    if (gerfmuod_mpi_open(&graph, MPI_COMM_WORLD)) MPI_Abort(MPI_COMM_WORLD, 2);
    uint32_t last = gerfmuod_mpi_data(graph, processes - 1, value, sizeof *value);
    gerfmuod_mpi_task(graph, 0, end, way, strlen(way) + 1, GERFMUOD_UPDATES(last));
    for (int p = 0; p < processes - 1; p++) {
        uint32_t own = gerfmuod_mpi_data(graph, p, value, sizeof *value);
        gerfmuod_mpi_task(graph, 0, copy, NULL, 0, GERFMUOD_UPDATES(own), GERFMUOD_READS(last));
    }
    uint32_t refused = gerfmuod_mpi_run(graph, threads);
    gerfmuod_mpi_close(graph);
    return refused;
}

static int set(gerfmuod_mpi_pool *pool, void *value, const void *unused, size_t size) {
    return (void)pool, (void)unused, (void)size, *(int *)value = 1, 0;
}

/* Ends the process as the text says, or makes a task in each process. */
static int end_or_make(gerfmuod_mpi_pool *pool, void *unused, const void *way, size_t size) {
    (void)unused, (void)size;
    int value;
    end(way, (void *[]){&value});
    for (int p = 0; p < gerfmuod_mpi_pool_size(pool); p++) {
        if (gerfmuod_mpi_pool_spawn(pool, p, 1, NULL, 0)) return 1;
    }
    return 0;
}

/* Runs the pool: the last process ends or makes a task for each process, which writes the value there. Returns the refusal. */
static uint32_t run_pool(const char *way, uint32_t threads, int processes, int *value) {
    gerfmuod_mpi_pool *pool;
    if (gerfmuod_mpi_pool_open(&pool, MPI_COMM_WORLD)) MPI_Abort(MPI_COMM_WORLD, 2);
    uint32_t last = gerfmuod_mpi_pool_kind(pool, end_or_make, NULL);
    gerfmuod_mpi_pool_kind(pool, set, value);
    if (gerfmuod_mpi_pool_rank(pool) == 0 && gerfmuod_mpi_pool_spawn(pool, processes - 1, last, way, strlen(way) + 1)) {
        MPI_Abort(MPI_COMM_WORLD, 2);
    }
    uint32_t refused = gerfmuod_mpi_pool_run(pool, threads);
    gerfmuod_mpi_pool_close(pool);
    return refused;
}

int main(int argc, char **argv) {
    int provided, me, processes, value = 0, sum = 0;
    setrlimit(RLIMIT_CORE, &(struct rlimit){0, 0});
    MPI_Init_thread(&argc, &argv, MPI_THREAD_FUNNELED, &provided);
    MPI_Comm_rank(MPI_COMM_WORLD, &me);
    MPI_Comm_size(MPI_COMM_WORLD, &processes);
    if (argc < 3) MPI_Abort(MPI_COMM_WORLD, 2);
    const char *with = argc > 3 ? argv[3] : "";
    if (!strcmp(with, "return")) MPI_Comm_set_errhandler(MPI_COMM_WORLD, MPI_ERRORS_RETURN);
    uint32_t (*run)(const char *, uint32_t, int, int *) = strcmp(with, "pool") ? run_graph : run_pool;
    uint32_t refused = run(argv[1], (uint32_t)atoi(argv[2]), processes, &value);
    MPI_Reduce(&value, &sum, 1, MPI_INT, MPI_SUM, 0, MPI_COMM_WORLD);
    if (me == 0) printf("%d of %d processes have the value\n", sum, processes);
    MPI_Finalize();
    return refused != 0 || (me == 0 && sum != processes);
}
