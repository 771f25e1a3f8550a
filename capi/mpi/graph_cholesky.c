/* graph_cholesky.c: the factorization of mpi_cholesky.c as a task graph over all processes, with a data handle for each tile.
 *
 *     mpicc -O2 -Icapi/include capi/mpi/graph_cholesky.c capi/include/gerfmuod/mpi.c -Llib -lgerfmuod -pthread -lm -o graph_cholesky
 *     mpirun -n 4 ./graph_cholesky ORDER TILE THREADS
 *
 * With -DHAVE_BLAS the kernels are those of OpenBLAS (-lopenblas). Process 0 compares the result with one factorization of the whole
 * matrix. The exit status is not 0 if they differ by 1e-9. */
#define _POSIX_C_SOURCE 200809L
#include "tiles.h"
#include <gerfmuod/mpi.h>

static int run_factor(const void *unused, void *const *v) { return (void)unused, factor(tile, v[0]); }
static int run_solve(const void *unused, void *const *v) { return (void)unused, solve(tile, v[1], v[0]), 0; }
static int run_square(const void *unused, void *const *v) { return (void)unused, subtract_square(tile, v[1], v[0]), 0; }
static int run_product(const void *unused, void *const *v) { return (void)unused, subtract_product(tile, v[1], v[2], v[0]), 0; }

static void describe(gerfmuod_mpi *graph) {
    uint32_t *t = allocate((size_t)tiles * (size_t)tiles, sizeof *t);
    for (int i = 0; i < tiles; i++)
        for (int j = 0; j <= i; j++) {
            if (owner(i, j) == me) fill_tile(i, j);
            t[place(i, j)] = gerfmuod_mpi_data(graph, owner(i, j), at(i, j), (size_t)(tile * tile) * sizeof(double));
        }
    for (int k = 0; k < tiles; k++) {
        gerfmuod_mpi_task(graph, 0, run_factor, NULL, 0, GERFMUOD_UPDATES(t[place(k, k)]));
        for (int i = k + 1; i < tiles; i++)
            gerfmuod_mpi_task(graph, 1, run_solve, NULL, 0, GERFMUOD_UPDATES(t[place(i, k)]), GERFMUOD_READS(t[place(k, k)]));
        for (int i = k + 1; i < tiles; i++) {
            gerfmuod_mpi_task(graph, i == k + 1 ? 0 : 2, run_square, NULL, 0, GERFMUOD_UPDATES(t[place(i, i)]), GERFMUOD_READS(t[place(i, k)]));
            for (int j = k + 1; j < i; j++)
                gerfmuod_mpi_task(graph, j == k + 1 ? 2 : 3, run_product, NULL, 0, GERFMUOD_UPDATES(t[place(i, j)]),
                                  GERFMUOD_READS(t[place(i, k)]), GERFMUOD_READS(t[place(j, k)]));
        }
    }
    free(t);
}

/* Prints one line for all processes; returns whether the result is right. */
static int report(const char *threads, uint64_t sent, double seconds) {
    double apart = distance();
    uint64_t all = 0;
    int is_right = apart < 1e-9;
    MPI_Reduce(&sent, &all, 1, MPI_UINT64_T, MPI_SUM, 0, MPI_COMM_WORLD);
    if (me == 0)
        printf("Cholesky, order %d in tiles of %d: %d processes (%d x %d) with %s threads each, %llu tiles sent, %.3f s, "
               "%.1e from the whole: %s\n",
               order, tile, processes, grid[0], grid[1], threads, (unsigned long long)all, seconds, apart, is_right ? "right" : "WRONG");
    MPI_Bcast(&is_right, 1, MPI_INT, 0, MPI_COMM_WORLD);
    return is_right;
}

int main(int argc, char **argv) {
    gerfmuod_mpi *graph;
    begin(argc, argv, 1024);
    need(gerfmuod_mpi_open(&graph, MPI_COMM_WORLD), "open");
    describe(graph);
    MPI_Barrier(MPI_COMM_WORLD);
    double from = MPI_Wtime();
    need(gerfmuod_mpi_run(graph, (uint32_t)atoi(argv[3])), "run");
    double seconds = MPI_Wtime() - from;
    int is_right = report(argv[3], gerfmuod_mpi_messages(graph), seconds);
    gerfmuod_mpi_close(graph);
    for (int p = 0; p < tiles * tiles; p++) free(numbers[p]);
    free(numbers);
    MPI_Finalize();
    return is_right ? 0 : 1;
}
