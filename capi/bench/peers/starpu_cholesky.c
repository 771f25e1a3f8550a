/* starpu_cholesky.c: the factorization of capi/mpi/graph_cholesky.c by StarPU over MPI: the same tiles, owners, kernels and check.
 *
 *     mpicc -O2 -Icapi/include $(pkg-config --cflags starpumpi-1.3) capi/bench/peers/starpu_cholesky.c -Llib -lgerfmuod -pthread -lm \
 *         $(pkg-config --libs starpumpi-1.3) -o starpu_cholesky
 *     mpirun -n 4 ./starpu_cholesky ORDER TILE THREADS [before]
 *
 * With -DHAVE_BLAS as there. The time begins before the first task is inserted, as programs over StarPU do it: the workers run tasks while
 * the main thread inserts others. With `before` it begins after all are inserted, until when the workers pause, as that of
 * graph_cholesky.c begins after the description of its graph. It ends when all processes have waited for all tasks and messages. */
#define _GNU_SOURCE
#include "../../mpi/tiles.h"
#include "cholesky_starpu.h"
#include <starpu_mpi.h>
#include <string.h>

/* Makes the tiles of this process, and names all of the lower triangle to StarPU. */
static void register_over_mpi(void) {
    unsigned side = (unsigned)tile;
    handles = allocate((size_t)tiles * (size_t)tiles, sizeof *handles);
    for (int i = 0; i < tiles; i++)
        for (int j = 0; j <= i; j++) {
            starpu_data_handle_t *h = &handles[place(i, j)];
            if (owner(i, j) == me) fill_tile(i, j);
            starpu_matrix_data_register(h, at(i, j) ? STARPU_MAIN_RAM : -1, (uintptr_t)at(i, j), side, side, side, sizeof(double));
            starpu_mpi_data_register(*h, place(i, j), owner(i, j));
        }
}

static void unregister_over_mpi(void) {
    for (int i = 0; i < tiles; i++)
        for (int j = 0; j <= i; j++) starpu_data_unregister(handle(i, j));
    free(handles);
}

/* Inserts all tasks, with the priorities of cholesky_starpu.h. */
static void insert(void) {
    const MPI_Comm all = MPI_COMM_WORLD;
    for (int k = 0; k < tiles; k++) {
        starpu_mpi_task_insert(all, &factor_codelet, STARPU_RW, handle(k, k), STARPU_PRIORITY, STARPU_MAX_PRIO, 0);
        for (int i = k + 1; i < tiles; i++)
            starpu_mpi_task_insert(all, &solve_codelet, STARPU_R, handle(k, k), STARPU_RW, handle(i, k), STARPU_PRIORITY, 3, 0);
        for (int i = k + 1; i < tiles; i++) {
            starpu_mpi_task_insert(all, &square_codelet, STARPU_R, handle(i, k), STARPU_RW, handle(i, i), STARPU_PRIORITY, 2, 0);
            for (int j = k + 1; j < i; j++)
                starpu_mpi_task_insert(all, &product_codelet, STARPU_R, handle(i, k), STARPU_R, handle(j, k), STARPU_RW, handle(i, j), 0);
        }
    }
}

/* Opens StarPU with workers on processors alone. Its processes share the machine, so it binds no thread to a processor: each process
 * would begin with the first one. */
static void open_starpu(int threads) {
    struct starpu_conf configuration;
    setenv("STARPU_WORKERS_NOBIND", "1", 0);
    setenv("STARPU_MPI_NOBIND", "1", 0);
    setenv("STARPU_SILENT", "1", 0);
    starpu_conf_init(&configuration);
    configuration.ncpus = threads;
    configuration.ncuda = configuration.nopencl = 0;
    if (!getenv("STARPU_SCHED")) configuration.sched_policy_name = "lws";
    if (starpu_mpi_init_conf(NULL, NULL, 0, MPI_COMM_WORLD, &configuration)) MPI_Abort(MPI_COMM_WORLD, 4);
}

/* Returns the seconds of a factorization. starpu_mpi_barrier would wait for the messages of tasks that are inserted. */
static double factored(bool is_inserted_before) {
    starpu_mpi_barrier(MPI_COMM_WORLD);
    if (is_inserted_before) starpu_pause(), insert(), MPI_Barrier(MPI_COMM_WORLD);
    double from = starpu_timing_now();
    if (is_inserted_before) starpu_resume();
    else insert();
    starpu_mpi_wait_for_all(MPI_COMM_WORLD);
    return (starpu_timing_now() - from) / 1e6;
}

int main(int argc, char **argv) {
    bool is_inserted_before = argc > 4 && !strcmp(argv[4], "before");
    thread_level = is_inserted_before ? MPI_THREAD_MULTIPLE : MPI_THREAD_SERIALIZED; /* StarPU's thread calls MPI */
    begin(argc, argv, 1024);
    open_starpu(atoi(argv[3]));
    register_over_mpi();
    double seconds = factored(is_inserted_before);
    unregister_over_mpi();
    starpu_mpi_shutdown();
    double apart = distance();
    int is_right = apart < 1e-9;
    if (me == 0)
        printf("Cholesky by StarPU, order %d in tiles of %d: %d processes (%d x %d) with %s threads each, %.3f s, "
               "%.1e from the whole: %s\n",
               order, tile, processes, grid[0], grid[1], argv[3], seconds, apart, is_right ? "right" : "WRONG");
    MPI_Bcast(&is_right, 1, MPI_INT, 0, MPI_COMM_WORLD);
    for (int p = 0; p < tiles * tiles; p++) free(numbers[p]);
    free(numbers);
    MPI_Finalize();
    return is_right ? 0 : 1;
}
