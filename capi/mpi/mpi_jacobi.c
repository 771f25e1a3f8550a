/* mpi_jacobi.c: heat in a ring of blocks, over the processes of MPI, as a task graph with data handles.
 *
 *     mpicc -O2 -Icapi/include capi/mpi/mpi_jacobi.c capi/include/gerfmuod/mpi.c -Llib -lgerfmuod -pthread -o mpi_jacobi
 *     mpirun -n 4 ./mpi_jacobi
 *
 * A task computes a block once more. It reads the last cells of the blocks next to it, which are in two versions: the one that the
 * neighbours read now, and the one that they read next. The result is the same for any number of processes and threads. */
#include <gerfmuod/mpi.h>
#include <stdio.h>
enum { BLOCKS = 32, CELLS = 1000, STEPS = 100, THREADS = 2 };
static double cells[BLOCKS][CELLS], ends[BLOCKS][2][2], total; /* ends: of a block, for even and odd steps, its two ends */

static int step(const void *unused, void *const *values) {
    double *block = values[0], *ours = values[1], before = ((double *)values[2])[1], after = ((double *)values[3])[0];
    for (int i = 0; i < CELLS; i++) {
        double here = block[i];
        block[i] = (before + here + (i + 1 < CELLS ? block[i + 1] : after)) / 3, before = here;
    }
    ours[0] = block[0], ours[1] = block[CELLS - 1];
    return (void)unused, 0;
}

static int add(const void *unused, void *const *values) {
    for (int i = 0; i < CELLS; i++) *(double *)values[0] += ((double *)values[1])[i];
    return (void)unused, 0;
}

int main(int argc, char **argv) {
    gerfmuod_mpi *graph;
    int provided, processes;
    uint32_t block[BLOCKS], end[BLOCKS][2];
    MPI_Init_thread(&argc, &argv, MPI_THREAD_FUNNELED, &provided);
    MPI_Comm_size(MPI_COMM_WORLD, &processes);
    if (gerfmuod_mpi_open(&graph, MPI_COMM_WORLD)) MPI_Abort(MPI_COMM_WORLD, 1);
    cells[0][0] = ends[0][0][0] = 1000;
    for (int b = 0; b < BLOCKS; b++) {
        int owner = b * processes / BLOCKS; /* neighbours live together */
        block[b] = gerfmuod_mpi_data(graph, owner, cells[b], sizeof cells[b]);
        for (int k = 0; k < 2; k++) end[b][k] = gerfmuod_mpi_data(graph, owner, ends[b][k], sizeof ends[b][k]);
    }
    uint32_t sum = gerfmuod_mpi_data(graph, 0, &total, sizeof total);
    for (int s = 0; s < STEPS; s++)
        for (int b = 0; b < BLOCKS; b++) {
            uint32_t left = end[(b + BLOCKS - 1) % BLOCKS][s % 2], right = end[(b + 1) % BLOCKS][s % 2], next = end[b][(s + 1) % 2];
            gerfmuod_mpi_task(graph, 0, step, NULL, 0, GERFMUOD_UPDATES(block[b]), GERFMUOD_WRITES(next), GERFMUOD_READS(left),
                              GERFMUOD_READS(right));
        }
    for (int b = 0; b < BLOCKS; b++)
        gerfmuod_mpi_task(graph, 0, add, NULL, 0, GERFMUOD_UPDATES(sum), GERFMUOD_READS(block[b]));
    uint32_t refused = gerfmuod_mpi_run(graph, THREADS);
    if (total > 0) printf("%d steps of %d cells, sum %.6f\n", STEPS, BLOCKS * CELLS, total); /* in process 0 */
    gerfmuod_mpi_close(graph);
    MPI_Finalize();
    return refused != 0;
}
