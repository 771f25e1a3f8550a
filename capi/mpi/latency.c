/* latency.c: the latency from the end of all work until all processes know of it, over MPI, with nothing else to do.
 *
 *   mpicc -O2 -Icapi/include capi/mpi/latency.c -Llib -lgerfmuod -o latency
 *   mpirun -n 4 ./latency proved|hand|safra|reductions ROUNDS
 *
 * Each round begins a detector, finishes its only piece of work at a barrier, and takes the time until the last process
 * knows the end. Prints the median, the quartiles and the 90th percentile of the times in microseconds, and the numbers of
 * control messages and of waves, rounds of the token or reductions in a round. */
#include <mpi.h>
#include "detectors.h"
#include <inttypes.h>
#include <stdio.h>
#include <stdlib.h>

static int by_number(const void *a, const void *b) {
    double x = *(const double *)a, y = *(const double *)b;
    return x < y ? -1 : x > y;
}

static void receive(detector *d) {
    control c;
    int there;
    MPI_Iprobe(MPI_ANY_SOURCE, 1, MPI_COMM_WORLD, &there, MPI_STATUS_IGNORE);
    if (!there) return;
    MPI_Recv(&c, sizeof c, MPI_BYTE, MPI_ANY_SOURCE, 1, MPI_COMM_WORLD, MPI_STATUS_IGNORE);
    detector_take(d, &c);
}

/* Returns the seconds of a round at this process. */
static double run_round(detector *d) {
    control c;
    unsigned next;
    MPI_Barrier(MPI_COMM_WORLD);
    double begun = MPI_Wtime();
    detector_finish_work(d);
    for (;;) {
        while ((next = detector_next(d, &c)) == GERFMUOD_PROCESS_SEND) MPI_Send(&c, sizeof c, MPI_BYTE, (int)c.to, 1, MPI_COMM_WORLD);
        if (next == GERFMUOD_PROCESS_ENDED) return MPI_Wtime() - begun;
        receive(d);
    }
}

int main(int argc, char **argv) {
    MPI_Init(&argc, &argv);
    int me, n, rounds = argc > 2 ? atoi(argv[2]) : 1000;
    const char *kind = argc > 1 ? argv[1] : "proved";
    double *took = malloc((size_t)rounds * sizeof *took);
    uint64_t counts[2] = {0, 0}, all[2];
    if (!took || rounds < 1) MPI_Abort(MPI_COMM_WORLD, 9);
    MPI_Comm_rank(MPI_COMM_WORLD, &me);
    MPI_Comm_size(MPI_COMM_WORLD, &n);
    for (int r = 0; r < rounds; r++) {
        detector d;
        detector_new(&d, detector_named(kind), me, n);
        double mine = run_round(&d);
        counts[0] += d.controls;
        counts[1] += me == 0 ? detector_waves(&d) : 0;
        MPI_Allreduce(&mine, &took[r], 1, MPI_DOUBLE, MPI_MAX, MPI_COMM_WORLD);
    }
    MPI_Reduce(counts, all, 2, MPI_UINT64_T, MPI_SUM, 0, MPI_COMM_WORLD);
    qsort(took, (size_t)rounds, sizeof *took, by_number);
    if (me == 0)
        printf("%s: %d processes, %d rounds, median %.2f us, quartiles %.2f to %.2f us, nine of ten below %.2f us, "
               "%.2f control messages and %.2f waves a round\n",
               kind, n, rounds, 1e6 * took[rounds / 2], 1e6 * took[rounds / 4], 1e6 * took[rounds * 3 / 4], 1e6 * took[rounds * 9 / 10],
               (double)all[0] / rounds, (double)all[1] / rounds);
    free(took);
    MPI_Finalize();
    return 0;
}
