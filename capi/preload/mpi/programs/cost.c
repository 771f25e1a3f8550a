/* cost.c: the time of a message between ranks 0 and 1, and of MPI_Allreduce of one number over all ranks. */
#include <mpi.h>
#include <stdio.h>

enum { MOST = 1 << 16, ROUNDS = 2000 };
static char buffer[MOST];

/* One way, in microseconds: half of a round trip. */
static double ping_pong(int me, int bytes) {
    double begin = 0;
    for (int k = -ROUNDS / 10; k < ROUNDS; k++) {
        if (k == 0) begin = MPI_Wtime();
        if (me == 0) MPI_Send(buffer, bytes, MPI_BYTE, 1, 1, MPI_COMM_WORLD);
        if (me < 2) MPI_Recv(buffer, bytes, MPI_BYTE, 1 - me, 1, MPI_COMM_WORLD, MPI_STATUS_IGNORE);
        if (me == 1) MPI_Send(buffer, bytes, MPI_BYTE, 0, 1, MPI_COMM_WORLD);
    }
    return (MPI_Wtime() - begin) / ROUNDS / 2 * 1e6;
}

static double sums(void) {
    double begin = 0, one = 1, sum;
    for (int k = -ROUNDS / 10; k < ROUNDS; k++) {
        if (k == 0) begin = MPI_Wtime();
        MPI_Allreduce(&one, &sum, 1, MPI_DOUBLE, MPI_SUM, MPI_COMM_WORLD);
    }
    return (MPI_Wtime() - begin) / ROUNDS * 1e6;
}

int main(int count, char **arguments) {
    int me, sizes[] = {1, 1 << 10, 1 << 16};
    double time;
    MPI_Init(&count, &arguments);
    MPI_Comm_rank(MPI_COMM_WORLD, &me);
    for (int k = 0; k < 3; k++) {
        time = ping_pong(me, sizes[k]);
        if (!me) printf("%d byte%s, one way: %.3f us\n", sizes[k], sizes[k] == 1 ? "" : "s", time);
    }
    time = sums();
    if (!me) printf("MPI_Allreduce: %.3f us\n", time);
    MPI_Finalize();
    return 0;
}
