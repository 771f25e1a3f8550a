/* pdpotrf.c: the factorization of capi/mpi/graph_cholesky.c by ScaLAPACK's pdpotrf, on the same matrix: each process has its local part,
 * block cyclic and column-major. With -DHAVE_BLAS as there.
 *
 *     mpicc -O2 -Icapi/include bench/peers/pdpotrf.c -lscalapack-openmpi -lopenblas -lm -Llib -lgerfmuod -pthread -o pdpotrf
 *     mpirun -n 4 ./pdpotrf ORDER BLOCK 1
 *
 * Process 0 compares the result as there. */
#include "../../capi/mpi/tiles.h"
#include <string.h>

void Cblacs_get(int, int, int *);
void Cblacs_gridinit(int *, const char *, int, int);
void Cblacs_gridinfo(int, int *, int *, int *, int *);
int numroc_(const int *, const int *, const int *, const int *, const int *);
void descinit_(int *, const int *, const int *, const int *, const int *, const int *, const int *, const int *, const int *, int *);
void pdpotrf_(const char *, const int *, double *, const int *, const int *, const int *, int *);

/* Copies this process's blocks of the lower triangle, of columns of `most` elements, for `distance`. */
static void keep_tiles(const double *own, size_t most) {
    for (int i = 0; i < tiles; i++)
        for (int j = 0; j <= i; j++) {
            if (owner(i, j) != me) continue;
            numbers[place(i, j)] = new_tile();
            for (int c = 0; c < tile; c++)
                memcpy(at(i, j) + c * tile, own + (size_t)(j / grid[1] * tile + c) * most + i / grid[0] * tile, (size_t)tile * sizeof *own);
        }
}

int main(int argc, char **argv) {
    int context, rows, columns, row, column, info, description[9];
    const int zero = 0, one = 1;
    begin(argc, argv, 1024);
    Cblacs_get(-1, 0, &context);
    Cblacs_gridinit(&context, "Row", grid[0], grid[1]);
    Cblacs_gridinfo(context, &rows, &columns, &row, &column);
    int high = numroc_(&order, &tile, &row, &zero, &rows), wide = numroc_(&order, &tile, &column, &zero, &columns);
    int most = high > 1 ? high : 1;
    descinit_(description, &order, &order, &tile, &tile, &zero, &zero, &context, &most, &info);
    double *own = allocate((size_t)most * (size_t)(wide + 1), sizeof *own);
    for (int c = 0; c < wide; c++)
        for (int r = 0; r < high; r++)
            own[(size_t)c * (size_t)most + (size_t)r] =
                element((r / tile * rows + row) * tile + r % tile, (c / tile * columns + column) * tile + c % tile);
    MPI_Barrier(MPI_COMM_WORLD);
    double from = MPI_Wtime();
    pdpotrf_("L", &order, own, &one, &one, description, &info);
    MPI_Barrier(MPI_COMM_WORLD);
    double seconds = MPI_Wtime() - from;
    keep_tiles(own, (size_t)most);
    double apart = distance();
    bool is_right = info == 0 && apart < 1e-9;
    if (me == 0)
        printf("pdpotrf, order %d in blocks of %d, %.3f s, info %d, %.1e from the whole: %s\n", order, tile, seconds, info, apart,
               is_right ? "right" : "WRONG");
    for (int p = 0; p < tiles * tiles; p++) free(numbers[p]);
    free(own), free(numbers);
    MPI_Finalize();
    return !is_right; /* (processes other than 0 have nothing to compare: 0 apart) */
}
