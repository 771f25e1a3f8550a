/* tiles.h: a matrix of doubles in tiles, dealt out over processes (block cyclic), for programs that factor it: its elements, the memory of
 * its tiles, and the difference of the factors from those of the whole matrix. */
#ifndef TILES_H
#define TILES_H
#include <mpi.h>
#include "../examples/kernels.h"
#include <gerfmuod/refusals.h>
#include <math.h>
#include <stdbool.h>
#include <stdio.h>
#include <stdlib.h>

static int me, processes, grid[2]; /* grid: the rows and columns of processes, over which tiles are dealt out */
static int order, tile, tiles;
static int thread_level = MPI_THREAD_FUNNELED; /* which threads call MPI: that of a runtime may, besides the main thread */

/* The numbers of each tile (i, j), at i * tiles + j, if they are here. */
static double **numbers;

static int place(int i, int j) { return i * tiles + j; }
static int owner(int i, int j) { return i % grid[0] * grid[1] + j % grid[1]; }
static double *at(int i, int j) { return numbers[place(i, j)]; }

/* Ends all processes if a call was refused. */
static void need(uint32_t refused, const char *what) {
    if (!refused) return;
    fprintf(stderr, "process %d: %s: %s\n", me, what, gerfmuod_refusal_text(refused));
    MPI_Abort(MPI_COMM_WORLD, 3);
}

static void *allocate(size_t count, size_t size) {
    void *block = calloc(count, size);
    if (count && !block) MPI_Abort(MPI_COMM_WORLD, 9);
    return block;
}

static double *new_tile(void) { return allocate((size_t)tile * (size_t)tile, sizeof(double)); }

/* Element (i, j) of the matrix that is factored, which is symmetric and positive definite. */
static double element(int i, int j) {
    uint64_t x = (uint64_t)(i > j ? i : j) << 32 | (uint64_t)(i > j ? j : i);
    x = (x ^ x >> 33) * 0xff51afd7ed558ccdu;
    x = (x ^ x >> 33) * 0xc4ceb9fe1a85ec53u;
    return (double)((x ^ x >> 33) >> 11) * 0x1p-53 + (i == j ? order : 0);
}

/* Makes tile (i, j), with the values before the factorization. */
static void fill_tile(int i, int j) {
    numbers[place(i, j)] = new_tile();
    for (int c = 0; c < tile; c++)
        for (int r = 0; r < tile; r++) at(i, j)[c * tile + r] = element(i * tile + r, j * tile + c);
}

/* Process 0 gets all tiles of the lower triangle, and returns the largest difference from a factorization of the whole. */
static double distance(void) {
    double *whole = allocate(me ? 0 : (size_t)order * (size_t)order, sizeof *whole), most = 0;
    for (int c = 0; me == 0 && c < order; c++)
        for (int r = 0; r < order; r++) whole[(size_t)c * (size_t)order + (size_t)r] = element(r, c);
    if (me == 0 && factor(order, whole)) MPI_Abort(MPI_COMM_WORLD, 5);
    for (int i = 0; i < tiles; i++)
        for (int j = 0; j <= i; j++) {
            int from = owner(i, j), tag = place(i, j);
            if (me && from == me) MPI_Send(at(i, j), tile * tile, MPI_DOUBLE, 0, tag, MPI_COMM_WORLD);
            if (me) continue;
            if (!numbers[tag]) numbers[tag] = new_tile();
            if (from) MPI_Recv(at(i, j), tile * tile, MPI_DOUBLE, from, tag, MPI_COMM_WORLD, MPI_STATUS_IGNORE);
            for (int c = 0; c < tile; c++)
                for (int r = i == j ? c : 0; r < tile; r++) {
                    size_t column = (size_t)(j * tile + c) * (size_t)order;
                    double d = fabs(at(i, j)[c * tile + r] - whole[column + (size_t)(i * tile + r)]);
                    if (!(d <= most)) most = d;
                }
        }
    free(whole);
    return most;
}

/* Reads the order of the matrix and of its tiles, and opens MPI. */
static void begin(int argc, char **argv, int most_tiles) {
    int provided;
    MPI_Init_thread(&argc, &argv, thread_level, &provided);
    MPI_Comm_rank(MPI_COMM_WORLD, &me);
    MPI_Comm_size(MPI_COMM_WORLD, &processes);
    MPI_Dims_create(processes, 2, grid);
    if (argc < 4 || provided < thread_level) MPI_Abort(MPI_COMM_WORLD, 2);
    order = atoi(argv[1]), tile = atoi(argv[2]), tiles = tile > 0 ? order / tile : 0;
    if (tiles < 1 || tiles * tile != order || tiles > most_tiles) MPI_Abort(MPI_COMM_WORLD, 2);
#ifdef HAVE_BLAS
    openblas_set_num_threads(1);
#endif
    numbers = allocate((size_t)tiles * (size_t)tiles, sizeof *numbers);
}
#endif
