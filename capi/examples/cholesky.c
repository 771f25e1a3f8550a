/* cholesky.c: Cholesky factorization of a matrix of doubles in tiles. A task is one kernel on one tile; it waits for the last
 * writers of the tiles that it reads and writes. Each result is compared with a factorization of the whole matrix.
 *
 *   cholesky [--profile FILE] ORDER TILE ROUNDS WAY..     ORDER is a multiple of TILE; a WAY is
 *     T         a team of T threads
 *     loop      the tiles in sequence
 *     omp:T     OpenMP's tasks with `depend`                     (built with -fopenmp)
 *     whole:T   one call of OpenBLAS's dpotrf, with T threads    (built with -DHAVE_BLAS)
 *     starpu    StarPU, with STARPU_NCPU workers                 (built with -DHAVE_STARPU, only for this way)
 *
 * With --profile teams record their runs, and FILE gets the trace events of the last one.
 * With -DHAVE_BLAS the kernels are those of BLAS and LAPACK, else plain loops. OPENBLAS_NUM_THREADS=1 has to be set.
 */
#define _POSIX_C_SOURCE 200809L
#include "kernels.h"
#include "profiled.h"
#include "timing.h"
#include <math.h>
#include <string.h>

/* ---- the matrix in tiles */
static int order, tile, tiles;
static double *work;

static double *at(int i, int j) { return work + ((size_t)i * (size_t)tiles + (size_t)j) * (size_t)tile * (size_t)tile; }

enum kind { FACTOR, SOLVE, SQUARE, PRODUCT };
typedef struct {
    enum kind kind;
    int i, j, k;
} job;

static int run(job t) {
    switch (t.kind) {
    case FACTOR: return factor(tile, at(t.k, t.k));
    case SOLVE: solve(tile, at(t.k, t.k), at(t.i, t.k)); break;
    case SQUARE: subtract_square(tile, at(t.i, t.k), at(t.i, t.i)); break;
    case PRODUCT: subtract_product(tile, at(t.i, t.k), at(t.j, t.k), at(t.i, t.j)); break;
    }
    return 0;
}

/* ---- the graph: tasks in the order of the loop */
typedef struct {
    job *jobs;
    uint32_t *offsets, *inputs, *writer; /* writer: of each tile, the last task that writes it */
    uint8_t *classes;
    uint32_t tasks, edges;
} graph;

static void reads(graph *g, int i, int j) {
    uint32_t writer = g->writer[i * tiles + j];
    if (writer != GERFMUOD_GRAPH_NONE) g->inputs[g->edges++] = writer;
}

/* A task that writes tile (i, j). */
static void add(graph *g, job t, int i, int j, uint8_t class_) {
    reads(g, i, j);
    if (t.kind == SOLVE) reads(g, t.k, t.k);
    if (t.kind == SQUARE || t.kind == PRODUCT) reads(g, t.i, t.k);
    if (t.kind == PRODUCT) reads(g, t.j, t.k);
    g->jobs[g->tasks] = t;
    g->classes[g->tasks] = class_;
    g->writer[i * tiles + j] = g->tasks++;
    g->offsets[g->tasks] = g->edges;
}

static graph new_graph(void) {
    size_t most = (size_t)tiles * (size_t)(tiles + 1) * (size_t)(tiles + 2) / 6;
    graph g = {.jobs = malloc(most * sizeof(job)),
               .offsets = calloc(most + 1, sizeof(uint32_t)),
               .inputs = malloc(4 * most * sizeof(uint32_t)),
               .writer = malloc((size_t)(tiles * tiles) * sizeof(uint32_t)),
               .classes = malloc(most)};
    memset(g.writer, 255, (size_t)(tiles * tiles) * sizeof(uint32_t));
    for (int k = 0; k < tiles; k++) { /* the classes prefer tasks that the next steps wait for */
        add(&g, (job){FACTOR, k, k, k}, k, k, 0);
        for (int i = k + 1; i < tiles; i++) add(&g, (job){SOLVE, i, k, k}, i, k, i == k + 1 ? 0 : 1);
        for (int i = k + 1; i < tiles; i++) {
            add(&g, (job){SQUARE, i, i, k}, i, i, i == k + 1 ? 0 : 2);
            for (int j = k + 1; j < i; j++) add(&g, (job){PRODUCT, i, j, k}, i, j, j == k + 1 ? 2 : 3);
        }
    }
    return g;
}

static void drop(graph *g) {
    free(g->jobs), free(g->offsets), free(g->inputs), free(g->writer), free(g->classes);
}

/* ---- the ways */
static int body(void *context, uint32_t task) { return run(((const job *)context)[task]); }

static void by_team(uint32_t threads) {
    graph g = new_graph();
    gerfmuod_team *team = open_team(0);
    need(gerfmuod_team_describe(team, g.tasks, g.classes, g.offsets, g.inputs, NULL), "describe");
    need(gerfmuod_team_run(team, threads, body, g.jobs), "run");
    close_team(team);
    drop(&g);
}

static void by_loop(void) {
    graph g = new_graph();
    for (uint32_t t = 0; t < g.tasks; t++) need(run(g.jobs[t]) != 0, "factor");
    drop(&g);
}

#ifdef _OPENMP
static void by_openmp(int threads) {
#pragma omp parallel num_threads(threads)
#pragma omp single
    for (int k = 0; k < tiles; k++) {
        double *kk = at(k, k);
        (void)kk;
#pragma omp task depend(inout : kk[0]) priority(9)
        run((job){FACTOR, k, k, k});
        for (int i = k + 1; i < tiles; i++) {
            double *ik = at(i, k);
            (void)ik;
#pragma omp task depend(in : kk[0]) depend(inout : ik[0]) priority(5)
            run((job){SOLVE, i, k, k});
        }
        for (int i = k + 1; i < tiles; i++) {
            double *ik = at(i, k), *ii = at(i, i);
            (void)ik, (void)ii;
#pragma omp task depend(in : ik[0]) depend(inout : ii[0]) priority(4)
            run((job){SQUARE, i, i, k});
            for (int j = k + 1; j < i; j++) {
                double *jk = at(j, k), *ij = at(i, j);
                (void)jk, (void)ij;
#pragma omp task depend(in : ik[0], jk[0]) depend(inout : ij[0])
                run((job){PRODUCT, i, j, k});
            }
        }
    }
}
#endif

#ifdef HAVE_STARPU
#include "../bench/peers/cholesky_starpu.h"
#endif

/* ---- matrices as a whole, column-major */
static double *random_matrix(void) { /* symmetric and positive definite */
    double *a = malloc((size_t)order * (size_t)order * sizeof *a);
    uint64_t seed = 1;
    for (int j = 0; a && j < order; j++)
        for (int i = 0; i <= j; i++) {
            seed = seed * 6364136223846793005u + 1442695040888963407u;
            double x = (double)(seed >> 11) * 0x1p-53 + (i == j ? order : 0);
            a[(size_t)j * (size_t)order + (size_t)i] = a[(size_t)i * (size_t)order + (size_t)j] = x;
        }
    return a;
}

static void to_tiles(const double *a) {
    for (int i = 0; i < tiles; i++)
        for (int j = 0; j < tiles; j++)
            for (int c = 0; c < tile; c++)
                memcpy(at(i, j) + c * tile, a + (size_t)(j * tile + c) * (size_t)order + i * tile, (size_t)tile * sizeof *a);
}

/* Returns the largest difference of the lower triangles. */
static double distance(const double *a) {
    double most = 0;
    for (int j = 0; j < order; j++)
        for (int i = j; i < order; i++) {
            double d = fabs(at(i / tile, j / tile)[j % tile * tile + i % tile] - a[(size_t)j * (size_t)order + (size_t)i]);
            if (!(d <= most)) most = d;
        }
    return most;
}

static double *start, *wanted, *copy;
static int is_whole; /* the last way was one call of dpotrf */

/* Factors a copy of the matrix by one call of dpotrf. */
static void whole(int threads) {
    is_whole = 1;
#ifdef HAVE_BLAS
    openblas_set_num_threads(threads);
#else
    need(threads != 1, "the plain kernels have no threads");
#endif
    need(factor(order, copy) != 0, "dpotrf");
#ifdef HAVE_BLAS
    openblas_set_num_threads(1);
#endif
}

static void prepare(void) {
    is_whole = 0;
    memcpy(copy, start, (size_t)order * (size_t)order * sizeof *copy);
    to_tiles(start);
#ifdef HAVE_STARPU
    register_tiles();
#endif
}

static void go(const char *way) {
    if (!strcmp(way, "loop")) by_loop();
    else if (!strncmp(way, "whole:", 6)) whole(atoi(way + 6));
    else if (atoi(way) > 0) by_team((uint32_t)atoi(way));
#ifdef _OPENMP
    else if (!strncmp(way, "omp:", 4)) by_openmp(atoi(way + 4));
#endif
#ifdef HAVE_STARPU
    else if (!strcmp(way, "starpu")) by_starpu();
#endif
    else need(1, way);
}

static int is_near(void) {
#ifdef HAVE_STARPU
    unregister_tiles();
#endif
    return is_whole || distance(wanted) < 1e-9;
}

int main(int argc, char **argv) {
    take_profile_option(&argc, &argv);
    if (argc < 5) return 1;
    order = atoi(argv[1]), tile = atoi(argv[2]), tiles = order / tile;
    size_t bytes = (size_t)order * (size_t)order * sizeof(double);
    size_t units = (size_t)tiles * (size_t)(tiles + 1) * (size_t)(tiles + 2) / 6;
    start = random_matrix(), wanted = malloc(bytes), copy = malloc(bytes);
    void *aligned;
    if (!start || !wanted || !copy || posix_memalign(&aligned, 64, bytes) || tiles * tile != order) return 1;
    work = aligned;
#ifdef HAVE_STARPU
    need(starpu_init(NULL) != 0, "starpu_init");
#endif
    memcpy(copy, start, bytes);
    whole(1);
    memcpy(wanted, copy, bytes);
    measure((struct measured){prepare, go, is_near, &units}, argv[3], argv + 4, argc - 4);
#ifdef HAVE_STARPU
    starpu_shutdown();
#endif
    write_profile();
    free(start), free(wanted), free(copy), free(work);
    return 0;
}
