/* pool_search.c: the Unbalanced Tree Search over gerfmuod/mpi_pool.h. A task searches below a node: those near the root make a task for
 * each child, in a random process, and others search all that is below them.
 *
 *     mpicc -O2 -Icapi/include capi/mpi/pool_search.c capi/include/gerfmuod/mpi{_pool,}.c -Llib -lgerfmuod -pthread -lm -o pool_search
 *     mpirun -n 4 ./pool_search T1|T3|T0 THREADS
 *
 * The exit status is 1 if nodes are missing. */
#include "uts.h"
#include <gerfmuod/mpi_pool.h>
#include <pthread.h>
#include <stdio.h>
#include <stdlib.h>

enum { NEAR = 6 };

static const tree *searched;
static uint64_t counts[2]; /* nodes, leaves */
static pthread_mutex_t lock = PTHREAD_MUTEX_INITIALIZER;

static void search(const node *n, uint64_t found[2]) {
    int children = uts_children(searched, n);
    found[0]++, found[1] += children == 0;
    for (int k = 0; k < children; k++) {
        node child = uts_child(n, k);
        search(&child, found);
    }
}

static int visit(gerfmuod_mpi_pool *pool, void *unused, const void *arguments, size_t size) {
    node n = *(const node *)arguments;
    uint64_t found[2] = {0, 0};
    uint32_t refused = GERFMUOD_OK;
    int children = uts_children(searched, &n);
    if (n.height >= NEAR) search(&n, found);
    else found[0]++, found[1] += children == 0;
    for (int k = 0; k < children && n.height < NEAR && !refused; k++) {
        node child = uts_child(&n, k);
        refused = gerfmuod_mpi_pool_spawn(pool, child.state[0] % gerfmuod_mpi_pool_size(pool), 0, &child, size);
    }
    pthread_mutex_lock(&lock);
    counts[0] += found[0], counts[1] += found[1];
    pthread_mutex_unlock(&lock);
    return (void)unused, refused != GERFMUOD_OK;
}

int main(int argc, char **argv) {
    gerfmuod_mpi_pool *pool;
    int provided;
    uint64_t all[2];
    MPI_Init_thread(&argc, &argv, MPI_THREAD_FUNNELED, &provided);
    if (argc < 3 || gerfmuod_mpi_pool_open(&pool, MPI_COMM_WORLD)) MPI_Abort(MPI_COMM_WORLD, 2);
    searched = uts_tree(argv[1]);
    node root = uts_root(searched);
    uint32_t refused = GERFMUOD_OK, kind = gerfmuod_mpi_pool_kind(pool, visit, NULL);
    int rank = gerfmuod_mpi_pool_rank(pool), processes = gerfmuod_mpi_pool_size(pool);
    if (rank == 0) refused = gerfmuod_mpi_pool_spawn(pool, 0, kind, &root, sizeof root);
    double begun = MPI_Wtime();
    if (refused || gerfmuod_mpi_pool_run(pool, (uint32_t)atoi(argv[2]))) MPI_Abort(MPI_COMM_WORLD, 1);
    double seconds = MPI_Wtime() - begun;
    gerfmuod_mpi_pool_close(pool);
    MPI_Allreduce(counts, all, 2, MPI_UINT64_T, MPI_SUM, MPI_COMM_WORLD);
    int is_right = all[0] == searched->nodes && all[1] == searched->leaves;
    if (rank == 0)
        printf("%s over %d processes with %s threads each: %llu nodes, %llu leaves, %.3f s: %s\n", searched->name, processes, argv[2],
               (unsigned long long)all[0], (unsigned long long)all[1], seconds, is_right ? "right" : "WRONG");
    MPI_Finalize();
    return is_right ? 0 : 1;
}
