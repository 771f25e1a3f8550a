/* neighbours.c: neighbourhood collective calls. A rank needs the data of its sources. */
#include "wrapper.h"
#include <stdlib.h>

struct neighbours {
    int in, out;
    int *sources, *destinations;
};

static void room_for(struct neighbours *all, int in, int out) {
    all->in = in;
    all->out = out;
    all->sources = allocate(sizeof(int) * (size_t)(in + 1));
    all->destinations = allocate(sizeof(int) * (size_t)(out + 1));
}

/* In the order of the standard: two for each dimension. */
static void cartesian(struct neighbours *all, MPI_Comm comm) {
    int dimensions;
    PMPI_Cartdim_get(comm, &dimensions);
    room_for(all, 2 * dimensions, 2 * dimensions);
    for (int n = 0; n < dimensions; n++) {
        PMPI_Cart_shift(comm, n, 1, &all->sources[2 * n], &all->sources[2 * n + 1]);
        all->destinations[2 * n] = all->sources[2 * n];
        all->destinations[2 * n + 1] = all->sources[2 * n + 1];
    }
}

static void graph(struct neighbours *all, MPI_Comm comm, int rank) {
    int count;
    PMPI_Graph_neighbors_count(comm, rank, &count);
    room_for(all, count, count);
    PMPI_Graph_neighbors(comm, rank, count, all->sources);
    PMPI_Graph_neighbors(comm, rank, count, all->destinations);
}

static void distributed_graph(struct neighbours *all, MPI_Comm comm) {
    int in, out, is_weighted, *weights;
    PMPI_Dist_graph_neighbors_count(comm, &in, &out, &is_weighted);
    room_for(all, in, out);
    weights = allocate(sizeof *weights * (size_t)(in + out + 1));
    PMPI_Dist_graph_neighbors(comm, in, all->sources, weights, out, all->destinations, weights + in);
    free(weights);
}

/* Keeps the ranks of other processes from which data comes, at most one count and type for each. */
static int keep_sources(struct neighbours *all, int rank, const int *counts, const MPI_Datatype *types, int is_one) {
    int kept = 0;
    for (int n = 0; n < all->in; n++) {
        int64_t bytes = bytes_of(counts[is_one & 1 ? 0 : n], types[is_one & 2 ? 0 : n]);
        if (bytes > 0 && all->sources[n] >= 0 && all->sources[n] != rank) all->sources[kept++] = all->sources[n];
    }
    return kept;
}

enum { ONE_COUNT = 1, ONE_TYPE = 2 };

/* Announces the call, and returns what it needs. */
static struct need meet_neighbours(struct comm *comm, int call, const int *counts, const MPI_Datatype *types, int is_one,
                                   const void *place) {
    struct neighbours all = {0};
    struct need need;
    int kind;
    PMPI_Topo_test(comm->handle, &kind);
    if (kind == MPI_CART) cartesian(&all, comm->handle);
    else if (kind == MPI_GRAPH) graph(&all, comm->handle, comm->rank);
    else if (kind == MPI_DIST_GRAPH) distributed_graph(&all, comm->handle);
    else room_for(&all, 0, 0);
    need = need_ranks(keep_sources(&all, comm->rank, counts, types, is_one), all.sources);
    meeting_begin(comm, &need, call, -1, place);
    free(all.destinations);
    return need;
}

#define BARE(...) __VA_ARGS__
#define NEIGHBOURS(name, counts, types, is_one, parameters, arguments)                                        \
    int MPI_Neighbor_##name(BARE parameters) {                                                                \
        struct comm *c = comm_of(comm);                                                                       \
        struct need need;                                                                                     \
        ENTER;                                                                                                \
        if (!c) return PMPI_Neighbor_##name(BARE arguments);                                                  \
        need = meet_neighbours(c, CALL_Neighbor_##name, counts, types, is_one, CALLER);                       \
        meeting_wait(&need, "MPI_Neighbor_" #name, CALLER);                                                   \
        int result = PMPI_Neighbor_##name(BARE arguments);                                                    \
        detector_glance();                                                                                    \
        return result;                                                                                        \
    }                                                                                                         \
    int MPI_Ineighbor_##name(BARE parameters, MPI_Request *handle) {                                          \
        struct comm *c = comm_of(comm);                                                                       \
        struct need need;                                                                                     \
        ENTER;                                                                                                \
        if (!c) return PMPI_Ineighbor_##name(BARE arguments, handle);                                         \
        need = meet_neighbours(c, CALL_Neighbor_##name + CALL_NONBLOCKING, counts, types, is_one, CALLER);    \
        return meeting_track(PMPI_Ineighbor_##name(BARE arguments, handle), &need, "MPI_Ineighbor_" #name, CALLER, handle); \
    }

NEIGHBOURS(allgather, &m, &u, ONE_COUNT | ONE_TYPE,
           (const void *b, int n, MPI_Datatype t, void *d, int m, MPI_Datatype u, MPI_Comm comm), (b, n, t, d, m, u, comm))
NEIGHBOURS(allgatherv, m, &u, ONE_TYPE,
           (const void *b, int n, MPI_Datatype t, void *d, const int *m, const int *at, MPI_Datatype u, MPI_Comm comm),
           (b, n, t, d, m, at, u, comm))
NEIGHBOURS(alltoall, &m, &u, ONE_COUNT | ONE_TYPE,
           (const void *b, int n, MPI_Datatype t, void *d, int m, MPI_Datatype u, MPI_Comm comm), (b, n, t, d, m, u, comm))
NEIGHBOURS(alltoallv, m, &u, ONE_TYPE,
           (const void *b, const int *n, const int *from, MPI_Datatype t, void *d, const int *m, const int *at, MPI_Datatype u,
            MPI_Comm comm),
           (b, n, from, t, d, m, at, u, comm))
NEIGHBOURS(alltoallw, m, u, 0,
           (const void *b, const int *n, const MPI_Aint *from, const MPI_Datatype *t, void *d, const int *m, const MPI_Aint *at,
            const MPI_Datatype *u, MPI_Comm comm),
           (b, n, from, t, d, m, at, u, comm))
