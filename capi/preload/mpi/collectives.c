/* collectives.c: collective calls, blocking and nonblocking. Each is announced, and then made as the program makes it.
 *
 * What a rank needs are the ranks whose data come to it. A barrier needs all. */
#include "wrapper.h"

#define BARE(...) __VA_ARGS__

/* COLLECTIVE(Name, name, root, what it needs, parameters, arguments) */
#define COLLECTIVE(name, small, root, needs, parameters, arguments)                                           \
    int MPI_##name(BARE parameters) {                                                                         \
        struct comm *c = comm_of(comm);                                                                       \
        ENTER;                                                                                                \
        if (!c) return PMPI_##name(BARE arguments);                                                           \
        meet(c, needs, CALL_##name, root, "MPI_" #name, CALLER);                                              \
        int result = PMPI_##name(BARE arguments);                                                             \
        detector_glance();                                                                                    \
        return result;                                                                                        \
    }                                                                                                         \
    int MPI_I##small(BARE parameters, MPI_Request *handle) {                                                  \
        struct comm *c = comm_of(comm);                                                                       \
        struct need need;                                                                                     \
        ENTER;                                                                                                \
        if (!c) return PMPI_I##small(BARE arguments, handle);                                                 \
        need = needs;                                                                                         \
        meeting_begin(c, &need, CALL_##name + CALL_NONBLOCKING, root, CALLER);                                        \
        return meeting_track(PMPI_I##small(BARE arguments, handle), &need, "MPI_I" #small, CALLER, handle);   \
    }

/* Whether a rank of a rooted call gets data: the ranks other than the root from it, or the root from all others. */
static struct need from_root(struct comm *comm, int root, int64_t bytes) { return need_one(comm, root, bytes > 0); }
static struct need to_root(struct comm *comm, int root, int64_t bytes) { return need_all(comm->rank == root && bytes > 0); }

/* The counts of MPI_Gatherv are only for the root. */
static struct need counts_to_root(struct comm *comm, int root, const int *counts, MPI_Datatype type) {
    return comm->rank == root ? need_counts(comm, counts, &type, 1) : need_none();
}

COLLECTIVE(Barrier, barrier, -1, need_all(1), (MPI_Comm comm), (comm))

COLLECTIVE(Bcast, bcast, root, from_root(c, root, bytes_of(n, t)),
           (void *b, int n, MPI_Datatype t, int root, MPI_Comm comm), (b, n, t, root, comm))

COLLECTIVE(Gather, gather, root, to_root(c, root, c->rank == root ? bytes_of(m, u) : 0),
           (const void *b, int n, MPI_Datatype t, void *d, int m, MPI_Datatype u, int root, MPI_Comm comm),
           (b, n, t, d, m, u, root, comm))

COLLECTIVE(Gatherv, gatherv, root, counts_to_root(c, root, m, u),
           (const void *b, int n, MPI_Datatype t, void *d, const int *m, const int *at, MPI_Datatype u, int root, MPI_Comm comm),
           (b, n, t, d, m, at, u, root, comm))

COLLECTIVE(Scatter, scatter, root, from_root(c, root, c->rank == root ? 0 : bytes_of(m, u)),
           (const void *b, int n, MPI_Datatype t, void *d, int m, MPI_Datatype u, int root, MPI_Comm comm),
           (b, n, t, d, m, u, root, comm))

COLLECTIVE(Scatterv, scatterv, root, from_root(c, root, c->rank == root ? 0 : bytes_of(m, u)),
           (const void *b, const int *n, const int *at, MPI_Datatype t, void *d, int m, MPI_Datatype u, int root, MPI_Comm comm),
           (b, n, at, t, d, m, u, root, comm))

COLLECTIVE(Allgather, allgather, -1, need_all(bytes_of(m, u) > 0),
           (const void *b, int n, MPI_Datatype t, void *d, int m, MPI_Datatype u, MPI_Comm comm), (b, n, t, d, m, u, comm))

COLLECTIVE(Allgatherv, allgatherv, -1, need_counts(c, m, &u, 1),
           (const void *b, int n, MPI_Datatype t, void *d, const int *m, const int *at, MPI_Datatype u, MPI_Comm comm),
           (b, n, t, d, m, at, u, comm))

COLLECTIVE(Alltoall, alltoall, -1, need_all(bytes_of(m, u) > 0),
           (const void *b, int n, MPI_Datatype t, void *d, int m, MPI_Datatype u, MPI_Comm comm), (b, n, t, d, m, u, comm))

COLLECTIVE(Alltoallv, alltoallv, -1, need_counts(c, m, &u, 1),
           (const void *b, const int *n, const int *from, MPI_Datatype t, void *d, const int *m, const int *at, MPI_Datatype u,
            MPI_Comm comm),
           (b, n, from, t, d, m, at, u, comm))

COLLECTIVE(Alltoallw, alltoallw, -1, need_counts(c, m, u, 0),
           (const void *b, const int *n, const int *from, const MPI_Datatype *t, void *d, const int *m, const int *at,
            const MPI_Datatype *u, MPI_Comm comm),
           (b, n, from, t, d, m, at, u, comm))

COLLECTIVE(Reduce, reduce, root, to_root(c, root, bytes_of(n, t)),
           (const void *b, void *d, int n, MPI_Datatype t, MPI_Op o, int root, MPI_Comm comm), (b, d, n, t, o, root, comm))

COLLECTIVE(Allreduce, allreduce, -1, need_all(bytes_of(n, t) > 0),
           (const void *b, void *d, int n, MPI_Datatype t, MPI_Op o, MPI_Comm comm), (b, d, n, t, o, comm))

COLLECTIVE(Reduce_scatter, reduce_scatter, -1, need_all(bytes_of(n[c->rank], t) > 0),
           (const void *b, void *d, const int *n, MPI_Datatype t, MPI_Op o, MPI_Comm comm), (b, d, n, t, o, comm))

COLLECTIVE(Reduce_scatter_block, reduce_scatter_block, -1, need_all(bytes_of(n, t) > 0),
           (const void *b, void *d, int n, MPI_Datatype t, MPI_Op o, MPI_Comm comm), (b, d, n, t, o, comm))

COLLECTIVE(Scan, scan, -1, need_below(c, bytes_of(n, t) > 0),
           (const void *b, void *d, int n, MPI_Datatype t, MPI_Op o, MPI_Comm comm), (b, d, n, t, o, comm))

COLLECTIVE(Exscan, exscan, -1, need_below(c, bytes_of(n, t) > 0),
           (const void *b, void *d, int n, MPI_Datatype t, MPI_Op o, MPI_Comm comm), (b, d, n, t, o, comm))
