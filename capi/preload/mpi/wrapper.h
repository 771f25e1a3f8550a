/* wrapper.h: what the files with MPI_ functions share. */
#ifndef WRAPPER_H
#define WRAPPER_H
#include "check.h"

/* The collective calls, by the names of their functions. */
#define COLLECTIVE_CALLS(DO)                                                                                            \
    DO(Barrier) DO(Bcast) DO(Gather) DO(Gatherv) DO(Scatter) DO(Scatterv) DO(Allgather) DO(Allgatherv) DO(Alltoall)        \
    DO(Alltoallv) DO(Alltoallw) DO(Reduce) DO(Allreduce) DO(Reduce_scatter) DO(Reduce_scatter_block) DO(Scan) DO(Exscan)   \
    DO(Neighbor_allgather) DO(Neighbor_allgatherv) DO(Neighbor_alltoall) DO(Neighbor_alltoallv) DO(Neighbor_alltoallw)     \
    DO(Comm_dup) DO(Comm_dup_with_info) DO(Comm_idup) DO(Comm_split) DO(Comm_split_type) DO(Comm_create) DO(Cart_create)   \
    DO(Cart_sub) DO(Graph_create) DO(Dist_graph_create) DO(Dist_graph_create_adjacent)
#define CALL_NUMBER(name) CALL_##name,
enum collective { COLLECTIVE_CALLS(CALL_NUMBER) CALL_NONBLOCKING = 64 /* is added */ };

/* Only for programs that asked for MPI_THREAD_MULTIPLE: two threads in calls at once are refused. */
void threads_guard(void);
int thread_enter(void);
void thread_leave(int *entered);
#define ENTER int entered __attribute__((cleanup(thread_leave), unused)) = thread_enter()

static inline int64_t bytes_of(int count, MPI_Datatype type) {
    int size = 0;
    if (count <= 0) return 0;
    PMPI_Type_size(type, &size);
    return (int64_t)count * size;
}

/* Whether a standard or ready send waits for its receive, as MPI may do. */
static inline int is_sync(int64_t bytes) { return checker.is_sync || bytes >= checker.sync_bytes; }

static inline void meet(struct comm *comm, struct need need, int call, int root, const char *name, const void *place) {
    meeting_begin(comm, &need, call, root, place);
    meeting_wait(&need, name, place);
}

/* A call with one status leaves its MPI_ERROR as it was. */
static inline void give_status(MPI_Status *status, const MPI_Status *own) {
    int error;
    if (status == MPI_STATUS_IGNORE) return;
    error = status->MPI_ERROR;
    *status = *own;
    status->MPI_ERROR = error;
}

/* The waits for several requests. */
int wait_all(int count, MPI_Request *handles, struct request **requests, MPI_Status *statuses, struct wait *wait);

/* Starts to send and to receive. What is known of the request is NULL if it is of no watched communicator, or of no process. */
struct envelope {
    const char *call;
    const void *place;
    int count, peer, tag;
    MPI_Datatype type;
    MPI_Comm comm;
};
typedef int send_function(const void *, int, MPI_Datatype, int, int, MPI_Comm, MPI_Request *);
int start_send(const struct envelope *envelope, const void *from, send_function *send, struct request **request,
               MPI_Request *handle);
int start_receive(const struct envelope *envelope, void *to, struct request **request, MPI_Request *handle);
#endif
