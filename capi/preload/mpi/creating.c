/* creating.c: the calls that create communicators. They are collective over the old one. */
#include "wrapper.h"
#include <stdio.h>

#define CREATES(name, parameters, arguments)                                                                \
    int MPI_##name parameters {                                                                             \
        struct comm *old = comm_of(comm);                                                                   \
        int result;                                                                                         \
        ENTER;                                                                                              \
        if (old) meet(old, need_all(1), CALL_##name, -1, "MPI_" #name, CALLER);                             \
        result = PMPI_##name arguments;                                                                     \
        if (result == MPI_SUCCESS) comm_track(*made);                                                       \
        return result;                                                                                      \
    }
CREATES(Comm_dup, (MPI_Comm comm, MPI_Comm *made), (comm, made))
CREATES(Comm_dup_with_info, (MPI_Comm comm, MPI_Info info, MPI_Comm *made), (comm, info, made))
CREATES(Comm_split, (MPI_Comm comm, int color, int order, MPI_Comm *made), (comm, color, order, made))
CREATES(Comm_split_type, (MPI_Comm comm, int type, int order, MPI_Info info, MPI_Comm *made), (comm, type, order, info, made))
CREATES(Comm_create, (MPI_Comm comm, MPI_Group group, MPI_Comm *made), (comm, group, made))
CREATES(Cart_create, (MPI_Comm comm, int n, const int *dims, const int *periods, int reorder, MPI_Comm *made),
        (comm, n, dims, periods, reorder, made))
CREATES(Cart_sub, (MPI_Comm comm, const int *remain, MPI_Comm *made), (comm, remain, made))
CREATES(Graph_create, (MPI_Comm comm, int n, const int *index, const int *edges, int reorder, MPI_Comm *made),
        (comm, n, index, edges, reorder, made))
CREATES(Dist_graph_create, (MPI_Comm comm, int n, const int *sources, const int *degrees, const int *destinations,
                            const int *weights, MPI_Info info, int reorder, MPI_Comm *made),
        (comm, n, sources, degrees, destinations, weights, info, reorder, made))
CREATES(Dist_graph_create_adjacent, (MPI_Comm comm, int in, const int *sources, const int *source_weights, int out,
                                     const int *destinations, const int *weights, MPI_Info info, int reorder, MPI_Comm *made),
        (comm, in, sources, source_weights, out, destinations, weights, info, reorder, made))

/* Only the ranks of the group make this call, so a missing one is not found. */
int MPI_Comm_create_group(MPI_Comm comm, MPI_Group group, int tag, MPI_Comm *made) {
    int result;
    ENTER;
    result = PMPI_Comm_create_group(comm, group, tag, made);
    if (result == MPI_SUCCESS) comm_track(*made);
    return result;
}

int MPI_Intercomm_merge(MPI_Comm comm, int is_high, MPI_Comm *made) {
    int result;
    ENTER;
    result = PMPI_Intercomm_merge(comm, is_high, made);
    if (result == MPI_SUCCESS) comm_track(*made);
    return result;
}

int MPI_Intercomm_create(MPI_Comm comm, int leader, MPI_Comm peers, int remote_leader, int tag, MPI_Comm *made) {
    static int is_printed;
    ENTER;
    if (checker.is_on && checker.me == 0 && !is_printed++)
        fprintf(stderr, "gerfmuod: rank 0: an intercommunicator is created: this library does not watch calls on it\n");
    return PMPI_Intercomm_create(comm, leader, peers, remote_leader, tag, made);
}

/* All ranks number their collective calls alike, so the id is the same at each. The high bit: no id of comm_track has it. */
static uint64_t duplicate_id(const struct comm *comm) {
    uint64_t id = (comm->id ^ (comm->id >> 31)) * 0x9E3779B97F4A7C15u + comm->collectives;
    id = (id ^ (id >> 29)) * 0xD1B54A32D192ED03u;
    return (id ^ (id >> 32)) | (uint64_t)1 << 63;
}

int MPI_Comm_idup(MPI_Comm comm, MPI_Comm *made, MPI_Request *handle) {
    struct comm *old = comm_of(comm);
    struct need need = need_all(1);
    int result;
    ENTER;
    if (!old) return PMPI_Comm_idup(comm, made, handle);
    meeting_begin(old, &need, CALL_Comm_idup, -1, CALLER);
    result = meeting_track(PMPI_Comm_idup(comm, made, handle), &need, "MPI_Comm_idup", CALLER, handle);
    if (result == MPI_SUCCESS) {
        struct request *request = request_find(*handle);
        request->duplicate = made;
        request->duplicate_id = duplicate_id(old);
    }
    return result;
}
