/* partitioned.c: partitioned requests of MPI 4. A receive ends once its sender has marked all partitions as ready.
 *
 * A send and a receive are paired when both are created: the nth of a sender, tag and communicator at one side with the nth at
 * the other. Before the last partition of a round goes a notice, and the receive waits for as many notices as it had rounds. */
#include "wrapper.h"

/* How many rounds the senders of a communicator have announced. */
struct rounds {
    struct comm *comm;
    int from, tag;
    uint32_t pair, count;
    struct rounds *next;
};
static struct rounds *announced;

static struct rounds *rounds_of(const struct comm *comm, int from, int tag, uint32_t pair) {
    struct rounds *r = announced;
    while (r && (r->comm != comm || r->from != from || r->tag != tag || r->pair != pair)) r = r->next;
    return r;
}

void partitions_announced(struct comm *comm, const struct notice *notice) {
    struct rounds *r = rounds_of(comm, notice->from, notice->tag, notice->number);
    if (!r) {
        r = allocate(sizeof *r);
        *r = (struct rounds){comm, notice->from, notice->tag, notice->number, 0, announced};
        announced = r;
        comm->references++; /* for ever: its address must stay its own */
    }
    r->count++;
}

int partitions_can_end(const struct request *request) {
    const struct rounds *r = rounds_of(request->comm, request->peer, request->tag, request->number);
    return r && r->count >= request->round;
}

#if MPI_VERSION >= 4
#if defined MPICH_NUMVERSION && MPICH_NUMVERSION < 40100000
typedef int partition_number;
#else
typedef const int partition_number;
#endif

/* One side of a pair: how many requests were created with this peer and tag. */
struct pairing {
    struct comm *comm;
    int is_send, peer, tag;
    uint32_t created;
    struct pairing *next;
};
static struct pairing *pairings;

static uint32_t next_pair(struct comm *comm, int is_send, int peer, int tag) {
    struct pairing *p = pairings;
    while (p && (p->comm != comm || p->is_send != is_send || p->peer != peer || p->tag != tag)) p = p->next;
    if (!p) {
        p = allocate(sizeof *p);
        *p = (struct pairing){comm, is_send, peer, tag, 0, pairings};
        pairings = p;
        comm->references++; /* for ever, as above */
    }
    return ++p->created;
}

static int keep(int result, const struct envelope *e, enum request_kind kind, int partitions, MPI_Request *handle) {
    struct comm *comm = comm_of(e->comm);
    struct request *request;
    if (result != MPI_SUCCESS || !comm || e->peer < 0 || e->peer >= comm->size) return result;
    request = request_new(kind, comm, e->call, e->place);
    request->peer = e->peer;
    request->tag = e->tag;
    request->is_persistent = 1;
    request->partitions = partitions;
    request->number = next_pair(comm, kind == REQUEST_PARTITIONED_SEND, e->peer, e->tag);
    request_keep(request, *handle);
    return result;
}

int MPI_Psend_init(const void *from, int partitions, MPI_Count count, MPI_Datatype type, int to, int tag, MPI_Comm comm,
                   MPI_Info info, MPI_Request *handle) {
    struct envelope e = {"MPI_Psend_init", CALLER, 0, to, tag, type, comm};
    ENTER;
    return keep(PMPI_Psend_init(from, partitions, count, type, to, tag, comm, info, handle), &e, REQUEST_PARTITIONED_SEND,
                partitions, handle);
}

int MPI_Precv_init(void *to, int partitions, MPI_Count count, MPI_Datatype type, int from, int tag, MPI_Comm comm,
                   MPI_Info info, MPI_Request *handle) {
    struct envelope e = {"MPI_Precv_init", CALLER, 0, from, tag, type, comm};
    ENTER;
    return keep(PMPI_Precv_init(to, partitions, count, type, from, tag, comm, info, handle), &e, REQUEST_PARTITIONED_RECEIVE,
                partitions, handle);
}

/* Announces a round before its last partitions are marked. */
static void marking(MPI_Request handle, int count) {
    struct request *request = request_find(handle);
    struct notice notice = {.kind = NOTICE_PARTITIONS};
    if (!request || request->kind != REQUEST_PARTITIONED_SEND || (request->left -= count) > 0) return;
    notice.tag = request->tag;
    notice.number = request->number;
    notice_send(request->comm, request->peer, notice);
}

int MPI_Pready(int partition, MPI_Request handle) {
    ENTER;
    marking(handle, 1);
    return PMPI_Pready(partition, handle);
}

int MPI_Pready_range(int low, int high, MPI_Request handle) {
    ENTER;
    marking(handle, high - low + 1);
    return PMPI_Pready_range(low, high, handle);
}

int MPI_Pready_list(int count, partition_number *partitions, MPI_Request handle) {
    ENTER;
    marking(handle, count);
    return PMPI_Pready_list(count, partitions, handle);
}

int MPI_Parrived(MPI_Request handle, int partition, int *is_there) {
    ENTER;
    if (checker.is_on) detector_glance();
    return PMPI_Parrived(handle, partition, is_there);
}
#endif
