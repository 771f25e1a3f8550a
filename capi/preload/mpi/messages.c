/* messages.c: MPI_Send, MPI_Recv, MPI_Sendrecv and their variants. */
#include "wrapper.h"
#include <stdlib.h>

static struct request *request_of(const struct envelope *e, enum request_kind kind, struct comm *comm) {
    struct request *request = request_new(kind, comm, e->call, e->place);
    request->peer = e->peer;
    request->tag = e->tag;
    request->bytes = bytes_of(e->count, e->type);
    return request;
}

static int failed(struct request *request, int result) {
    give_up("an MPI call failed");
    request_drop(request);
    return result;
}

int start_send(const struct envelope *e, const void *from, send_function *send, struct request **request, MPI_Request *handle) {
    struct comm *comm = comm_of(e->comm);
    int result;
    *request = NULL;
    if (!comm || e->peer < 0 || e->peer >= comm->size) return send(from, e->count, e->type, e->peer, e->tag, e->comm, handle);
    if (is_sync(bytes_of(e->count, e->type)) && send != PMPI_Ibsend) send = PMPI_Issend;
    *request = request_of(e, send == PMPI_Issend ? REQUEST_SYNCHRONOUS : REQUEST_SEND, comm);
    request_start(*request);
    announce_message(comm, e->peer, e->tag, (*request)->bytes, e->place, (*request)->number);
    result = send(from, e->count, e->type, e->peer, e->tag, e->comm, handle);
    return result == MPI_SUCCESS ? result : failed(*request, result);
}

int start_receive(const struct envelope *e, void *to, struct request **request, MPI_Request *handle) {
    struct comm *comm = comm_of(e->comm);
    int result = PMPI_Irecv(to, e->count, e->type, e->peer, e->tag, e->comm, handle);
    *request = NULL;
    if (!comm || result != MPI_SUCCESS || e->peer == MPI_PROC_NULL) return result;
    *request = request_of(e, REQUEST_RECEIVE, comm);
    request_start(*request);
    return result;
}

static int is_watched(MPI_Comm handle, int peer) {
    struct comm *comm = comm_of(handle);
    return comm && peer != MPI_PROC_NULL;
}

#define SENDS(name, nonblocking)                                                                              \
    int MPI_##name(const void *from, int count, MPI_Datatype type, int to, int tag, MPI_Comm comm) {          \
        struct envelope e = {"MPI_" #name, CALLER, count, to, tag, type, comm};                               \
        struct request *request;                                                                              \
        MPI_Request handle;                                                                                   \
        int result;                                                                                           \
        ENTER;                                                                                                \
        if (!is_watched(comm, to)) return PMPI_##name(from, count, type, to, tag, comm);                      \
        result = start_send(&e, from, nonblocking, &request, &handle);                                        \
        return result == MPI_SUCCESS ? request_wait(request, e.call, e.place, &handle, MPI_STATUS_IGNORE) : result;            \
    }
SENDS(Send, PMPI_Isend)
SENDS(Rsend, PMPI_Irsend)
SENDS(Ssend, PMPI_Issend)

int MPI_Bsend(const void *from, int count, MPI_Datatype type, int to, int tag, MPI_Comm comm) {
    int result;
    ENTER;
    announce_message(comm_of(comm), to, tag, bytes_of(count, type), CALLER, 0);
    result = PMPI_Bsend(from, count, type, to, tag, comm);
    if (checker.is_on && result != MPI_SUCCESS) give_up("an MPI call failed");
    return result;
}

static int keep(int result, struct request *request, const MPI_Request *handle) {
    if (request && result == MPI_SUCCESS) request_keep(request, *handle);
    return result;
}

#define SENDS_LATER(name)                                                                                     \
    int MPI_##name(const void *from, int count, MPI_Datatype type, int to, int tag, MPI_Comm comm, MPI_Request *handle) { \
        struct envelope e = {"MPI_" #name, CALLER, count, to, tag, type, comm};                               \
        struct request *request;                                                                              \
        int result;                                                                                           \
        ENTER;                                                                                                \
        result = start_send(&e, from, PMPI_##name, &request, handle);                                         \
        return keep(result, request, handle);                                                                 \
    }
SENDS_LATER(Isend)
SENDS_LATER(Ibsend)
SENDS_LATER(Irsend)
SENDS_LATER(Issend)

int MPI_Irecv(void *to, int count, MPI_Datatype type, int from, int tag, MPI_Comm comm, MPI_Request *handle) {
    struct envelope e = {"MPI_Irecv", CALLER, count, from, tag, type, comm};
    struct request *request;
    int result;
    ENTER;
    result = start_receive(&e, to, &request, handle);
    if (checker.is_on) detector_glance();
    return keep(result, request, handle);
}

int MPI_Recv(void *to, int count, MPI_Datatype type, int from, int tag, MPI_Comm comm, MPI_Status *status) {
    struct envelope e = {"MPI_Recv", CALLER, count, from, tag, type, comm};
    struct request *request;
    MPI_Request handle;
    int result;
    ENTER;
    if (!is_watched(comm, from)) return PMPI_Recv(to, count, type, from, tag, comm, status);
    result = start_receive(&e, to, &request, &handle);
    return result == MPI_SUCCESS ? request_wait(request, e.call, e.place, &handle, status) : result;
}

/* Sends and receives, and waits for both. */
static int exchange(const struct envelope *sent, const void *from, const struct envelope *received, void *to,
                    MPI_Status *status) {
    struct request *requests[2];
    struct wait wait = {.kind = WAIT_ALL, .call = sent->call, .place = sent->place};
    MPI_Request handles[2];
    MPI_Status statuses[2];
    int result = start_receive(received, to, &requests[0], &handles[0]);
    if (result != MPI_SUCCESS) return result;
    result = start_send(sent, from, PMPI_Isend, &requests[1], &handles[1]);
    if (result != MPI_SUCCESS) return result;
    result = wait_all(2, handles, requests, statuses, &wait);
    give_status(status, &statuses[0]);
    return result;
}

int MPI_Sendrecv(const void *from, int count, MPI_Datatype type, int destination, int tag, void *to, int to_count,
                 MPI_Datatype to_type, int source, int to_tag, MPI_Comm comm, MPI_Status *status) {
    struct envelope sent = {"MPI_Sendrecv", CALLER, count, destination, tag, type, comm};
    struct envelope received = {"MPI_Sendrecv", sent.place, to_count, source, to_tag, to_type, comm};
    ENTER;
    if (!comm_of(comm)) {
        return PMPI_Sendrecv(from, count, type, destination, tag, to, to_count, to_type, source, to_tag, comm, status);
    }
    return exchange(&sent, from, &received, to, status);
}

int MPI_Sendrecv_replace(void *buffer, int count, MPI_Datatype type, int destination, int tag, int source, int to_tag,
                         MPI_Comm comm, MPI_Status *status) {
    struct envelope sent = {"MPI_Sendrecv_replace", CALLER, count, destination, tag, type, comm};
    struct envelope received = {"MPI_Sendrecv_replace", sent.place, count, source, to_tag, type, comm};
    int size, at = 0, result;
    char *copy;
    ENTER;
    if (!comm_of(comm)) return PMPI_Sendrecv_replace(buffer, count, type, destination, tag, source, to_tag, comm, status);
    PMPI_Pack_size(count, type, comm, &size);
    copy = allocate((size_t)size);
    PMPI_Pack(buffer, count, type, copy, size, &at, comm);
    sent.count = at;
    sent.type = MPI_PACKED;
    result = exchange(&sent, copy, &received, buffer, status);
    free(copy);
    return result;
}
