/* persistent.c: persistent requests, MPI_Cancel and MPI_Request_free. */
#include "wrapper.h"

typedef int init_function(const void *, int, MPI_Datatype, int, int, MPI_Comm, MPI_Request *);

/* Keeps an inactive request. */
static int keep_inactive(int result, const struct envelope *e, enum request_kind kind, MPI_Request *handle) {
    struct comm *comm = comm_of(e->comm);
    struct request *request;
    if (result != MPI_SUCCESS || !comm || e->peer == MPI_PROC_NULL) return result;
    request = request_new(kind, comm, e->call, e->place);
    request->peer = e->peer;
    request->tag = e->tag;
    request->bytes = bytes_of(e->count, e->type);
    request->is_persistent = 1;
    request_keep(request, *handle);
    return result;
}

static int init_send(const struct envelope *e, const void *from, init_function *init, MPI_Request *handle) {
    if (checker.is_on && is_sync(bytes_of(e->count, e->type)) && init != PMPI_Bsend_init) init = PMPI_Ssend_init;
    return keep_inactive(init(from, e->count, e->type, e->peer, e->tag, e->comm, handle), e,
                         init == PMPI_Ssend_init ? REQUEST_SYNCHRONOUS : REQUEST_SEND, handle);
}

#define INITS(name)                                                                                           \
    int MPI_##name(const void *from, int count, MPI_Datatype type, int to, int tag, MPI_Comm comm, MPI_Request *handle) { \
        struct envelope e = {"MPI_" #name, CALLER, count, to, tag, type, comm};                               \
        ENTER;                                                                                                \
        return init_send(&e, from, PMPI_##name, handle);                                                      \
    }
INITS(Send_init)
INITS(Bsend_init)
INITS(Rsend_init)
INITS(Ssend_init)

int MPI_Recv_init(void *to, int count, MPI_Datatype type, int from, int tag, MPI_Comm comm, MPI_Request *handle) {
    struct envelope e = {"MPI_Recv_init", CALLER, count, from, tag, type, comm};
    ENTER;
    return keep_inactive(PMPI_Recv_init(to, count, type, from, tag, comm, handle), &e, REQUEST_RECEIVE, handle);
}

static void starting(MPI_Request handle) {
    struct request *request = request_find(handle);
    if (!request || request->is_active) return;
    request_start(request);
    if (request->kind != REQUEST_SEND && request->kind != REQUEST_SYNCHRONOUS) return;
    announce_message(request->comm, request->peer, request->tag, request->bytes, request->place, request->number);
}

int MPI_Start(MPI_Request *handle) {
    ENTER;
    starting(*handle);
    return PMPI_Start(handle);
}

int MPI_Startall(int count, MPI_Request *handles) {
    ENTER;
    for (int n = 0; n < count; n++) starting(handles[n]);
    return PMPI_Startall(count, handles);
}

int MPI_Cancel(MPI_Request *handle) {
    struct request *request;
    ENTER;
    request = request_find(*handle);
    if (request) request->is_cancelled = 1;
    if (request && request->kind == REQUEST_RECEIVE && request->comm->synchronous) synchronous_settle(request->comm);
    return PMPI_Cancel(handle);
}

int MPI_Request_free(MPI_Request *handle) {
    struct request *request;
    ENTER;
    request = request_find(*handle);
    if (request && request->is_active && (request->kind == REQUEST_RECEIVE || request->is_cancelled)) {
        request_free_later(*handle, request);
        *handle = MPI_REQUEST_NULL;
        return MPI_SUCCESS;
    }
    if (request) request_drop(request);
    return PMPI_Request_free(handle);
}
