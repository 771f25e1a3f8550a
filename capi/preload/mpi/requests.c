/* requests.c: what this library knows of each request, found by its handle. */
#include "check.h"
#include <stdlib.h>

enum { BUCKETS = 4096 };
static struct request *table[BUCKETS], *spare;
/* Receives that the program freed before their ends: MPI still gives them messages. */
static struct request *freed;

static struct request **bucket_of(MPI_Request handle) {
    return &table[((uint64_t)(uintptr_t)handle * 0x9E3779B97F4A7C15u) >> 52];
}

struct request *request_new(enum request_kind kind, struct comm *comm, const char *call, const void *place) {
    struct request *request = spare;
    if (request) spare = request->chain;
    else request = allocate(sizeof *request);
    *request = (struct request){.handle = MPI_REQUEST_NULL, .kind = kind, .comm = comm, .call = call, .place = place};
    comm->references++;
    return request;
}

/* Enters a request into the table. An MPI may give several completed sends the same handle; any of them is as good. */
void request_keep(struct request *request, MPI_Request handle) {
    struct request **at = bucket_of(handle);
    request->handle = handle;
    request->chain = *at;
    *at = request;
}

struct request *request_find(MPI_Request handle) {
    struct request *request;
    if (!checker.is_on || handle == MPI_REQUEST_NULL) return NULL;
    request = *bucket_of(handle);
    while (request && (request->handle != handle || request->is_claimed)) request = request->chain;
    return request;
}

void request_start(struct request *request) {
    request->is_active = 1;
    request->is_cancelled = request->is_received = 0;
    request->round++;
    request->left = request->partitions;
    if (request->kind == REQUEST_RECEIVE) posted_add(request);
    if (request->kind == REQUEST_SYNCHRONOUS) synchronous_begin(request);
}

void request_stop(struct request *request) {
    if (!request->is_active) return;
    request->is_active = 0;
    if (request->kind == REQUEST_RECEIVE && !request->is_received) posted_remove(request);
    if (request->kind == REQUEST_SYNCHRONOUS) synchronous_end(request);
}

void request_drop(struct request *request) {
    struct request **at = bucket_of(request->handle);
    request_stop(request);
    while (*at && *at != request) at = &(*at)->chain;
    if (*at) *at = request->chain;
    free(request->need.ranks);
    comm_release(request->comm);
    request->chain = spare;
    spare = request;
}

static void withdraw(struct request *request) {
    struct notice notice = {.kind = NOTICE_WITHDRAWN, .tag = request->tag};
    notice_send(request->comm, request->peer, notice);
}

/* A request has completed, as its status says. This rank is active. */
void request_complete(struct request *request, const MPI_Status *status) {
    int is_cancelled = 0;
    if (!request || !request->is_active) return;
    request_stop(request);
    if (request->is_cancelled) PMPI_Test_cancelled(status, &is_cancelled);
    if (request->kind == REQUEST_RECEIVE && is_cancelled && request->comm->synchronous) synchronous_settle(request->comm);
    if (request->kind == REQUEST_RECEIVE && !is_cancelled && !request->is_received)
        consume(request->comm, status->MPI_SOURCE, status->MPI_TAG);
    if ((request->kind == REQUEST_SEND || request->kind == REQUEST_SYNCHRONOUS) && is_cancelled) withdraw(request);
    if (request->duplicate) comm_track_as(*request->duplicate, request->duplicate_id);
    if (!request->is_persistent) request_drop(request);
}

/* The program frees an active receive: this library keeps it until it ends, to know which message it got. */
void request_free_later(MPI_Request handle, struct request *request) {
    struct request **at = bucket_of(request->handle);
    while (*at && *at != request) at = &(*at)->chain;
    if (*at) *at = request->chain;
    request->handle = handle;
    request->chain = freed;
    freed = request;
}

void requests_freed_poll(void) {
    for (struct request **at = &freed; *at;) {
        struct request *request = *at;
        MPI_Request handle = request->handle;
        MPI_Status status;
        int is_done;
        PMPI_Test(&request->handle, &is_done, &status);
        if (!is_done) {
            at = &request->chain;
            continue;
        }
        *at = request->chain;
        if (request->is_persistent) PMPI_Request_free(&handle);
        request->is_persistent = 0;
        request_complete(request, &status);
    }
}

/* Which message a receive with a wildcard gets cannot be seen in the notices. If it has got one, this is noted, also while the
 * program has not completed it: the message is not for others then. */
void wildcards_poll(void) {
    for (struct comm *comm = comm_each(NULL); comm; comm = comm_each(comm))
        for (struct request *request = comm->posted, *later; request; request = later) {
            int is_done, is_cancelled;
            MPI_Status status;
            later = request->later;
            if ((request->peer != MPI_ANY_SOURCE && request->tag != MPI_ANY_TAG) || request->is_cancelled) continue;
            if (request->handle == MPI_REQUEST_NULL) continue; /* the call that waits tests it itself */
            PMPI_Request_get_status(request->handle, &is_done, &status);
            if (is_done) PMPI_Test_cancelled(&status, &is_cancelled);
            if (!is_done || is_cancelled) continue;
            posted_remove(request);
            request->is_received = 1;
            consume(comm, status.MPI_SOURCE, status.MPI_TAG);
        }
}

/* Waits for one request. */
int request_wait(struct request *request, const char *call, const void *place, MPI_Request *handle, MPI_Status *status) {
    struct wait wait = {.kind = WAIT_ALL, .call = call, .place = place, .count = 1, .requests = &request};
    MPI_Status own;
    int is_done, result;
    if (status == MPI_STATUS_IGNORE) status = &own;
    for (;;) {
        result = PMPI_Test(handle, &is_done, status);
        if (result != MPI_SUCCESS) give_up("an MPI call failed");
        if (is_done || result != MPI_SUCCESS) break;
        detector_rest(&wait);
    }
    detector_resume();
    request_complete(request, status);
    return result;
}
