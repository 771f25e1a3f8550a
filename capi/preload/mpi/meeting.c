/* meeting.c: who has come to a collective call, and who must come before it can end.
 *
 * Each rank numbers the collective calls of a communicator, in the order that is the same at all ranks, and announces each to
 * all others. A blocking call waits for all of them, which the standard allows. A `need` has those without whose data the
 * call cannot end in any MPI. If ENDED comes while a rank has all that it needs, the program is not deadlocked for certain, but
 * it relies on what MPI does not guarantee: from then on, calls wait only for what they need. */
#include "wrapper.h"
#include <ctype.h>
#include <stdio.h>
#include <stdlib.h>
#include <string.h>

enum { CALL_SIZE = 80 };

struct need need_all(int has_data) { return (struct need){.count = has_data ? -1 : 0}; }

struct need need_none(void) { return (struct need){.count = 0}; }

struct need need_one(struct comm *comm, int rank, int has_data) {
    return (struct need){.count = has_data && rank != comm->rank, .one = rank};
}

struct need need_ranks(int count, int *ranks) { return (struct need){.count = count, .ranks = ranks}; }

struct need need_below(struct comm *comm, int has_data) {
    int *ranks = allocate(sizeof *ranks * (size_t)(comm->rank + 1));
    for (int n = 0; n < comm->rank; n++) ranks[n] = n;
    return need_ranks(has_data ? comm->rank : 0, ranks);
}

/* The ranks from which at least one byte comes; `types` has one for each rank, or one. */
struct need need_counts(struct comm *comm, const int *counts, const MPI_Datatype *types, int has_one_type) {
    int *ranks = allocate(sizeof *ranks * (size_t)comm->size), count = 0;
    for (int n = 0; n < comm->size; n++) {
        int size = 0;
        if (counts[n] > 0) PMPI_Type_size(types[has_one_type ? 0 : n], &size);
        if (size > 0 && n != comm->rank) ranks[count++] = n;
    }
    return need_ranks(count, ranks);
}

static int call_code(int call, int root) { return call << 16 | ((root + 1) & 0xFFFF); }

/* As in "MPI_Bcast with root 0". */
static void call_text(int code, char *room, size_t size) {
#define CALL_NAME(name) #name,
    static const char *const names[] = {COLLECTIVE_CALLS(CALL_NAME)};
    int call = code >> 16, root = (code & 0xFFFF) - 1;
    const char *name = names[call % CALL_NONBLOCKING];
    char letter[] = {'I', (char)tolower(name[0]), 0};
    snprintf(room, size, "MPI_%s%s%s", call < CALL_NONBLOCKING ? "" : letter, name + (call >= CALL_NONBLOCKING),
             root < 0 ? "" : " with root ");
    if (root >= 0) snprintf(room + strlen(room), size - strlen(room), "%d", root);
}

/* Each rank compares its calls with those of the communicator's rank 0, and rank 0 with those of all. */
void meeting_mismatch(struct comm *comm, uint32_t number, int from, int call) {
    char name[MPI_MAX_OBJECT_NAME], place[PLACE_SIZE], mine[CALL_SIZE], other[CALL_SIZE];
    uint32_t at = number % RECENT_CALLS;
    if (number > comm->collectives || comm->collectives - number >= RECENT_CALLS || comm->calls[at] == call) return;
    if ((comm->rank && from) || comm->is_mismatch_printed++) return;
    call_text(comm->calls[at], mine, sizeof mine);
    call_text(call, other, sizeof other);
    place_text(comm->places[at], place, sizeof place);
    fprintf(stderr, "gerfmuod: MISMATCH: collective call %u of %s: rank %d calls %s at %s, rank %d calls %s\n", number,
            comm_name(comm, name, sizeof name), checker.me, mine, place, comm->world[from], other);
    if (checker.is_strict) end_job(DEADLOCK_STATUS);
}

static void tell_others(const struct need *need, int code) {
    struct notice notice = {.kind = NOTICE_ARRIVED, .number = need->number, .call = code};
    for (int n = 0; n < need->comm->size; n++)
        if (n != need->comm->rank) notice_send(need->comm, n, notice);
}

/* Numbers the call, and announces it. In the mode `sync` no call can end before all have come. */
void meeting_begin(struct comm *comm, struct need *need, int call, int root, const void *place) {
    need->comm = comm;
    need->number = ++comm->collectives;
    comm->calls[need->number % RECENT_CALLS] = call_code(call, root);
    comm->places[need->number % RECENT_CALLS] = place;
    if (checker.is_sync) need->count = -1;
    for (int n = 0; n < comm->peer_count; n++)
        if (comm->peers[n].arrived == need->number) meeting_mismatch(comm, need->number, n, comm->peers[n].call);
    tell_others(need, call_code(call, root));
}

/* Waits until all have come, and then the program's call is made as it is. */
void meeting_wait(struct need *need, const char *name, const void *place) {
    struct wait wait = {.kind = WAIT_MEETING, .call = name, .place = place, .need = need};
    while (detector_poll()) {}
    while (!checker.is_blind && !can_end(&wait)) detector_rest(&wait);
    detector_resume();
    free(need->ranks);
    need->ranks = NULL;
}

/* Keeps the request of a nonblocking collective call. */
int meeting_track(int result, struct need *need, const char *name, const void *place, MPI_Request *handle) {
    struct request *request;
    if (result != MPI_SUCCESS) {
        give_up("a collective call failed");
        free(need->ranks);
        return result;
    }
    request = request_new(REQUEST_COLLECTIVE, need->comm, name, place);
    request->need = *need;
    request_keep(request, *handle);
    request_start(request);
    detector_glance();
    return result;
}
