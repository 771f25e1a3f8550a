/* matching.c: whether the notices that have come may end a blocking call. If in doubt, they may. */
#include "check.h"

void posted_add(struct request *request) {
    struct comm *comm = request->comm;
    request->later = NULL;
    request->earlier = comm->newest;
    if (comm->newest) comm->newest->later = request;
    else comm->posted = request;
    comm->newest = request;
    if (comm->synchronous) synchronous_settle(comm);
}

void posted_remove(struct request *request) {
    struct comm *comm = request->comm;
    if (request->earlier) request->earlier->later = request->later;
    else comm->posted = request->later;
    if (request->later) request->later->earlier = request->earlier;
    else comm->newest = request->earlier;
    request->later = request->earlier = NULL;
}

int matches(int from, int tag, const struct notice *notice) {
    return (from == MPI_ANY_SOURCE || from == notice->from) && (tag == MPI_ANY_TAG || tag == notice->tag);
}

/* How many receives with this source and tag are posted before `before`, or at all if it is NULL. One that is being cancelled
 * may take no message. */
static int count_posted(const struct comm *comm, int from, int tag, const struct request *before) {
    int count = 0;
    for (const struct request *r = comm->posted; r && r != before; r = r->later)
        count += r->peer == from && r->tag == tag && !r->is_cancelled;
    return count;
}

static int count_messages(const struct peer *peer, int tag) {
    int count = 0;
    for (const struct message *m = peer->first; m; m = m->next) count += m->notice.tag == tag;
    return count;
}

/* Whether a message that was announced may come to a receive or a probe.
 *
 * It gets a message of one sender and tag only after each earlier receive of just these has taken one, so there must be more
 * such messages than receives. For the same reason there must be more messages that match it than earlier receives with the
 * same wildcards. */
static int may_receive(const struct comm *comm, int from, int tag, const struct request *before) {
    int all = 0, is_open = 0, earlier = count_posted(comm, from, tag, before);
    for (int rank = 0; rank < comm->peer_count; rank++) {
        const struct peer *peer = &comm->peers[rank];
        if (from != MPI_ANY_SOURCE && rank != from) continue;
        for (const struct message *m = peer->first; m; m = m->next) {
            if (!matches(from, tag, &m->notice)) continue;
            all++;
            if (!is_open) is_open = count_messages(peer, m->notice.tag) > count_posted(comm, rank, m->notice.tag, before);
        }
    }
    return is_open && all > earlier;
}

int has_arrived(const struct need *need, int rank) {
    return rank < need->comm->peer_count && need->comm->peers[rank].arrived >= need->number;
}

int meeting_can_end(const struct need *need) {
    int all = need->count < 0 ? need->comm->size : need->count;
    for (int n = 0; n < all; n++) {
        int rank = need->count < 0 ? n : need->ranks ? need->ranks[n] : need->one;
        if (rank != need->comm->rank && !has_arrived(need, rank)) return 0;
    }
    return 1;
}

/* A blocking collective call waits here for all, as the standard allows. */
struct need meeting_need(const struct need *need) {
    struct need all = {.comm = need->comm, .number = need->number, .count = -1};
    return checker.is_loose ? *need : all;
}

static int can_meet(const struct need *need) {
    struct need missing = meeting_need(need);
    return meeting_can_end(&missing);
}

static int request_can_end(const struct request *request) {
    if (!request || !request->is_active || request->is_cancelled || request->is_received) return 1;
    if (request->kind == REQUEST_RECEIVE) return may_receive(request->comm, request->peer, request->tag, request);
    if (request->kind == REQUEST_SYNCHRONOUS) return request->is_matched;
    if (request->kind == REQUEST_COLLECTIVE) return meeting_can_end(&request->need);
    if (request->kind == REQUEST_PARTITIONED_RECEIVE) return partitions_can_end(request);
    return 1;
}

static int requests_can_end(struct wait *wait) {
    int is_any = wait->kind == WAIT_ANY;
    if (wait->count && request_can_end(wait->requests[wait->deciding]) == is_any) return is_any;
    for (int n = 0; n < wait->count; n++) {
        if (request_can_end(wait->requests[n]) != is_any) continue;
        wait->deciding = n;
        return is_any;
    }
    return !is_any;
}

int can_end(struct wait *wait) {
    switch (wait->kind) {
    case WAIT_ALL:
    case WAIT_ANY: return requests_can_end(wait);
    case WAIT_PROBE: return may_receive(wait->comm, wait->from, wait->tag, NULL);
    case WAIT_MEETING: return can_meet(wait->need);
    default: return 0;
    }
}
