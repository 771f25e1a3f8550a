/* notices.c: which messages were announced to this rank and not received, by communicator and sender. */
#include "check.h"
#include <stdlib.h>

enum { BUCKETS = 256 };
static struct comm *comms[BUCKETS];

static size_t bucket_of(uint64_t id) { return (id * 0x9E3779B97F4A7C15u) >> 56; }

struct comm *comm_by_id(uint64_t id) {
    struct comm **at = &comms[bucket_of(id)], *comm = *at;
    while (comm && comm->id != id) comm = comm->next;
    if (comm) return comm;
    comm = allocate(sizeof *comm);
    comm->id = id;
    comm->handle = MPI_COMM_NULL;
    comm->next = *at;
    return *at = comm;
}

/* Returns the communicator after this one, or the first after NULL. */
struct comm *comm_each(struct comm *after) {
    size_t bucket = 0;
    if (after && after->next) return after->next;
    if (after) bucket = bucket_of(after->id) + 1;
    for (; bucket < BUCKETS; bucket++)
        if (comms[bucket]) return comms[bucket];
    return NULL;
}

/* A notice may come before its communicator, whose size is not known then. */
struct peer *comm_peer(struct comm *comm, int rank) {
    if (rank >= comm->peer_count) {
        int count = rank + 1 > comm->size ? rank + 1 : comm->size;
        comm->peers = reallocate(comm->peers, sizeof *comm->peers * (size_t)count);
        for (int n = comm->peer_count; n < count; n++) comm->peers[n] = (struct peer){0};
        comm->peer_count = count;
    }
    return &comm->peers[rank];
}

/* A communicator that was freed is kept while a message of it is announced and not received, or received and not announced. */
void comm_release(struct comm *comm) {
    struct comm **at = &comms[bucket_of(comm->id)];
    if (--comm->references > 0) return;
    for (int n = 0; n < comm->peer_count; n++)
        if (comm->peers[n].first || comm->peers[n].debts) return;
    while (*at != comm) at = &(*at)->next;
    *at = comm->next;
    free(comm->peers);
    free(comm->world);
    free(comm);
}

static int pay_debt(struct peer *peer, int tag) {
    for (struct debt **at = &peer->debts; *at; at = &(*at)->next) {
        struct debt *debt = *at;
        if (debt->tag != tag) continue;
        *at = debt->next;
        free(debt);
        checker.debts--;
        return 1;
    }
    return 0;
}

static void add_message(struct comm *comm, const struct notice *notice, int source) {
    struct peer *peer = comm_peer(comm, notice->from);
    if (pay_debt(peer, notice->tag)) {
        if (notice->number) synchronous_tell(comm, notice, source, 1);
        return;
    }
    struct message *message = allocate(sizeof *message);
    message->notice = *notice;
    message->source = source;
    if (peer->last) peer->last->next = message;
    else peer->first = message;
    peer->last = message;
    if (notice->number) comm->synchronous++;
    if (comm->synchronous) synchronous_settle(comm);
}

/* Takes the first message from this rank with this tag. All messages of one sender and tag come in the order in which they
 * were sent, so this is the one that the program received. */
static int remove_message(struct comm *comm, int from, int tag) {
    struct peer *peer = comm_peer(comm, from);
    struct message *before = NULL, *message = peer->first;
    for (; message && message->notice.tag != tag; message = message->next) before = message;
    if (!message) return 0;
    if (before) before->next = message->next;
    else peer->first = message->next;
    if (peer->last == message) peer->last = before;
    if (message->notice.number) {
        comm->synchronous--;
        if (!message->is_matched) synchronous_tell(comm, &message->notice, message->source, 1);
    }
    free(message);
    return 1;
}

/* The program received a message. If its notice has not come yet, it is taken when it comes. */
void consume(struct comm *comm, int from, int tag) {
    if (from < 0 || from >= comm->size) return;
    if (!remove_message(comm, from, tag)) {
        struct debt *debt = allocate(sizeof *debt);
        struct peer *peer = comm_peer(comm, from);
        debt->tag = tag;
        debt->next = peer->debts;
        peer->debts = debt;
        checker.debts++;
    }
    if (comm->synchronous) synchronous_settle(comm);
}

/* After the end: forgets the messages that are not to be kept. */
void notices_filter(int (*is_kept)(struct comm *comm, struct peer *peer, struct message *message)) {
    for (struct comm *comm = comm_each(NULL); comm; comm = comm_each(comm))
        for (int rank = 0; rank < comm->peer_count; rank++) {
            struct message **at = &comm->peers[rank].first;
            while (*at) {
                struct message *message = *at;
                if (is_kept(comm, &comm->peers[rank], message)) {
                    at = &message->next;
                } else {
                    *at = message->next;
                    free(message);
                }
            }
        }
}

static void arrived(struct comm *comm, const struct notice *notice) {
    struct peer *peer = comm_peer(comm, notice->from);
    if (notice->number > peer->arrived) {
        peer->arrived = notice->number;
        peer->call = notice->call;
    }
    meeting_mismatch(comm, notice->number, notice->from, notice->call);
}

void notice_take(const struct notice *notice, int source) {
    struct comm *comm;
    if (notice->kind == NOTICE_MATCHED || notice->kind == NOTICE_UNMATCHED) {
        synchronous_matched(notice->number, notice->kind == NOTICE_MATCHED);
        return;
    }
    comm = comm_by_id(notice->communicator);
    if (notice->kind == NOTICE_MESSAGE) add_message(comm, notice, source);
    else if (notice->kind == NOTICE_ARRIVED) arrived(comm, notice);
    else if (notice->kind == NOTICE_PARTITIONS) partitions_announced(comm, notice);
    else if (!remove_message(comm, notice->from, notice->tag)) checker.unseen++;
}

/* Sends a notice to a rank of the communicator. */
void notice_send(struct comm *comm, int to, struct notice notice) {
    notice.communicator = comm->id;
    notice.from = comm->rank;
    checker.notices++;
    if (comm->world[to] == checker.me) notice_take(&notice, checker.me);
    else detector_send(comm->world[to], &notice);
}

void announce_message(struct comm *comm, int to, int tag, int64_t bytes, const void *place, uint32_t number) {
    struct notice notice = {.kind = NOTICE_MESSAGE, .tag = tag, .bytes = bytes, .place = (uintptr_t)place, .number = number};
    if (!comm || to < 0 || to >= comm->size) return; /* MPI_PROC_NULL, or an error that MPI reports */
    notice_send(comm, to, notice);
    detector_glance();
}
