/* synchronous.c: when a synchronous send may end. Such a send ends once a receive that takes its message is posted.
 *
 * Its notice has a number. The receiver sends NOTICE_MATCHED back as long as a posted receive may take the message, and
 * NOTICE_UNMATCHED if none may any more. In between the sender counts as busy. */
#include "check.h"

static struct request *pending;

void synchronous_begin(struct request *request) {
    static uint32_t number;
    if (!++number) number++;
    request->number = number;
    request->is_matched = 0;
    request->earlier = NULL;
    request->later = pending;
    if (pending) pending->earlier = request;
    pending = request;
}

void synchronous_end(struct request *request) {
    if (request->earlier) request->earlier->later = request->later;
    else pending = request->later;
    if (request->later) request->later->earlier = request->earlier;
    request->later = request->earlier = NULL;
}

void synchronous_matched(uint32_t number, int is_matched) {
    for (struct request *request = pending; request; request = request->later)
        if (request->number == number) request->is_matched = is_matched;
}

void synchronous_tell(struct comm *comm, const struct notice *notice, int source, int is_matched) {
    struct notice reply = {.kind = is_matched ? NOTICE_MATCHED : NOTICE_UNMATCHED, .number = notice->number};
    reply.communicator = comm->id;
    if (source == checker.me) synchronous_matched(notice->number, is_matched);
    else detector_send(source, &reply);
}

/* Whether a posted receive may take a message, if this many of the same sender and tag come before it. */
static int may_be_taken(const struct comm *comm, const struct notice *notice, int before) {
    for (const struct request *request = comm->posted; request; request = request->later) {
        if (!matches(request->peer, request->tag, notice)) continue;
        if (request->peer == MPI_ANY_SOURCE || request->tag == MPI_ANY_TAG || request->is_cancelled) return 1;
        if (before-- == 0) return 1;
    }
    return 0;
}

static int count_before(const struct peer *peer, const struct message *message) {
    int count = 0;
    for (const struct message *m = peer->first; m != message; m = m->next) count += m->notice.tag == message->notice.tag;
    return count;
}

/* Whether a receive that is posted, and has not ended here, may take this message. */
int is_taken(const struct comm *comm, const struct peer *peer, const struct message *message) {
    return may_be_taken(comm, &message->notice, count_before(peer, message));
}

/* Informs the synchronous senders of a communicator after its posted receives or announced messages have changed. */
void synchronous_settle(struct comm *comm) {
    for (int rank = 0; rank < comm->peer_count; rank++)
        for (struct message *m = comm->peers[rank].first; m; m = m->next) {
            int is_matched;
            if (!m->notice.number) continue;
            is_matched = is_taken(comm, &comm->peers[rank], m);
            if (is_matched == m->is_matched) continue;
            m->is_matched = is_matched;
            synchronous_tell(comm, &m->notice, m->source, is_matched);
        }
}
