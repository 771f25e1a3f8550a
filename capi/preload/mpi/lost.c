/* lost.c: whether a message that was announced and not received is really there, so that none is called lost by mistake.
 *
 * All ranks are in MPI_Finalize. A lost message is in the queue of MPI, and is taken out of it. One that is not there was taken
 * by a receive that the program never completed, or by a call that this library does not see. */
#include "check.h"
#include <stdlib.h>

/* For all messages of a rank: what MPI has not by then does not come. */
static const double SEARCH_SECONDS = 2;
static double search_until;

static void take(MPI_Message *found, const MPI_Status *status) {
    int bytes;
    void *room;
    PMPI_Get_count(status, MPI_BYTE, &bytes);
    room = allocate((size_t)(bytes > 0 ? bytes : 0));
    PMPI_Mrecv(room, bytes, MPI_BYTE, found, MPI_STATUS_IGNORE);
    free(room);
}

static int is_in_queue(struct comm *comm, struct peer *peer, struct message *message) {
    const struct notice *notice = &message->notice;
    MPI_Message found;
    MPI_Status status;
    int is_there = 0;
    if (comm->handle == MPI_COMM_NULL) return 1; /* its receiver has freed the communicator, so it cannot be received */
    if (is_taken(comm, peer, message)) return 0;
    do PMPI_Improbe(notice->from, notice->tag, comm->handle, &is_there, &found, &status);
    while (!is_there && seconds() < search_until);
    if (is_there) take(&found, &status);
    return is_there;
}

void lost_verify(void) {
    requests_freed_poll();
    search_until = seconds() + SEARCH_SECONDS;
    notices_filter(is_in_queue);
}
