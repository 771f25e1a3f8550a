/* probes.c: probes, and receives of messages that a probe has matched. */
#include "wrapper.h"

static struct wait probe_wait(const char *call, const void *place, struct comm *comm, int from, int tag) {
    return (struct wait){.kind = WAIT_PROBE, .call = call, .place = place, .comm = comm, .from = from, .tag = tag};
}

int MPI_Probe(int from, int tag, MPI_Comm handle, MPI_Status *status) {
    struct comm *comm = comm_of(handle);
    struct wait wait = probe_wait("MPI_Probe", CALLER, comm, from, tag);
    int is_there = 0, result;
    ENTER;
    if (!comm || from == MPI_PROC_NULL) return PMPI_Probe(from, tag, handle, status);
    for (;;) {
        result = PMPI_Iprobe(from, tag, handle, &is_there, status);
        if (result != MPI_SUCCESS) give_up("an MPI call failed");
        if (is_there || result != MPI_SUCCESS) break;
        detector_rest(&wait);
    }
    detector_resume();
    return result;
}

int MPI_Iprobe(int from, int tag, MPI_Comm comm, int *is_there, MPI_Status *status) {
    ENTER;
    if (checker.is_on) detector_glance();
    return PMPI_Iprobe(from, tag, comm, is_there, status);
}

/* A matched probe takes the message out of the queue of MPI, so its notice is taken, too. */
static void take(struct comm *comm, const MPI_Status *own, MPI_Status *status) {
    consume(comm, own->MPI_SOURCE, own->MPI_TAG);
    give_status(status, own);
}

int MPI_Improbe(int from, int tag, MPI_Comm handle, int *is_there, MPI_Message *message, MPI_Status *status) {
    struct comm *comm = comm_of(handle);
    MPI_Status own;
    int result;
    ENTER;
    if (!comm || from == MPI_PROC_NULL) return PMPI_Improbe(from, tag, handle, is_there, message, status);
    detector_glance();
    result = PMPI_Improbe(from, tag, handle, is_there, message, &own);
    if (result == MPI_SUCCESS && *is_there) take(comm, &own, status);
    return result;
}

int MPI_Mprobe(int from, int tag, MPI_Comm handle, MPI_Message *message, MPI_Status *status) {
    struct comm *comm = comm_of(handle);
    struct wait wait = probe_wait("MPI_Mprobe", CALLER, comm, from, tag);
    MPI_Status own;
    int is_there = 0, result;
    ENTER;
    if (!comm || from == MPI_PROC_NULL) return PMPI_Mprobe(from, tag, handle, message, status);
    for (;;) {
        result = PMPI_Improbe(from, tag, handle, &is_there, message, &own);
        if (result != MPI_SUCCESS) give_up("an MPI call failed");
        if (is_there || result != MPI_SUCCESS) break;
        detector_rest(&wait);
    }
    detector_resume();
    if (is_there) take(comm, &own, status);
    return result;
}

/* The message has been matched, and its notice taken: such a receive ends without another notice. */
int MPI_Mrecv(void *to, int count, MPI_Datatype type, MPI_Message *message, MPI_Status *status) {
    ENTER;
    return PMPI_Mrecv(to, count, type, message, status);
}

int MPI_Imrecv(void *to, int count, MPI_Datatype type, MPI_Message *message, MPI_Request *handle) {
    ENTER;
    if (checker.is_on) detector_glance();
    return PMPI_Imrecv(to, count, type, message, handle);
}
