/* waits.c: MPI_Wait, MPI_Test and their variants for several requests. */
#include "wrapper.h"
#include <stdlib.h>

enum { FEW = 16 };

/* The requests of a call. */
struct batch {
    int count;
    struct request **all; /* NULL: not known, or MPI_REQUEST_NULL */
    MPI_Status *statuses;
    struct request *few[FEW];
    MPI_Status few_statuses[FEW];
};

static void batch_open(struct batch *batch, int count, const MPI_Request *handles) {
    int is_few = count <= FEW;
    *batch = (struct batch){.count = count};
    batch->all = is_few ? batch->few : allocate(sizeof *batch->all * (size_t)count);
    batch->statuses = is_few ? batch->few_statuses : allocate(sizeof *batch->statuses * (size_t)count);
    for (int n = 0; n < count; n++) {
        batch->all[n] = request_find(handles[n]);
        if (batch->all[n]) batch->all[n]->is_claimed = 1;
    }
    for (int n = 0; n < count; n++)
        if (batch->all[n]) batch->all[n]->is_claimed = 0;
}

static void batch_close(struct batch *batch) {
    if (batch->all == batch->few) return;
    free(batch->all);
    free(batch->statuses);
}

static void completed(struct batch *batch, int count, const int *indices, MPI_Status *statuses) {
    for (int n = 0; n < count; n++) {
        int index = indices ? indices[n] : n;
        request_complete(batch->all[index], &batch->statuses[n]);
        if (statuses != MPI_STATUSES_IGNORE) statuses[n] = batch->statuses[n];
    }
}

/* What the call waits for: requests that are active, and those that are not known. */
static struct wait wait_of(enum wait_kind kind, const char *call, const void *place, int count, const MPI_Request *handles,
                           struct request **all) {
    struct wait wait = {.kind = kind, .call = call, .place = place};
    wait.requests = allocate(sizeof *wait.requests * (size_t)(count + 1));
    for (int n = 0; n < count; n++)
        if (handles[n] != MPI_REQUEST_NULL && (!all[n] || all[n]->is_active)) wait.requests[wait.count++] = all[n];
    return wait;
}

static int checked(int result) {
    if (result != MPI_SUCCESS) give_up("an MPI call failed");
    return result;
}

/* MPI_Testall of MPICH 4.0.2 fails for partitioned requests, so a call that has some waits for one request after the other. */
static int wait_each(int count, MPI_Request *handles, struct request **requests, MPI_Status *statuses, const struct wait *wait) {
    int result = MPI_SUCCESS;
    for (int n = 0; n < count && result == MPI_SUCCESS; n++) {
        if (requests[n]) result = request_wait(requests[n], wait->call, wait->place, &handles[n], &statuses[n]);
        else result = checked(PMPI_Wait(&handles[n], &statuses[n]));
    }
    return result;
}

int wait_all(int count, MPI_Request *handles, struct request **requests, MPI_Status *statuses, struct wait *wait) {
    int is_done = 0, result;
    for (int n = 0; n < count; n++)
        if (requests[n] && requests[n]->partitions) return wait_each(count, handles, requests, statuses, wait);
    result = checked(PMPI_Testall(count, handles, &is_done, statuses));
    if (!is_done && result == MPI_SUCCESS) {
        *wait = wait_of(wait->kind, wait->call, wait->place, count, handles, requests);
        while (!is_done && result == MPI_SUCCESS) {
            detector_rest(wait);
            result = checked(PMPI_Testall(count, handles, &is_done, statuses));
        }
        free(wait->requests);
    }
    detector_resume();
    for (int n = 0; n < count && result == MPI_SUCCESS; n++) request_complete(requests[n], &statuses[n]);
    return result;
}

int MPI_Wait(MPI_Request *handle, MPI_Status *status) {
    struct request *request;
    ENTER;
    request = request_find(*handle);
    if (!request || !request->is_active) return PMPI_Wait(handle, status);
    return request_wait(request, "MPI_Wait", CALLER, handle, status);
}

int MPI_Waitall(int count, MPI_Request *handles, MPI_Status *statuses) {
    struct batch batch;
    struct wait wait = {.kind = WAIT_ALL, .call = "MPI_Waitall", .place = CALLER};
    int result;
    ENTER;
    if (!checker.is_on) return PMPI_Waitall(count, handles, statuses);
    batch_open(&batch, count, handles);
    result = wait_all(count, handles, batch.all, batch.statuses, &wait);
    for (int n = 0; n < count && statuses != MPI_STATUSES_IGNORE; n++) statuses[n] = batch.statuses[n];
    batch_close(&batch);
    return result;
}

int MPI_Waitany(int count, MPI_Request *handles, int *index, MPI_Status *status) {
    struct batch batch;
    struct wait wait;
    int result, is_done = 0;
    ENTER;
    if (!checker.is_on) return PMPI_Waitany(count, handles, index, status);
    batch_open(&batch, count, handles);
    wait = wait_of(WAIT_ANY, "MPI_Waitany", CALLER, count, handles, batch.all);
    for (;;) {
        result = checked(PMPI_Testany(count, handles, index, &is_done, &batch.statuses[0]));
        if (is_done || result != MPI_SUCCESS) break;
        detector_rest(&wait);
    }
    detector_resume();
    give_status(status, &batch.statuses[0]);
    if (is_done && result == MPI_SUCCESS && *index != MPI_UNDEFINED) completed(&batch, 1, index, MPI_STATUSES_IGNORE);
    free(wait.requests);
    batch_close(&batch);
    return result;
}

int MPI_Waitsome(int count, MPI_Request *handles, int *done, int *indices, MPI_Status *statuses) {
    struct batch batch;
    struct wait wait;
    int result;
    ENTER;
    if (!checker.is_on) return PMPI_Waitsome(count, handles, done, indices, statuses);
    batch_open(&batch, count, handles);
    wait = wait_of(WAIT_ANY, "MPI_Waitsome", CALLER, count, handles, batch.all);
    for (;;) {
        result = checked(PMPI_Testsome(count, handles, done, indices, batch.statuses));
        if (*done || result != MPI_SUCCESS) break;
        detector_rest(&wait);
    }
    detector_resume();
    if (result == MPI_SUCCESS && *done != MPI_UNDEFINED) completed(&batch, *done, indices, statuses);
    free(wait.requests);
    batch_close(&batch);
    return result;
}

int MPI_Test(MPI_Request *handle, int *is_done, MPI_Status *status) {
    struct request *request;
    MPI_Status own;
    int result;
    ENTER;
    if (!checker.is_on) return PMPI_Test(handle, is_done, status);
    detector_glance();
    request = request_find(*handle);
    result = checked(PMPI_Test(handle, is_done, &own));
    if (*is_done) request_complete(request, &own);
    if (*is_done) give_status(status, &own);
    return result;
}

int MPI_Testall(int count, MPI_Request *handles, int *is_done, MPI_Status *statuses) {
    struct batch batch;
    int result;
    ENTER;
    if (!checker.is_on) return PMPI_Testall(count, handles, is_done, statuses);
    detector_glance();
    batch_open(&batch, count, handles);
    result = checked(PMPI_Testall(count, handles, is_done, batch.statuses));
    if (*is_done && result == MPI_SUCCESS) completed(&batch, count, NULL, statuses);
    batch_close(&batch);
    return result;
}

int MPI_Testany(int count, MPI_Request *handles, int *index, int *is_done, MPI_Status *status) {
    struct batch batch;
    int result;
    ENTER;
    if (!checker.is_on) return PMPI_Testany(count, handles, index, is_done, status);
    detector_glance();
    batch_open(&batch, count, handles);
    result = checked(PMPI_Testany(count, handles, index, is_done, &batch.statuses[0]));
    if (*is_done) give_status(status, &batch.statuses[0]);
    if (*is_done && result == MPI_SUCCESS && *index != MPI_UNDEFINED) completed(&batch, 1, index, MPI_STATUSES_IGNORE);
    batch_close(&batch);
    return result;
}

int MPI_Testsome(int count, MPI_Request *handles, int *done, int *indices, MPI_Status *statuses) {
    struct batch batch;
    int result;
    ENTER;
    if (!checker.is_on) return PMPI_Testsome(count, handles, done, indices, statuses);
    detector_glance();
    batch_open(&batch, count, handles);
    result = checked(PMPI_Testsome(count, handles, done, indices, batch.statuses));
    if (result == MPI_SUCCESS && *done != MPI_UNDEFINED) completed(&batch, *done, indices, statuses);
    batch_close(&batch);
    return result;
}
