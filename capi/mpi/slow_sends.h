/* slow_sends.h: an MPI whose sends complete late, by the profiling interface: every third send is complete only after some calls of
 * MPI_Test, or once MPI_Wait was called. A program that writes to the buffer of a send before that is ended. For programs whose main
 * thread alone calls MPI, and sends what is in one place, in one source. */
#ifndef SLOW_SENDS_H
#define SLOW_SENDS_H

#include <mpi.h>
#include <stdio.h>
#include <stdlib.h>
#include <string.h>

enum { TESTS_OF_A_SLOW_SEND = 100 };

/* A send that is not complete: where its buffer is, its size, and what it had. It is known by the place of its request: an MPI may give
 * several the same one. */
typedef struct slow_send {
    const MPI_Request *request;
    int tests;
    size_t size;
    const void *at;
    void *had;
    struct slow_send *next;
} slow_send;

static slow_send *slow_sends;
static unsigned sends;

static void *allocated(size_t size) {
    void *block = malloc(size + 1);
    if (!block) MPI_Abort(MPI_COMM_WORLD, 2);
    return block;
}

int MPI_Isend(const void *at, int count, MPI_Datatype type, int to, int tag, MPI_Comm communicator, MPI_Request *request) {
    slow_send *s = allocated(sizeof *s);
    int unit;
    MPI_Type_size(type, &unit);
    *s = (slow_send){request, sends++ % 3 ? 0 : TESTS_OF_A_SLOW_SEND, (size_t)count * (size_t)unit, at, NULL, slow_sends};
    s->had = allocated(s->size);
    if (s->size) memcpy(s->had, at, s->size);
    slow_sends = s;
    return PMPI_Isend(at, count, type, to, tag, communicator, request);
}

static slow_send **find_send(const MPI_Request *request) {
    slow_send **at = &slow_sends;
    while (*at && (*at)->request != request) at = &(*at)->next;
    return at;
}

/* Compares the buffer of a send that is complete. */
static void end_send(slow_send **at) {
    slow_send *s = *at;
    if (s->size && memcmp(s->had, s->at, s->size) != 0) {
        fprintf(stderr, "a buffer was written before its send was complete\n");
        MPI_Abort(MPI_COMM_WORLD, 4);
    }
    *at = s->next;
    free(s->had), free(s);
}

int MPI_Test(MPI_Request *request, int *is_complete, MPI_Status *status) {
    slow_send **at = find_send(request);
    if (*at && (*at)->tests) return (*at)->tests--, *is_complete = 0, MPI_SUCCESS;
    int result = PMPI_Test(request, is_complete, status);
    if (*at && *is_complete) end_send(at);
    return result;
}

int MPI_Wait(MPI_Request *request, MPI_Status *status) {
    slow_send **at = find_send(request);
    int result = PMPI_Wait(request, status);
    if (*at) end_send(at);
    return result;
}

#endif
