/* rank_events.h: what each process of uts_mpi.c did and when, as Chrome's trace events: one file, with a track for the search and
 * one for the detector of each process. The times of a process are moved by one offset, so that they are those of process 0. */
#ifndef RANK_EVENTS_H
#define RANK_EVENTS_H
#include "wave_log.h"
#include <inttypes.h>
#include <mpi.h>
#include <stdbool.h>
#include <stdio.h>
#include <stdlib.h>
#include <string.h>

enum { EVENTS_KEPT = 1 << 16, CLOCK = 5, EVENTS = 6, TRIPS = 20 };

/* A search: from work that came to the lack of it. A message with work: sent to, or received from, another process. A wave. */
enum event_kind { SEARCHED, SENT_WORK, RECEIVED_WORK, WAVE, KNOWN };
typedef struct rank_event {
    uint64_t begin, end;
    uint64_t number; /* of a message between these two processes, or of a wave */
    uint64_t sent, received;
    uint32_t kind, other;
} rank_event;

typedef struct rank_events {
    rank_event *kept; /* NULL if nothing is recorded */
    uint64_t count, *messages_to, *messages_from;
    uint64_t search_begun; /* 0: no search */
} rank_events;

static void add_event(rank_events *events, rank_event event) {
    if (event.end < event.begin) event.end = event.begin;
    events->kept[events->count++ % EVENTS_KEPT] = event;
}

static void *zeros(size_t count, size_t size) {
    void *block = calloc(count, size);
    if (!block) MPI_Abort(MPI_COMM_WORLD, 9);
    return block;
}

static void open_events(rank_events *events, int processes) {
    events->kept = zeros(EVENTS_KEPT + WAVES_KEPT + 1, sizeof *events->kept); /* the waves follow at the end */
    events->messages_to = zeros((size_t)processes, sizeof(uint64_t));
    events->messages_from = zeros((size_t)processes, sizeof(uint64_t));
}

static void note_search(rank_events *events, bool begins) {
    if (!events->kept) return;
    uint64_t now = nanoseconds_now();
    if (events->search_begun) add_event(events, (rank_event){.begin = events->search_begun, .end = now, .kind = SEARCHED});
    events->search_begun = begins ? now : 0;
}

/* Call it within a search. Messages between two processes with one tag come in their order, so both count the same number. */
static void note_message(rank_events *events, enum event_kind kind, int other) {
    if (!events->kept) return;
    uint64_t now = nanoseconds_now(), *numbers = kind == SENT_WORK ? events->messages_to : events->messages_from;
    add_event(events, (rank_event){.begin = now, .end = now, .number = numbers[other]++, .kind = kind, .other = (uint32_t)other});
}

/* Returns what process 0 has to add to the times of another one: a reply counts as written in the middle of its round trip, and
 * the shortest trip counts. Each process calls it at the same time. */
static int64_t clock_offset(int me, int processes) {
    int64_t offset = 0;
    for (int other = 1; other < processes; other++) {
        uint64_t shortest = UINT64_MAX, theirs = 0;
        for (int trip = 0; trip < TRIPS; trip++) {
            uint64_t sent = nanoseconds_now();
            if (me == 0) {
                MPI_Send(&sent, 1, MPI_UINT64_T, other, CLOCK, MPI_COMM_WORLD);
                MPI_Recv(&theirs, 1, MPI_UINT64_T, other, CLOCK, MPI_COMM_WORLD, MPI_STATUS_IGNORE);
                uint64_t took = nanoseconds_now() - sent;
                if (took < shortest) shortest = took, offset = (int64_t)(sent + took / 2 - theirs);
            } else if (me == other) {
                MPI_Recv(&sent, 1, MPI_UINT64_T, 0, CLOCK, MPI_COMM_WORLD, MPI_STATUS_IGNORE);
                theirs = nanoseconds_now();
                MPI_Send(&theirs, 1, MPI_UINT64_T, 0, CLOCK, MPI_COMM_WORLD);
            }
        }
        if (me == 0) MPI_Send(&offset, 1, MPI_INT64_T, other, CLOCK, MPI_COMM_WORLD);
        else if (me == other) MPI_Recv(&offset, 1, MPI_INT64_T, 0, CLOCK, MPI_COMM_WORLD, MPI_STATUS_IGNORE);
    }
    return me ? offset : 0;
}

/* ---- the file, which process 0 writes */

static void write_event(FILE *file, const char *phase, int rank, int track, uint64_t at) {
    fprintf(file, ",\n{\"ph\":\"%s\",\"pid\":%d,\"tid\":%d", phase, rank, track);
    fprintf(file, ",\"ts\":%" PRIu64 ".%03u", at / 1000, (unsigned)(at % 1000));
}

static void write_slice(FILE *file, int rank, int track, const rank_event *event, uint64_t begin) {
    uint64_t took = event->end - event->begin;
    write_event(file, "X", rank, track, begin);
    fprintf(file, ",\"dur\":%" PRIu64 ".%03u", took / 1000, (unsigned)(took % 1000));
}

/* Returns the number of an arrow, which is unique below 65,536 processes and 2^32 messages from one to another. */
static uint64_t id_of(uint64_t from, uint64_t to, uint64_t number) { return from << 48 | to << 32 | (number & UINT32_MAX); }

/* Writes an event, whose time is moved by `shift`. */
static void write_rank_event(FILE *file, int rank, const rank_event *event, int64_t shift) {
    int64_t moved = (int64_t)event->begin + shift;
    uint64_t at = moved > 0 ? (uint64_t)moved : 0; /* an offset is not exact */
    unsigned own = (unsigned)rank, from = event->kind == SENT_WORK ? own : event->other, to = from == own ? event->other : own;
    switch (event->kind) {
    case SEARCHED:
        write_slice(file, rank, 1, event, at);
        fprintf(file, ",\"name\":\"search\"}");
        break;
    case WAVE:
        write_slice(file, rank, 2, event, at);
        fprintf(file, ",\"name\":\"wave %" PRIu64 "\",\"args\":{\"wave\":%" PRIu64 ",\"sent\":%" PRIu64 ",\"received\":%" PRIu64 "}}",
                event->number, event->number, event->sent, event->received);
        break;
    case KNOWN:
        write_event(file, "i", rank, 2, at);
        fprintf(file, ",\"s\":\"t\",\"name\":\"the end is known\"}");
        break;
    default:
        write_event(file, event->kind == SENT_WORK ? "s" : "f", rank, 1, at);
        fprintf(file, ",\"cat\":\"message\",\"name\":\"work\",\"bp\":\"e\"");
        fprintf(file, ",\"id\":\"0x%" PRIx64 "\"}", id_of(from, to, event->number));
    }
}

static void write_rank(FILE *file, int rank, const rank_event *events, uint64_t count, int64_t shift) {
    static const char *const tracks[] = {"search", "detector"};
    fprintf(file, "%s\n{\"ph\":\"M\",\"pid\":%d,\"name\":\"process_name\",\"args\":{\"name\":\"process %d\"}}", rank ? "," : "", rank, rank);
    for (int track = 1; track <= 2; track++)
        fprintf(file, ",\n{\"ph\":\"M\",\"pid\":%d,\"tid\":%d,\"name\":\"thread_name\",\"args\":{\"name\":\"%s\"}}", rank, track,
                tracks[track - 1]);
    for (uint64_t k = 0; k < count; k++) write_rank_event(file, rank, &events[k], shift);
}

/* Puts the events that are kept into their order, and the waves after them. Returns their number. */
static uint64_t collect_events(rank_events *events, wave_log *waves) {
    uint64_t kept = events->count < EVENTS_KEPT ? events->count : EVENTS_KEPT, first = events->count - kept, number = 0;
    rank_event *sorted = zeros(kept + WAVES_KEPT + 1, sizeof *sorted);
    for (; number < kept; number++) sorted[number] = events->kept[(first + number) % EVENTS_KEPT];
    for (uint64_t w = waves->count < WAVES_KEPT ? 0 : waves->count - WAVES_KEPT; w < waves->count; w++) {
        const logged_wave *wave = wave_log_at(waves, w);
        uint64_t end = wave->end ? wave->end : wave->begin;
        sorted[number++] = (rank_event){wave->begin, end, wave->wave, wave->sent, wave->received, WAVE, 0};
    }
    if (waves->known) sorted[number++] = (rank_event){.begin = waves->known, .end = waves->known, .kind = KNOWN};
    memcpy(events->kept, sorted, number * sizeof *sorted);
    free(sorted);
    return number;
}

/* Each process calls it: process 0 writes all events, which count from `begun`, by its clock. Returns whether that succeeded. */
static bool write_events(rank_events *events, wave_log *waves, const char *path, uint64_t begun, int64_t offset, int me, int processes) {
    uint64_t head[3] = {collect_events(events, waves), (uint64_t)offset, events->count};
    if (me) {
        MPI_Send(head, 3, MPI_UINT64_T, 0, EVENTS, MPI_COMM_WORLD);
        MPI_Send(events->kept, (int)(head[0] * sizeof *events->kept), MPI_BYTE, 0, EVENTS, MPI_COMM_WORLD);
        return true;
    }
    uint64_t lost = 0;
    FILE *file = fopen(path, "w");
    if (file) fprintf(file, "{\"traceEvents\":[");
    for (int rank = 0; rank < processes; rank++) {
        if (rank) {
            MPI_Recv(head, 3, MPI_UINT64_T, rank, EVENTS, MPI_COMM_WORLD, MPI_STATUS_IGNORE);
            MPI_Recv(events->kept, (int)(head[0] * sizeof *events->kept), MPI_BYTE, rank, EVENTS, MPI_COMM_WORLD, MPI_STATUS_IGNORE);
        }
        if (file) write_rank(file, rank, events->kept, head[0], (int64_t)head[1] - (int64_t)begun);
        lost += head[2] > EVENTS_KEPT ? head[2] - EVENTS_KEPT : 0;
    }
    if (!file) return false;
    fprintf(file, "\n],\n\"displayTimeUnit\":\"ns\",\"otherData\":{\"clock\":\"CLOCK_MONOTONIC of process 0\",");
    fprintf(file, "\"processes\":%d,\"lost_events\":%" PRIu64 "}}\n", processes, lost);
    bool is_written = !ferror(file);
    return fclose(file) == 0 && is_written;
}
#endif
