/* report.c: what is printed of a deadlock, and of messages that nobody received: a table by rank, and a file in JSON. */
#include "check.h"
#include "text.h"
#include <stdint.h>
#include <stdlib.h>
#include <string.h>

enum { MOST_ROWS = 10, MOST_RANKS = 16 };
static const char PREFIX[] = "gerfmuod: ";

/* What one rank contributes. */
struct account {
    struct text rows;   /* of the table */
    struct text lines;  /* below it */
    struct text waits;  /* an array in JSON, without brackets */
    struct text lost;   /* the same */
    int lost_count;
};

static void account_free(struct account *a) {
    text_free(&a->rows), text_free(&a->lines), text_free(&a->waits), text_free(&a->lost);
}

static const char *wildcard(int number, int any, char room[16]) {
    if (number == any) return "any";
    snprintf(room, 16, "%d", number);
    return room;
}

/* As in "message from 3, tag 7, MPI_COMM_WORLD". */
static void add_partner(struct account *a, const char *what, const struct comm *comm, const char *word, int peer, int tag) {
    char name[MPI_MAX_OBJECT_NAME], peer_room[16], tag_room[16];
    const char *who = wildcard(peer, MPI_ANY_SOURCE, peer_room), *which = wildcard(tag, MPI_ANY_TAG, tag_room);
    comm_name(comm, name, sizeof name);
    text_add(&a->rows, "%s %s %s", what, word, who);
    if (peer >= 0 && comm->world[peer] != peer) text_add(&a->rows, " (rank %d)", comm->world[peer]);
    text_add(&a->rows, ", tag %s, %s", which, name);
    text_add(&a->waits, "%s{\"for\":\"%s\",\"%s\":", a->waits.length ? "," : "", what, word);
    if (peer == MPI_ANY_SOURCE) text_add(&a->waits, "\"any\",\"tag\":");
    else text_add(&a->waits, "%d,\"tag\":", comm->world[peer]);
    text_add(&a->waits, tag == MPI_ANY_TAG ? "\"any\"" : "%d", tag);
    text_add(&a->waits, ",\"communicator\":");
    text_json(&a->waits, name);
}

static void add_missing(struct account *a, const struct need *need) {
    char name[MPI_MAX_OBJECT_NAME];
    int all = need->count < 0 ? need->comm->size : need->count, missing = 0;
    comm_name(need->comm, name, sizeof name);
    text_add(&a->waits, "%s{\"for\":\"ranks\",\"ranks\":[", a->waits.length ? "," : "");
    for (int n = 0; n < all; n++) {
        int rank = need->count < 0 ? n : need->ranks ? need->ranks[n] : need->one;
        if (rank == need->comm->rank || has_arrived(need, rank)) continue;
        if (missing < MOST_RANKS) text_add(&a->rows, "%s%d", missing ? ", " : "rank ", need->comm->world[rank]);
        text_add(&a->waits, "%s%d", missing ? "," : "", need->comm->world[rank]);
        missing++;
    }
    if (missing > MOST_RANKS) text_add(&a->rows, " and %d more", missing - MOST_RANKS);
    text_add(&a->rows, ", in collective call %u of %s", need->number, name);
    text_add(&a->waits, "],\"call\":%u,\"communicator\":", need->number);
    text_json(&a->waits, name);
}

/* The place of the call that waits, and the place where what it waits for was begun. */
static void end_row(struct account *a, const char *shown, const char *begun) {
    text_add(&a->rows, "%s%s\n", *shown ? "\t" : "", shown);
    if (!a->waits.length) return;
    text_add(&a->waits, ",\"place\":");
    text_json(&a->waits, begun);
    text_add(&a->waits, "}");
}

static void add_request(struct account *a, const struct request *request) {
    if (request->kind == REQUEST_COLLECTIVE) add_missing(a, &request->need);
    else if (request->kind == REQUEST_RECEIVE) add_partner(a, "message", request->comm, "from", request->peer, request->tag);
    else if (request->kind == REQUEST_PARTITIONED_RECEIVE)
        add_partner(a, "partitions", request->comm, "from", request->peer, request->tag);
    else add_partner(a, "receive", request->comm, "of", request->peer, request->tag);
}

static int can_request_end(const struct request *request) {
    struct request *one = (struct request *)request;
    struct wait wait = {.kind = WAIT_ALL, .count = 1, .requests = &one};
    return can_end(&wait);
}

/* The requests that a call waits for, a row for each that cannot end. */
static void add_requests(struct account *a, const struct wait *wait, const char *place) {
    int rows = 0, left = 0;
    char begun[PLACE_SIZE];
    for (int n = 0; n < wait->count; n++) {
        const struct request *request = wait->requests[n];
        if (!request || can_request_end(request)) continue;
        if (rows == MOST_ROWS && ++left) continue;
        if (rows++) text_add(&a->rows, "\t\t");
        add_request(a, request);
        place_text(request->place, begun, sizeof begun);
        if (request->place != wait->place) text_add(&a->rows, " (%s at %s)", request->call, begun);
        end_row(a, rows == 1 ? place : "", begun);
    }
    if (left) text_add(&a->rows, "\t\tand %d more\n", left);
    if (!rows) text_add(&a->rows, "\t%s\n", place);
}

static void add_wait(struct account *a, const struct wait *wait) {
    char place[PLACE_SIZE] = "";
    if (wait->place) place_text(wait->place, place, sizeof place);
    text_add(&a->rows, "%d\t%s\t", checker.me, wait->call);
    if (wait->kind == WAIT_ALL || wait->kind == WAIT_ANY) {
        add_requests(a, wait, place);
        return;
    }
    if (wait->kind == WAIT_PROBE) add_partner(a, "message", wait->comm, "from", wait->from, wait->tag);
    if (wait->kind == WAIT_MEETING) {
        struct need missing = meeting_need(wait->need);
        add_missing(a, &missing);
    }
    if (wait->kind == WAIT_FINALIZE || wait->kind == WAIT_EXIT) text_add(&a->rows, "the other ranks");
    end_row(a, place, place);
}

/* A message that was announced to this rank and not received. */
static void add_unreceived(struct account *a, const struct comm *comm, const struct message *m, const char *place) {
    char name[MPI_MAX_OBJECT_NAME];
    int source = m->source;
    comm_name(comm, name, sizeof name);
    text_add(&a->lines, "rank %d has not received %lld bytes from rank %d, tag %d, %s, sent at %s\n", checker.me,
             (long long)m->notice.bytes, source, m->notice.tag, name, place);
    text_add(&a->lost, "%s{\"from\":%d,\"to\":%d,\"tag\":%d,\"bytes\":%lld,\"communicator\":", a->lost.length ? "," : "", source,
             checker.me, m->notice.tag, (long long)m->notice.bytes);
    text_json(&a->lost, name);
    text_add(&a->lost, ",\"place\":");
    text_json(&a->lost, place);
    text_add(&a->lost, "}");
}

static int unreceived(const struct comm **comms, const struct message **messages, int most, int *left) {
    int count = 0;
    for (struct comm *comm = comm_each(NULL); comm; comm = comm_each(comm))
        for (int rank = 0; rank < comm->peer_count; rank++)
            for (const struct message *m = comm->peers[rank].first; m; m = m->next) {
                if (is_taken(comm, &comm->peers[rank], m)) continue;
                if (count == most) {
                    ++*left;
                    continue;
                }
                comms[count] = comm;
                messages[count++] = m;
            }
    return count;
}

/* Collective, because the senders know the places. */
static void add_all_unreceived(struct account *a) {
    const struct comm *comms[MOST_ROWS];
    const struct message *messages[MOST_ROWS];
    char places[MOST_ROWS][PLACE_SIZE];
    uint64_t addresses[MOST_ROWS];
    int ranks[MOST_ROWS], left = 0, count = unreceived(comms, messages, MOST_ROWS, &left);
    for (int n = 0; n < count; n++) ranks[n] = messages[n]->source, addresses[n] = messages[n]->notice.place;
    ask_places(count, ranks, addresses, places);
    for (int n = 0; n < count; n++) add_unreceived(a, comms[n], messages[n], places[n]);
    if (left) text_add(&a->lines, "rank %d has not received %d more\n", checker.me, left);
    a->lost_count = count + left;
}

static void write_json(const char *verdict, const struct text *ranks) {
    FILE *file = checker.json_path ? fopen(checker.json_path, "w") : NULL;
    if (checker.json_path && !file) fprintf(stderr, "%scannot write %s\n", PREFIX, checker.json_path);
    if (!file) return;
    fprintf(file, "{\"verdict\":\"%s\",\"ranks\":[%s]}\n", verdict, ranks->bytes);
    fclose(file);
}

static struct text rank_in_json(const struct account *a, const struct wait *wait) {
    struct text json = {0};
    text_add(&json, "\n{\"rank\":%d,\"call\":", checker.me);
    text_json(&json, wait ? wait->call : "MPI_Finalize");
    if (wait) {
        char place[PLACE_SIZE] = "";
        if (wait->place) place_text(wait->place, place, sizeof place);
        text_add(&json, ",\"place\":");
        text_json(&json, place);
    }
    text_add(&json, ",\"waits\":[%s],\"unreceived\":[%s]}", a->waits.bytes ? a->waits.bytes : "",
             a->lost.bytes ? a->lost.bytes : "");
    return json;
}

/* Gathers the accounts; rank 0 writes them. Without a head it prints nothing. */
static void publish(const char *verdict, const char *head, const struct account *a, const struct wait *wait) {
    struct text json = rank_in_json(a, wait), all = text_gather(&json, ","), rows = text_gather(&a->rows, RANKS_END), table = {0};
    struct text lines = text_gather(&a->lines, "");
    if (checker.me == 0) {
        text_add(&table, "rank\tcall\twaits for\tplace\n");
        text_add_ranks(&table, rows.bytes);
        if (head) fprintf(stderr, "%s%s\n", PREFIX, head);
        if (wait) text_print_table(stderr, PREFIX, table.bytes);
        text_print_lines(stderr, PREFIX, lines.bytes);
        fflush(stderr);
        write_json(verdict, &all);
    }
    text_free(&json), text_free(&all), text_free(&rows), text_free(&table), text_free(&lines);
}

void report_deadlock(const struct wait *wait, int is_unsafe) {
    struct account a = {0};
    char head[200];
    add_wait(&a, wait);
    add_all_unreceived(&a);
    snprintf(head, sizeof head, "%s: %d rank%s, and %s", is_unsafe ? "UNSAFE" : "DEADLOCK", checker.all,
             checker.all == 1 ? " waits" : "s wait",
             is_unsafe ? "a call can only end if a collective call does before all its ranks come, which MPI does not guarantee"
                       : "no message is in flight that could end a call");
    publish(is_unsafe ? "unsafe" : "deadlock", head, &a, wait);
    account_free(&a);
}

int report_lost(void) {
    struct account a = {0};
    uint64_t mine[3], sums[3];
    MPI_Request request;
    char head[200];
    lost_verify();
    add_all_unreceived(&a);
    mine[0] = (uint64_t)a.lost_count;
    mine[1] = checker.notices;
    mine[2] = checker.controls;
    PMPI_Iallreduce(mine, sums, 3, MPI_UINT64_T, MPI_SUM, checker.report, &request);
    await(&request);
    snprintf(head, sizeof head,
             "%s%llu message%s that no rank received (%d ranks, %llu notices, %llu waves, %llu control messages, %.3f s)",
             sums[0] ? "LOST: " : "", (unsigned long long)sums[0], sums[0] == 1 ? "" : "s", checker.all,
             (unsigned long long)sums[1], (unsigned long long)detector_waves(), (unsigned long long)sums[2],
             seconds() - checker.begin);
    publish(sums[0] ? "lost" : checker.is_loose ? "unsafe" : "ended", sums[0] || checker.has_report ? head : NULL, &a, NULL);
    account_free(&a);
    return sums[0] > 0;
}
