/* detector.c: the proved detector, with notices and control messages carried by MPI; when this rank is idle. */
#define _GNU_SOURCE /* RUSAGE_THREAD */
#include "check.h"
#include <gerfmuod/process.h>
#include <sched.h>
#include <stdio.h>
#include <stdlib.h>
#include <string.h>
#include <sys/resource.h>
#include <time.h>

enum { TAG_NOTICE = 1, TAG_CONTROL = 2 };
enum { PATIENCE = 64, AGAIN = 1024, LONG = 1024, LONG_FOR_DATA = 1 << 14, SLOTS = 4 };
enum { NAP = 20000 /* ns */, NAPS = 512 /* before they get twice as long */, MOST_DOUBLINGS = 4 };
/* After this number of seconds without the notice of a message that was received, this library gives up. */
static const double UNANNOUNCED_SECONDS = 30;
/* For this long after it lost its processor while it polled, a rank takes the computer for crowded. */
static const double CROWDED_SECONDS = 0.05;

/* Both kinds of messages have at most this size. */
union letter {
    struct notice notice;
    gerfmuod_control_message control;
};

struct outgoing {
    union letter letter;
    MPI_Request request;
    struct outgoing *next;
};

static gerfmuod_process process;
static int is_active = 1, has_ended;
static struct outgoing *sending, *spare;
/* Receives that are posted for the next letters, in a ring. */
static union letter incoming[SLOTS];
static MPI_Request receives[SLOTS];
static int slot;

double seconds(void) {
    struct timespec now;
    clock_gettime(CLOCK_MONOTONIC, &now);
    return (double)now.tv_sec + (double)now.tv_nsec / 1e9;
}

/* From here on this rank is busy for the detector, so that no verdict can be printed. */
void give_up(const char *reason) {
    if (!checker.is_blind) fprintf(stderr, "gerfmuod: rank %d: no verdict from here on: %s\n", checker.me, reason);
    checker.is_blind = 1;
}

static void expect(uint32_t refusal, const char *what) {
    if (!refusal) return;
    fprintf(stderr, "gerfmuod: rank %d: %s: %s: a bug of this library\n", checker.me, what, gerfmuod_refusal_text(refusal));
    end_job(1);
}

/* Whether the detector's counts still matter. */
static int is_counting(void) { return !checker.is_blind && !has_ended; }

static void receive_letter(int at) {
    PMPI_Irecv(&incoming[at], sizeof incoming[at], MPI_BYTE, MPI_ANY_SOURCE, MPI_ANY_TAG, checker.own, &receives[at]);
}

void detector_open(void) {
    expect(gerfmuod_process_init(&process, (uint32_t)checker.me, (uint32_t)checker.all), "init");
    for (int n = 0; n < SLOTS; n++) receive_letter(n);
}

static void reap_sent(void) {
    for (struct outgoing **at = &sending; *at;) {
        struct outgoing *sent = *at;
        int is_done;
        PMPI_Test(&sent->request, &is_done, MPI_STATUS_IGNORE);
        if (is_done) {
            *at = sent->next;
            sent->next = spare;
            spare = sent;
        } else {
            at = &sent->next;
        }
    }
}

void detector_close(void) {
    while (sending) reap_sent();
    for (int n = 0; n < SLOTS; n++) {
        PMPI_Cancel(&receives[n]);
        PMPI_Wait(&receives[n], MPI_STATUS_IGNORE);
    }
}

static void send_letter(int world, int tag, const void *bytes, size_t size) {
    static unsigned count;
    struct outgoing *out = spare;
    if (out) spare = out->next;
    else out = allocate(sizeof *out);
    memcpy(&out->letter, bytes, size);
    PMPI_Isend(&out->letter, (int)size, MPI_BYTE, world, tag, checker.own, &out->request);
    out->next = sending;
    sending = out;
    if (++count % 16 == 0) reap_sent();
}

void detector_send(int world, const struct notice *notice) {
    if (is_counting()) expect(gerfmuod_process_count_sent(&process), "a notice was sent");
    send_letter(world, TAG_NOTICE, notice, sizeof *notice);
}

static void take_notice(const struct notice *notice, int source) {
    if (is_counting()) {
        expect(gerfmuod_process_count_received(&process, gerfmuod_process_epoch(&process)), "a notice came");
        if (is_active) expect(gerfmuod_process_finish_work(&process), "a notice came"); /* one piece of work is enough */
    }
    is_active = 1;
    notice_take(notice, source);
}

/* Takes one letter; returns whether there was one. */
int detector_poll(void) {
    MPI_Status status;
    union letter letter;
    int is_there;
    PMPI_Test(&receives[slot], &is_there, &status);
    if (!is_there) return 0;
    letter = incoming[slot];
    receive_letter(slot);
    slot = (slot + 1) % SLOTS;
    if (status.MPI_TAG == TAG_NOTICE) take_notice(&letter.notice, status.MPI_SOURCE);
    else if (!checker.is_blind) {
        uint32_t refused = gerfmuod_process_take(&process, &letter.control);
        if (refused > GERFMUOD_REFUSED_LATE) expect(refused, "take"); /* one that is not due is ignored */
    }
    return 1;
}

static void send_controls(void) {
    gerfmuod_control_message control;
    uint32_t next = GERFMUOD_PROCESS_SEND;
    while (!checker.is_blind && next == GERFMUOD_PROCESS_SEND) {
        next = gerfmuod_process_next(&process, &control);
        if (next == GERFMUOD_PROCESS_ENDED) has_ended = 1;
        if (next != GERFMUOD_PROCESS_SEND) break;
        checker.controls++;
        send_letter((int)control.to, TAG_CONTROL, &control, sizeof control);
    }
}

/* In a call that does not wait: takes what has come. */
void detector_glance(void) {
    while (detector_poll()) {}
    requests_freed_poll();
}

/* Others may need this processor: exponential backoff, in which each nap is short next to all before. This does not yield: on a
 * busy machine that costs a whole time slice. */
static void nap(unsigned before) {
    unsigned doublings = before / NAPS < MOST_DOUBLINGS ? before / NAPS : MOST_DOUBLINGS;
    nanosleep(&(struct timespec){0, NAP << doublings}, NULL);
}

static long preemptions(void) {
    struct rusage used;
    getrusage(RUSAGE_THREAD, &used);
    return used.ru_nivcsw;
}

/* Whether a poll may keep others from a processor. */
static int is_crowded(const struct wait *wait) {
    static long taken;
    static double until;
    static int is_found;
    long now;
    if (checker.is_crowded || wait->rounds % PATIENCE) return checker.is_crowded || is_found;
    now = preemptions();
    if (now != taken && wait->rounds > PATIENCE) until = seconds() + CROWDED_SECONDS;
    taken = now;
    return is_found = until > 0 && seconds() < until;
}

/* A call that waits for long naps between its turns. If its message is coming it does so later, when its sender has a processor, and
 * its naps stay short: large messages move on in these turns. */
static void give_way(const struct wait *wait) {
    unsigned rounds = is_crowded(wait) ? PATIENCE : wait->can_end ? LONG_FOR_DATA : LONG;
    if (wait->rounds > rounds) nap(wait->can_end ? 0 : wait->rounds - rounds);
}

/* Waits for a collective call of this library. MPI's own waits do not nap, and so are slow if not all ranks have a processor. */
void await(MPI_Request *request) {
    int is_done = 0;
    for (unsigned rounds = 0; !is_done; rounds++) {
        PMPI_Test(request, &is_done, MPI_STATUS_IGNORE);
        if (!is_done && rounds > PATIENCE) nap(rounds - PATIENCE);
    }
}

/* One turn of the loop in a blocking call, whose end the caller tests before each turn. */
void detector_rest(struct wait *wait) {
    int has_come = 0;
    while (detector_poll()) has_come = 1;
    if (is_active) requests_freed_poll();
    if (has_come) wait->is_judged = 0, wait->rounds = 0;
    if (++wait->rounds < PATIENCE) return;
    if (is_active && wait->rounds % AGAIN == PATIENCE) {
        wildcards_poll();
        wait->is_judged = 0;
    }
    if (!wait->is_judged) {
        wait->can_end = can_end(wait);
        wait->is_judged = 1;
    }
    if (!wait->can_end && is_active && is_counting()) {
        expect(gerfmuod_process_finish_work(&process), "a call waits");
        is_active = 0;
    }
    send_controls();
    if (has_ended && !checker.is_blind) conclude(wait), wait->is_judged = 0;
    give_way(wait);
}

/* After a blocking call: its end was announced by a notice that has come, or comes soon. */
void detector_resume(void) {
    double begin = 0;
    for (unsigned long rounds = 1; !is_active && !checker.is_blind; rounds++) {
        if (has_ended) give_up("a call ended that no notice announced");
        while (detector_poll()) {}
        if (rounds % 1024) continue;
        if (!begin) begin = seconds();
        if (seconds() - begin > UNANNOUNCED_SECONDS) give_up("a message came that no notice announced");
        sched_yield();
    }
    is_active = 1;
}

/* All ranks have agreed to go on after ENDED. */
void detector_reopen(void) {
    expect(gerfmuod_process_reopen(&process), "the ranks go on");
    has_ended = 0;
    is_active = 1;
}

uint64_t detector_waves(void) { return gerfmuod_process_wave(&process); }
