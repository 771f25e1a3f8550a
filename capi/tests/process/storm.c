/* storm.c: n processes in one program, over a network that delays, reorders, duplicates or loses messages.
 *
 *   storm PROCESSES RUNS [right|fifo|lossy|late|early|uncounted|twice]
 *
 * Each run is a random program. A process with work adds work, sends messages or finishes a piece of work. The program
 * counts the open work and the messages in flight independently of the detector. The cases judge all runs.
 *
 * right: control messages come in any order, and one in four comes again. fifo: the oldest comes first, once. lossy: one in
 * 64 control messages and one in 256 messages is lost, so a run may be silent, but not early.
 * The others are faulty variants, which show that the cases can fail. late: counts a receipt only when its work is done.
 * early: closes the work of a message when it comes. uncounted: does not count what it sends. twice: counts receipts twice. */
#include "runs.h"
#include <gerfmuod/process.h>

enum mode { RIGHT, FIFO, LOSSY, LATE, EARLY, UNCOUNTED, TWICE, MODES };
static const char *const NAMES[MODES] = {"right", "fifo", "lossy", "late", "early", "uncounted", "twice"};

static enum mode mode;
static uint32_t n;
static gerfmuod_process *process;
static uint32_t *work;       /* open pieces of work, independent of the detector */
static uint32_t *active, *place, active_count; /* the processes with work, and the position of each in that list */
static uint32_t *unreported; /* work that a faulty variant reports late, or has reported as finished */
static bool *knows;          /* the process knows the end */
static bool *has_ended;      /* the detector has returned ENDED */

/* the network: control messages from `head` to `tail`, and the destinations of messages */
static gerfmuod_control_message *control;
static size_t head, tail, control_room;
static uint32_t *message;
static size_t messages, message_room;

/* of the present run */
static uint64_t all_work, lost, controls_sent, refused, budget, quiet_wave;
static uint32_t informed;
static bool is_quiet, was_early;

/* of all runs */
static uint64_t waves, sent, most_after;
static violations early, silent, miscounted, too_many_waves, refusals;

static void *grown(void *old, size_t bytes) {
    void *room = realloc(old, bytes);
    if (!room) {
        fprintf(stderr, "out of memory\n");
        exit(9);
    }
    return room;
}

static void post(const gerfmuod_control_message *c) {
    if (tail == control_room) {
        control_room = 2 * control_room + 1024;
        control = grown(control, control_room * sizeof *control);
    }
    control[tail++] = *c;
    controls_sent++;
}

static void more_work(uint32_t i) {
    all_work++;
    if (work[i]++) return;
    place[i] = active_count;
    active[active_count++] = i;
}

static void less_work(uint32_t i) {
    all_work--;
    if (--work[i]) return;
    active[place[i]] = active[--active_count];
    place[active[place[i]]] = place[i];
}

/* Calls next once, so that anything can happen between two control messages of a process; with very many processes, until
 * it returns none. */
static void ask_detector(uint32_t i) {
    gerfmuod_control_message c;
    uint32_t next;
    do {
        next = gerfmuod_process_next(&process[i], &c);
        if (next == GERFMUOD_PROCESS_SEND) post(&c);
    } while (next == GERFMUOD_PROCESS_SEND && n > 4096);
    if (next == GERFMUOD_PROCESS_ENDED && !has_ended[i]) {
        has_ended[i] = true;
        informed++;
    }
    if (!knows[i] && gerfmuod_process_knows_end(&process[i])) {
        knows[i] = true;
        was_early |= all_work != 0 || messages != 0 || lost != 0;
    }
}

static void send(uint32_t i) {
    if (mode != UNCOUNTED) refused += gerfmuod_process_count_sent(&process[i]) != 0;
    if (messages == message_room) {
        message_room = 2 * message_room + 1024;
        message = grown(message, message_room * sizeof *message);
    }
    message[messages++] = below(n);
}

static void do_work(uint32_t i) {
    if (budget && below(3)) {
        budget--;
        if (below(2)) {
            send(i);
        } else if (!unreported[i]) {
            refused += gerfmuod_process_add_work(&process[i]) != 0;
            more_work(i);
        }
        return;
    }
    less_work(i);
    if (!unreported[i] || mode == LATE) {
        if (unreported[i]) refused += gerfmuod_process_count_received(&process[i], process[i].epoch) != 0;
        refused += gerfmuod_process_finish_work(&process[i]) != 0;
    }
    if (unreported[i]) unreported[i]--;
}

static void message_comes(void) {
    size_t k = below((uint32_t)messages);
    uint32_t i = message[k];
    message[k] = message[--messages];
    if (mode == LOSSY && !below(256)) {
        lost++;
        return;
    }
    more_work(i);
    if (mode == LATE) unreported[i]++;
    else refused += gerfmuod_process_count_received(&process[i], process[i].epoch) != 0;
    if (mode == TWICE) refused += gerfmuod_process_count_received(&process[i], process[i].epoch) != 0;
    if (mode == EARLY) unreported[i]++;
    if (mode == EARLY || mode == TWICE) refused += gerfmuod_process_finish_work(&process[i]) != 0;
}

/* A control message arrives. Returns its receiver. */
static uint32_t control_comes(void) {
    size_t k = mode == FIFO ? head : head + below((uint32_t)(tail - head));
    gerfmuod_control_message c = control[k];
    uint32_t i = (uint32_t)c.to;
    bool is_lost = mode == LOSSY && !below(64);
    if (mode == FIFO) head++;
    else if (is_lost || below(4)) control[k] = control[--tail];
    if (head == tail) head = tail = 0;
    if (!is_lost) refused += gerfmuod_process_take(&process[i], &c) > GERFMUOD_REFUSED_LATE; /* it may come late or twice */
    return i;
}

/* Runs until all know the end, or up to a number of events. Returns whether all know it. */
static bool run(uint64_t events) {
    head = tail = messages = 0;
    lost = controls_sent = refused = quiet_wave = 0;
    informed = 0;
    is_quiet = was_early = false;
    budget = (n > 4096 ? 4ul : 64ul) * n;
    all_work = active_count = 0;
    for (uint32_t i = 0; i < n; i++) {
        refused += gerfmuod_process_init(&process[i], i, n) != 0;
        work[i] = unreported[i] = 0;
        more_work(i);
        knows[i] = has_ended[i] = false;
    }
    while (informed < n && events--) {
        uint32_t i = below(n), what = below(8);
        if (what < 2) {
            if (active_count) {
                i = active[below(active_count)];
                do_work(i);
            }
        } else if (what < 4) {
            if (messages) message_comes();
        } else if (tail > head) {
            i = control_comes();
        }
        ask_detector(i);
        ask_detector(0);
        if (!is_quiet && !all_work && !messages && !lost) {
            is_quiet = true;
            quiet_wave = gerfmuod_process_wave(&process[0]);
        }
    }
    return informed == n;
}

static void make_run(void) {
    bool is_told = run(mode == RIGHT || mode == FIFO ? 8000ull * n + 100000 : 1000ull * n + 20000);
    uint64_t last = gerfmuod_process_wave(&process[0]), after = is_quiet ? last - quiet_wave : 0;
    judge(&early, was_early);
    judge(&silent, !is_told);
    judge(&miscounted, is_told && controls_sent != (2 * last + 1) * (n - 1));
    judge(&too_many_waves, is_told && after > 2);
    judge(&refusals, refused);
    if (is_told && after > most_after) most_after = after;
    waves += last;
    sent += controls_sent;
}

CASE(no_process_learns_of_the_end_early) { check_none(&early); }
CASE(no_call_is_refused) { check_none(&refusals); }
CASE(all_processes_learn_of_the_end) { check_none(&silent); }
CASE(each_link_has_two_control_messages_a_wave_and_one_of_the_end) { check_none(&miscounted); }
CASE(at_most_two_waves_begin_after_the_last_work) { check_none(&too_many_waves); }

static int run_cases(void) {
    const struct CMUnitTest always[] = {
        cmocka_unit_test(no_process_learns_of_the_end_early),
        cmocka_unit_test(no_call_is_refused),
    };
    const struct CMUnitTest if_none_is_lost[] = {
        cmocka_unit_test(all_processes_learn_of_the_end),
        cmocka_unit_test(each_link_has_two_control_messages_a_wave_and_one_of_the_end),
        cmocka_unit_test(at_most_two_waves_begin_after_the_last_work),
    };
    return RUN(always) + (mode == LOSSY ? 0 : RUN(if_none_is_lost));
}

int main(int argc, char **argv) {
    n = argc > 1 ? (uint32_t)strtoul(argv[1], NULL, 10) : 8;
    runs = argc > 2 ? strtoull(argv[2], NULL, 10) : 20;
    while (argc > 3 && mode < MODES && strcmp(argv[3], NAMES[mode])) mode++;
    if (!n || n > 1u << 20 || mode == MODES) {
        fprintf(stderr, "usage: storm PROCESSES RUNS [right|fifo|lossy|late|early|uncounted|twice], 1 to %u processes\n", 1u << 20);
        return 9;
    }
    process = grown(NULL, n * sizeof *process);
    work = grown(NULL, n * sizeof *work);
    active = grown(NULL, n * sizeof *active);
    place = grown(NULL, n * sizeof *place);
    unreported = grown(NULL, n * sizeof *unreported);
    knows = grown(NULL, n * sizeof *knows);
    has_ended = grown(NULL, n * sizeof *has_ended);
    int failed = run_cases();
    printf("%s: %" PRIu32 " processes, %" PRIu64 " runs, %" PRIu64 " waves, %" PRIu64 " control messages, at most %" PRIu64
           " waves after the end: %" PRIu64 " EARLY, %" PRIu64 " SILENT, %" PRIu64 " counted wrongly, %" PRIu64 " calls refused\n",
           NAMES[mode], n, runs, waves, sent, most_after, early.count, silent.count, miscounted.count, refusals.count);
    free(process), free(work), free(active), free(place), free(unreported), free(knows), free(has_ended), free(control), free(message);
    return failed;
}
