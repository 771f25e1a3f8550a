/* epochs.c: n processes in one program, epoch after epoch, over a network that delays, reorders and duplicates messages.
 *
 *   epochs PROCESSES EPOCHS RUNS [right|unmarked|dropped]
 *
 * Each process reopens at a random time. The cases judge all runs. An end is early if a process learns of it before all
 * processes have come to its epoch, while one in the epoch has work, or while a message of it is in flight.
 *
 * The others are faulty variants, which have to be detected. unmarked: counts a message under its receiver's epoch. dropped:
 * drops messages that are refused as NOT_YET. */
#include "runs.h"
#include <gerfmuod/process.h>

enum { MAX_EPOCHS = 64 };

typedef struct {
    uint32_t to;
    uint64_t epoch;
} message;

static uint32_t n, epochs;
static bool is_unmarked, is_dropping;
static gerfmuod_process *process;
static message *messages;
static gerfmuod_control_message *controls;
static size_t room, in_flight, controls_in_flight;
static uint64_t budget[MAX_EPOCHS];
static uint64_t *known; /* for each process, the number of epochs whose end it knows */
static uint64_t ends, late_controls, kept;
static violations early, after_the_end, far_apart, late_messages, refusals, too_many, silent;

static void must(uint32_t refused) {
    if (refused) end_runs(&refusals, IN_RUN ": refusal %u", present, seed_of_run(), refused);
}

static void do_work(uint32_t i) {
    gerfmuod_process *p = &process[i];
    if (!budget[p->epoch] || !below(3)) {
        must(gerfmuod_process_finish_work(p));
        return;
    }
    budget[p->epoch]--;
    if (below(2)) {
        must(gerfmuod_process_add_work(p));
    } else if (in_flight < room && !gerfmuod_process_count_sent(p)) {
        messages[in_flight].to = below(n);
        messages[in_flight++].epoch = p->epoch;
    }
}

/* A message arrives. Returns its receiver. */
static uint32_t message_comes(void) {
    size_t which = below((uint32_t)in_flight);
    uint32_t i = messages[which].to;
    uint32_t refused = gerfmuod_process_count_received(&process[i], is_unmarked ? process[i].epoch : messages[which].epoch);
    judge(&late_messages, refused == GERFMUOD_REFUSED_LATE);
    kept += refused == GERFMUOD_REFUSED_NOT_YET;
    for (uint32_t k = 0; refused == 0 && k < n; k++)
        if (process[k].epoch > process[i].epoch || (process[k].epoch == process[i].epoch && process[k].over)) {
            judge(&after_the_end, 1);
            break;
        }
    if (refused == 0 || (is_dropping && refused == GERFMUOD_REFUSED_NOT_YET)) messages[which] = messages[--in_flight];
    return i;
}

static uint32_t control_comes(void) {
    size_t which = below((uint32_t)controls_in_flight);
    gerfmuod_control_message c = controls[which];
    uint32_t i = (uint32_t)c.to, refused = gerfmuod_process_take(&process[i], &c);
    bool is_kept = refused == GERFMUOD_REFUSED_NOT_YET && !is_dropping;
    late_controls += refused == GERFMUOD_REFUSED_LATE;
    kept += refused == GERFMUOD_REFUSED_NOT_YET;
    if (!is_kept && (refused == GERFMUOD_REFUSED_LATE || below(4))) controls[which] = controls[--controls_in_flight];
    return i;
}

static bool is_anything_left(uint64_t epoch) {
    for (size_t k = 0; k < in_flight; k++)
        if (messages[k].epoch == epoch) return true;
    for (uint32_t k = 0; k < n; k++)
        if (process[k].epoch < epoch || (process[k].epoch == epoch && process[k].pending)) return true;
    return false;
}

static void ask_detector(uint32_t i) {
    gerfmuod_control_message c;
    if (gerfmuod_process_next(&process[i], &c) == GERFMUOD_PROCESS_SEND) {
        if (controls_in_flight == room) end_runs(&too_many, IN_RUN, present, seed_of_run());
        controls[controls_in_flight++] = c;
    }
    if (known[i] <= process[i].epoch && gerfmuod_process_knows_end(&process[i])) {
        known[i] = process[i].epoch + 1;
        ends++;
        judge(&early, is_anything_left(process[i].epoch));
    }
}

/* Returns the number of processes that know the end of the last epoch. */
static uint32_t informed(void) {
    uint32_t count = 0;
    uint64_t low = process[0].epoch, high = process[0].epoch;
    for (uint32_t i = 0; i < n; i++) {
        const gerfmuod_process *p = &process[i];
        if (p->epoch < low) low = p->epoch;
        if (p->epoch > high) high = p->epoch;
        count += p->epoch + 1 == epochs && p->over && !p->over_left && !p->over_right;
    }
    judge(&far_apart, high > low + 1);
    return count;
}

static bool run(void) {
    uint64_t events = 4000ull * n * epochs + 100000;
    uint32_t done = 0;
    in_flight = controls_in_flight = 0;
    for (uint32_t i = 0; i < n; i++) {
        must(gerfmuod_process_init(&process[i], i, n));
        known[i] = 0;
    }
    for (uint32_t e = 0; e < epochs; e++) budget[e] = 16ull * n;
    while (done < n && events--) {
        uint32_t i = below(n), what = below(8);
        if (what < 2) {
            if (process[i].pending) do_work(i);
        } else if (what < 4) {
            if (in_flight) i = message_comes();
        } else if (what < 7) {
            if (controls_in_flight) i = control_comes();
        } else if (process[i].epoch + 1 < epochs && !below(4)) {
            uint32_t refused = gerfmuod_process_reopen(&process[i]);
            if (refused != GERFMUOD_REFUSED_NOT_ENDED) must(refused);
        }
        ask_detector(i);
        ask_detector(0);
        if (below(n) < 4) done = informed();
    }
    return done == n;
}

static void make_run(void) { judge(&silent, !run()); }

CASE(no_process_learns_of_an_end_early) { check_none(&early); }
CASE(no_message_comes_after_the_end_of_its_epoch) { check_none(&after_the_end); }
CASE(the_epochs_of_processes_differ_by_at_most_one) { check_none(&far_apart); }
CASE(no_message_is_refused_as_late) { check_none(&late_messages); }
CASE(no_other_call_is_refused) { check_none(&refusals); }
CASE(control_messages_do_not_pile_up) { check_none(&too_many); }
CASE(all_processes_learn_of_the_last_end) { check_none(&silent); }

static int run_cases(void) {
    const struct CMUnitTest cases[] = {
        cmocka_unit_test(no_process_learns_of_an_end_early),
        cmocka_unit_test(no_message_comes_after_the_end_of_its_epoch),
        cmocka_unit_test(the_epochs_of_processes_differ_by_at_most_one),
        cmocka_unit_test(no_message_is_refused_as_late),
        cmocka_unit_test(no_other_call_is_refused),
        cmocka_unit_test(control_messages_do_not_pile_up),
        cmocka_unit_test(all_processes_learn_of_the_last_end),
    };
    return RUN(cases);
}

int main(int argc, char **argv) {
    n = argc > 1 ? (uint32_t)strtoul(argv[1], NULL, 10) : 3;
    epochs = argc > 2 ? (uint32_t)strtoul(argv[2], NULL, 10) : 4;
    runs = argc > 3 ? strtoull(argv[3], NULL, 10) : 10;
    const char *how = argc > 4 ? argv[4] : "right";
    is_unmarked = !strcmp(how, "unmarked");
    is_dropping = !strcmp(how, "dropped");
    if (!n || n > 1024 || !epochs || epochs > MAX_EPOCHS || (!is_unmarked && !is_dropping && strcmp(how, "right"))) {
        fprintf(stderr, "usage: epochs PROCESSES EPOCHS RUNS [right|unmarked|dropped], 1 to 1024 processes, 1 to %d epochs\n", MAX_EPOCHS);
        return 9;
    }
    room = 64ul * n + 256;
    process = malloc(n * sizeof *process);
    known = malloc(n * sizeof *known);
    messages = malloc(room * sizeof *messages);
    controls = malloc(room * sizeof *controls);
    if (!process || !known || !messages || !controls) return 9;
    int failed = run_cases();
    printf("%s: %" PRIu32 " processes, %" PRIu32 " epochs, %" PRIu64 " runs, %" PRIu64 " ends: %" PRIu64 " EARLY, %" PRIu64
           " receipts after the end, %" PRIu64 " times too far apart, %" PRIu64 " messages LATE, %" PRIu64
           " control messages LATE, %" PRIu64 " times NOT_YET, %" PRIu64 " SILENT\n",
           how, n, epochs, runs, ends, early.count, after_the_end.count, far_apart.count, late_messages.count, late_controls, kept,
           silent.count);
    free(process), free(known), free(messages), free(controls);
    return failed;
}
