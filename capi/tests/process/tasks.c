/* tasks.c: n processes in one program whose running tasks make tasks, epoch after epoch, over a network that delays, reorders and
 * duplicates messages. Each call on the counts is compared with a second model, which keeps a place for each task and counts by a search.
 *
 *   tasks PROCESSES EPOCHS RUNS [right|early|twice|forgets]
 *
 * A process makes calls at random, also such as are refused. After each, what it returned, the counts and the work of the process are
 * compared. The cases judge all runs. An end is early if a process learns of it while a task of the epoch waits, runs, is due or is in
 * flight, or while an opening is open.
 *
 * The others are faulty variants, which show that the cases can fail. early: reports a task as done while the model still runs it.
 * twice: receives a message twice. forgets: never calls gerfmuod_tasks_settle. */
#include "runs.h"
#include <gerfmuod/process.h>

enum { MAX_PROCESSES = 64, MAX_EPOCHS = 16, TASKS_EACH = 12, CONTROLS = 4096 };
enum mode { RIGHT, EARLY, TWICE, FORGETS, MODES };
static const char *const NAMES[MODES] = {"right", "early", "twice", "forgets"};

/* Where a task is: at a process, in flight to it, or no longer anywhere. */
enum place { WAITS, RUNS, IS_DUE, FLIES, IS_DONE, IS_DROPPED };
typedef struct {
    enum place place;
    uint32_t at;
    uint64_t epoch;
} task;

static enum mode mode;
static uint32_t n, epochs;
static gerfmuod_process process[MAX_PROCESSES];
static gerfmuod_tasks tasks[MAX_PROCESSES];
static gerfmuod_control_message controls[CONTROLS];
static uint32_t controls_count, refused, makings;
static violations wrong, early, late, too_many, silent, lost;

/* the second model */
static task all[MAX_PROCESSES * MAX_EPOCHS * TASKS_EACH];
static uint32_t all_count, left[MAX_EPOCHS]; /* the tasks that may still be made in an epoch */
static bool is_open[MAX_PROCESSES], has_work[MAX_PROCESSES], knows[MAX_PROCESSES], has_ended[MAX_PROCESSES];
static uint64_t sent[MAX_PROCESSES], received[MAX_PROCESSES];

static uint32_t count(enum place place, uint32_t i) {
    uint32_t found = 0;
    for (uint32_t t = 0; t < all_count; t++) found += all[t].place == place && all[t].at == i;
    return found;
}

/* A task in this place at the process, any of them; there is one. */
static task *any(enum place place, uint32_t i) {
    uint32_t which = below(count(place, i)), t = 0;
    while (all[t].place != place || all[t].at != i || which--) t++;
    return &all[t];
}

static bool model_is_idle(uint32_t i) { return !is_open[i] && !count(WAITS, i) && !count(RUNS, i) && !count(IS_DUE, i); }

/* Compares what a call returned, and the structs of the process with the model. */
static void compare(uint32_t i, uint32_t got, uint32_t wanted) {
    const gerfmuod_tasks *t = &tasks[i];
    bool is_same = got == wanted && gerfmuod_tasks_waiting(t) == count(WAITS, i) && gerfmuod_tasks_running(t) == count(RUNS, i);
    is_same &= gerfmuod_tasks_due(t) == count(IS_DUE, i) && gerfmuod_tasks_is_opening(t) == is_open[i];
    is_same &= gerfmuod_tasks_is_idle(t) == model_is_idle(i) && process[i].pending == has_work[i];
    is_same &= process[i].sent == sent[i] && process[i].received == received[i];
    count_violations(&wrong, !is_same, IN_RUN ": process %u: returned %u, not %u, or other counts", present, seed_of_run(), i, got, wanted);
    refused += got > 100;
}

static void make(uint32_t i, enum place place) {
    bool can = is_open[i] || count(RUNS, i);
    if (can && !left[process[i].epoch]) return;
    uint32_t got = place == WAITS ? gerfmuod_tasks_add(&tasks[i]) : gerfmuod_tasks_add_due(&tasks[i]);
    if (can) all[all_count++] = (task){place, i, process[i].epoch}, left[process[i].epoch]--, makings++;
    compare(i, got, can ? GERFMUOD_OK : GERFMUOD_REFUSED_NO_WORK);
}

/* A task goes from one place to the other, if there is one. */
static void go(uint32_t i, enum place from, enum place to, uint32_t got) {
    bool can = count(from, i);
    if (can) any(from, i)->place = to;
    compare(i, got, can ? GERFMUOD_OK : GERFMUOD_REFUSED_NO_WORK);
}

static void send(uint32_t i) {
    bool can = count(IS_DUE, i);
    uint32_t got = gerfmuod_tasks_send(&tasks[i], &process[i]);
    if (can) {
        task *t = any(IS_DUE, i);
        *t = (task){FLIES, below(n), t->epoch}, sent[i]++;
    }
    compare(i, got, can ? GERFMUOD_OK : GERFMUOD_REFUSED_NO_WORK);
}

static void message_comes(uint32_t i) {
    if (!count(FLIES, i)) return;
    task *t = any(FLIES, i);
    uint64_t epoch = process[i].epoch;
    uint32_t got = gerfmuod_tasks_receive(&tasks[i], &process[i], t->epoch);
    if (mode == TWICE) got |= gerfmuod_tasks_receive(&tasks[i], &process[i], t->epoch);
    if (t->epoch == epoch) t->place = WAITS, has_work[i] = true, received[i]++, compare(i, got, GERFMUOD_OK);
    else compare(i, got, t->epoch > epoch ? GERFMUOD_REFUSED_NOT_YET : GERFMUOD_REFUSED_LATE), judge(&late, t->epoch < epoch);
}

static void drop(uint32_t i) {
    gerfmuod_tasks_drop_waiting(&tasks[i]);
    while (count(WAITS, i)) any(WAITS, i)->place = IS_DROPPED;
    compare(i, 0, 0);
}

static void end_opening(uint32_t i) {
    bool can = is_open[i];
    uint32_t got = gerfmuod_tasks_close(&tasks[i]);
    is_open[i] = false;
    compare(i, got, can ? GERFMUOD_OK : GERFMUOD_REFUSED_NO_WORK);
}

static void settle(uint32_t i) {
    bool can = has_work[i] && model_is_idle(i);
    if (mode == FORGETS) return;
    uint32_t got = gerfmuod_tasks_settle(&tasks[i], &process[i]);
    if (can) has_work[i] = false;
    compare(i, got, can);
}

static void reopen(uint32_t i) {
    const gerfmuod_process *p = &process[i];
    bool can = p->over && !p->over_left && !p->over_right;
    if (can && p->epoch + 1 == epochs) return;
    uint32_t got = gerfmuod_tasks_reopen(&tasks[i], &process[i]);
    if (can) is_open[i] = has_work[i] = true, knows[i] = has_ended[i] = false, sent[i] = received[i] = 0;
    compare(i, got, can ? GERFMUOD_OK : GERFMUOD_REFUSED_NOT_ENDED);
}

static void control_comes(void) {
    if (!controls_count) return;
    uint32_t which = below(controls_count), got = gerfmuod_process_take(&process[controls[which].to], &controls[which]);
    if (got != GERFMUOD_REFUSED_NOT_YET && (got == GERFMUOD_REFUSED_LATE || below(4))) controls[which] = controls[--controls_count];
}

static bool is_anything_left(uint64_t epoch) {
    for (uint32_t t = 0; t < all_count; t++)
        if (all[t].epoch == epoch && all[t].place < IS_DONE) return true;
    for (uint32_t k = 0; k < n; k++)
        if (process[k].epoch < epoch || (process[k].epoch == epoch && is_open[k])) return true;
    return false;
}

static void ask_detector(uint32_t i) {
    uint32_t next = gerfmuod_process_next(&process[i], &controls[controls_count]);
    controls_count += next == GERFMUOD_PROCESS_SEND;
    if (controls_count == CONTROLS) end_runs(&too_many, IN_RUN, present, seed_of_run());
    has_ended[i] |= next == GERFMUOD_PROCESS_ENDED;
    if (!knows[i] && gerfmuod_process_knows_end(&process[i])) knows[i] = true, judge(&early, is_anything_left(process[i].epoch));
}

/* Makes a call at a process. */
static void call_at(uint32_t i) {
    uint32_t what = below(25);
    if (what < 6) make(i, what < 3 ? WAITS : IS_DUE);
    else if (what < 10) go(i, WAITS, RUNS, gerfmuod_tasks_begin(&tasks[i]));
    else if (what < 14) go(i, RUNS, mode == EARLY && !below(4) ? RUNS : IS_DONE, gerfmuod_tasks_done(&tasks[i]));
    else if (what < 17) send(i);
    else if (what < 20) message_comes(i);
    else if (what < 22) reopen(i);
    else if (what < 23) end_opening(i);
    else if (what < 24) go(i, WAITS, IS_DUE, gerfmuod_tasks_give(&tasks[i]));
    else if (!below(16)) drop(i);
}

/* Returns whether all processes learn of the end of the last epoch. */
static bool run(void) {
    uint32_t done = 0;
    all_count = controls_count = 0;
    for (uint32_t e = 0; e < epochs; e++) left[e] = TASKS_EACH * n;
    for (uint32_t i = 0; i < n; i++) {
        uint32_t got = gerfmuod_process_init(&process[i], i, n);
        gerfmuod_tasks_open(&tasks[i]);
        is_open[i] = has_work[i] = true, knows[i] = has_ended[i] = false, sent[i] = received[i] = 0;
        compare(i, got, GERFMUOD_OK);
    }
    for (uint64_t events = 4000ull * n * epochs; events-- && done < n;) {
        uint32_t i = below(n);
        call_at(i);
        if (below(4)) settle(i);
        control_comes();
        ask_detector(i), ask_detector(below(n));
        done = 0;
        for (uint32_t k = 0; k < n; k++) done += process[k].epoch + 1 == epochs && has_ended[k];
    }
    for (uint32_t t = 0; done == n && t < all_count; t++) judge(&lost, all[t].place < IS_DONE);
    return done == n;
}

static void make_run(void) { judge(&silent, !run()); }

CASE(each_call_returns_and_counts_what_the_model_says) { check_none(&wrong); }
CASE(no_process_learns_of_an_end_early) { check_none(&early); }
CASE(no_task_comes_after_the_end_of_its_epoch) { check_none(&late); }
CASE(control_messages_do_not_pile_up) { check_none(&too_many); }
CASE(all_processes_learn_of_the_last_end) { check_none(&silent); }
CASE(each_task_is_done_or_dropped_at_the_last_end) { check_none(&lost); }

int main(int argc, char **argv) {
    const struct CMUnitTest cases[] = {
        cmocka_unit_test(each_call_returns_and_counts_what_the_model_says),
        cmocka_unit_test(no_process_learns_of_an_end_early),
        cmocka_unit_test(no_task_comes_after_the_end_of_its_epoch),
        cmocka_unit_test(control_messages_do_not_pile_up),
        cmocka_unit_test(all_processes_learn_of_the_last_end),
        cmocka_unit_test(each_task_is_done_or_dropped_at_the_last_end),
    };
    n = argc > 1 ? (uint32_t)strtoul(argv[1], NULL, 10) : 3;
    epochs = argc > 2 ? (uint32_t)strtoul(argv[2], NULL, 10) : 3;
    runs = argc > 3 ? strtoull(argv[3], NULL, 10) : 10;
    while (argc > 4 && mode < MODES && strcmp(argv[4], NAMES[mode])) mode++;
    if (!n || n > MAX_PROCESSES || !epochs || epochs > MAX_EPOCHS || mode == MODES) return 9;
    int failed = RUN(cases);
    printf("%s: %" PRIu32 " processes, %" PRIu32 " epochs, %" PRIu64 " runs, %" PRIu32 " tasks, %" PRIu32 " calls refused: %" PRIu64
           " WRONG, %" PRIu64 " EARLY, %" PRIu64 " SILENT, %" PRIu64 " LOST\n",
           NAMES[mode], n, epochs, runs, makings, refused, wrong.count, early.count, silent.count, late.count + lost.count);
    return failed;
}
