/* unlocked.c: two threads make a call each on one core, process or its tasks, or on the arrays of a graph, with or without the mutex that
 * protects it.
 *
 *   unlocked CALL.. [unlocked]     built with -fsanitize=thread
 *
 * ThreadSanitizer reports the missing mutex as a data race, although the library is compiled without it: see gerfmuod/tsan.h. A call that
 * writes meets one that only reads, and a call that only reads one that writes, so that each has to be reported as what it is. The second
 * thread waits for a counter that orders nothing else, so the calls never overlap, and nothing else is wrong. Each call is a case, which
 * fails if there is a race; unlocked, it has to fail. */
#include "../cases.h"
#include <gerfmuod/core.h>
#include <gerfmuod/graph.h>
#include <gerfmuod/process.h>
#include <pthread.h>

static gerfmuod_core core;
static gerfmuod_process process;
static gerfmuod_tasks tasks;
static gerfmuod_control_message message;
static gerfmuod_step step = {GERFMUOD_STEP_READY, 0, 0, 0, 0};
static gerfmuod_step_result result;
static uint32_t missing[1], newest[1];
static const uint32_t offsets[2];
static char text[99];
static pthread_mutex_t lock = PTHREAD_MUTEX_INITIALIZER;
static bool is_locked;
static uint32_t calls_made;
static int races; /* that ThreadSanitizer has reported */
static volatile uint64_t returned[2]; /* so that no compiler leaves out a read */

/* The name of a call, whether it writes, and its result, which does not matter. */
#define CALLS(X)                                                                                         \
    X(core_open, true, gerfmuod_core_open(&core, 1))                                                     \
    X(core_open_unrecorded, true, gerfmuod_core_open_unrecorded(&core, 1))                               \
    X(core_close, true, gerfmuod_core_close(&core))                                                      \
    X(core_restart, true, gerfmuod_core_restart(&core))                                                  \
    X(core_reserve, true, gerfmuod_core_reserve(&core, 9, 9, 9))                                         \
    X(core_settle, true, gerfmuod_core_settle(&core).refused)                                            \
    X(core_step, true, gerfmuod_core_step(&core, GERFMUOD_STEP_READY, 0, 0, 0, 0).refused)               \
    X(core_steps, true, gerfmuod_core_steps(&core, &step, 1, &result, 1))                                \
    X(core_step_by, true, gerfmuod_core_insert_by(&core, GERFMUOD_BY_OPENING, 0, 0, 1, 0).refused)       \
    X(core_counters, false, gerfmuod_core_counters(&core, 0).pending)                                    \
    X(core_left, false, gerfmuod_core_left(&core, 0, 9).state)                                           \
    X(core_status, false, gerfmuod_core_status(&core).steps)                                             \
    X(core_trace, false, gerfmuod_core_trace(&core, text, sizeof text).outcome)                          \
    X(process_init, true, gerfmuod_process_init(&process, 0, 1))                                         \
    X(process_add_work, true, gerfmuod_process_add_work(&process))                                       \
    X(process_finish_work, true, gerfmuod_process_finish_work(&process))                                 \
    X(process_count_sent, true, gerfmuod_process_count_sent(&process))                                   \
    X(process_count_received, true, gerfmuod_process_count_received(&process, 0))                        \
    X(process_outgoing_message_start, true, gerfmuod_process_outgoing_message_start(&process))           \
    X(process_incoming_message_start, true, gerfmuod_process_incoming_message_start(&process, 0))        \
    X(process_incoming_message_end, true, gerfmuod_process_incoming_message_end(&process))               \
    X(process_take, true, gerfmuod_process_take(&process, &message))                                     \
    X(process_next, true, gerfmuod_process_next(&process, &message))                                     \
    X(process_reopen, true, gerfmuod_process_reopen(&process))                                           \
    X(process_is_open, false, gerfmuod_process_is_open(&process))                                        \
    X(process_knows_end, false, gerfmuod_process_knows_end(&process))                                    \
    X(process_epoch, false, gerfmuod_process_epoch(&process))                                            \
    X(process_pending, false, gerfmuod_process_pending(&process))                                        \
    X(process_sent, false, gerfmuod_process_sent(&process))                                              \
    X(process_received, false, gerfmuod_process_received(&process))                                      \
    X(process_wave, false, gerfmuod_process_wave(&process))                                              \
    X(process_text, false, (uint64_t)*gerfmuod_process_text(&process))                                   \
    X(process_fields, false, process.pending) /* the program's own read of a field of the library */     \
    X(tasks_open, true, (gerfmuod_tasks_open(&tasks), 0))                                                \
    X(tasks_add, true, gerfmuod_tasks_add(&tasks))                                                       \
    X(tasks_add_due, true, gerfmuod_tasks_add_due(&tasks))                                               \
    X(tasks_begin, true, gerfmuod_tasks_begin(&tasks))                                                   \
    X(tasks_done, true, gerfmuod_tasks_done(&tasks))                                                     \
    X(tasks_drop_waiting, true, (gerfmuod_tasks_drop_waiting(&tasks), 0))                                \
    X(tasks_give, true, gerfmuod_tasks_give(&tasks))                                                     \
    X(tasks_close, true, gerfmuod_tasks_close(&tasks))                                                   \
    X(tasks_send, true, gerfmuod_tasks_send(&tasks, &process))                                           \
    X(tasks_receive, true, gerfmuod_tasks_receive(&tasks, &process, 0))                                  \
    X(tasks_settle, false, gerfmuod_tasks_settle(&tasks, &process))                                      \
    X(tasks_reopen, true, gerfmuod_tasks_reopen(&tasks, &process))                                       \
    X(tasks_waiting, false, gerfmuod_tasks_waiting(&tasks))                                              \
    X(tasks_running, false, gerfmuod_tasks_running(&tasks))                                              \
    X(tasks_due, false, gerfmuod_tasks_due(&tasks))                                                      \
    X(tasks_is_opening, false, gerfmuod_tasks_is_opening(&tasks))                                        \
    X(tasks_is_idle, false, gerfmuod_tasks_is_idle(&tasks))                                              \
    X(graph_link, true, gerfmuod_graph_link(offsets, 2, NULL, 0, missing, 1, newest, 1, NULL, 0, NULL, 0).refused) \
    X(graph_arrive, true, gerfmuod_graph_arrive(missing))                                                \
    X(graph_fields, false, missing[0]) /* the program's own read of a number that the library writes */

enum call {
#define NAME(name, writes, expression) name,
    CALLS(NAME) COUNT
};
static const char *const names[] = {
#define TEXT(name, writes, expression) #name,
    CALLS(TEXT)
};
static const char *const case_names[] = {
#define CASE_NAME(name, writes, expression) "no_race_of_" #name,
    CALLS(CASE_NAME)
};
static const bool does_write[] = {
#define WRITES(name, writes, expression) writes,
    CALLS(WRITES)
};

static uint64_t make(enum call call) {
    switch (call) {
#define RESULT(name, writes, expression) \
    case name: return expression;
        CALLS(RESULT)
    case COUNT: break;
    }
    return 0;
}

static enum call other_of(enum call call) {
    if (call >= graph_link) return does_write[call] ? graph_fields : graph_arrive;
    if (call < process_init) return does_write[call] ? core_status : core_step;
    if (call > process_fields) return does_write[call] ? tasks_waiting : tasks_add;
    return does_write[call] ? process_pending : process_add_work;
}

static void *make_other(void *call) {
    pthread_mutex_lock(&lock);
    returned[1] = make(other_of(*(enum call *)call));
    pthread_mutex_unlock(&lock);
    __atomic_store_n(&calls_made, 1, __ATOMIC_RELAXED);
    return NULL;
}

/* ThreadSanitizer calls this at each report. */
void __tsan_on_report(void *report);
__attribute__((no_sanitize("thread"))) void __tsan_on_report(void *report) { (void)report, races++; }

static void no_race_of_call(void **state) {
    enum call *call = *state;
    pthread_t thread;
    calls_made = 0, races = 0;
    assert_int_equal(gerfmuod_core_open(&core, 1), 0);
    assert_int_equal(gerfmuod_process_init(&process, 0, 1), 0);
    assert_int_equal(pthread_create(&thread, NULL, make_other, call), 0);
    while (!__atomic_load_n(&calls_made, __ATOMIC_RELAXED)) continue;
    if (is_locked) pthread_mutex_lock(&lock);
    returned[0] = make(*call);
    if (is_locked) pthread_mutex_unlock(&lock);
    pthread_join(thread, NULL);
    (void)gerfmuod_core_close(&core);
    check_that(!races, "%d data races between %s and %s", races, names[*call], names[other_of(*call)]);
}

int main(int argc, char **argv) {
    int tried = 0, failed = 0;
    is_locked = strcmp(argv[argc - 1], "unlocked") != 0;
    for (int k = 1; k < argc - !is_locked; k++) {
        enum call call = 0;
        while (call < COUNT && strcmp(names[call], argv[k]) != 0) call++;
        if (call == COUNT) return 2;
        const struct CMUnitTest cases[] = {{case_names[call], no_race_of_call, NULL, NULL, &call}};
        failed += RUN(cases);
        tried++;
    }
    printf("%d of %d calls\n", tried, COUNT);
    return failed;
}
