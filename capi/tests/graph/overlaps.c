/* overlaps.c: calls on a team that come while other threads are in calls. Built with AddressSanitizer or ThreadSanitizer, it shows
 * whether they touch what another one frees. */
#define _POSIX_C_SOURCE 200809L
#include "check.h"
#include "limit.h"
#include <pthread.h>

enum { ROUNDS = 20, TASKS = 20, SLICES = 9 };
#define REPEATED_CASE(name)                                                                                            \
    static void name##_once(void);                                                                                     \
    CASE(name) {                                                                                                       \
        for (int round = 0; round < ROUNDS; round++) name##_once();                                                    \
    }                                                                                                                  \
    static void name##_once(void)

static gerfmuod_team *recording_team(uint32_t tasks) {
    gerfmuod_team *team = new_team();
    check_ok("record", gerfmuod_team_record(team, SLICES));
    for (uint32_t t = 0; t < tasks; t++) check_ok("task", gerfmuod_team_task(team, 0, NULL, 0, NULL));
    return team;
}

static pthread_t begin(void *(*body)(void *), gerfmuod_team *team) {
    pthread_t thread;
    if (pthread_create(&thread, NULL, body, team)) exit(3);
    return thread;
}

static void *turns(void *team) { return (void *)(uintptr_t)take_turns(team); }

/* Returns what the turns of a thread returned at last. */
static uint32_t end(pthread_t thread) {
    void *refused;
    pthread_join(thread, &refused);
    return (uint32_t)(uintptr_t)refused;
}

/* Waits until a turn waits: without one, a run that was not started is refused for another reason. */
static void wait_for_turn(gerfmuod_team *team) {
    while (gerfmuod_team_again(team) != GERFMUOD_REFUSED_RUNNING) sleep_for(100000);
}

/* ---- a stop, a little later in each round, while another number of threads begins to record */
static long delay;

static void *stop_soon(void *team) {
    sleep_for(delay);
    gerfmuod_team_stop(team, 0);
    return NULL;
}

REPEATED_CASE(stop_beside_run) {
    gerfmuod_team *team = recording_team(TASKS);
    check_ok("run", gerfmuod_team_run(team, 2, nothing, NULL));
    pthread_t stopping = begin(stop_soon, team);
    uint32_t refused = gerfmuod_team_again(team);
    if (!refused) refused = gerfmuod_team_run(team, 3, nothing, NULL);
    check("a run beside a stop", !refused || refused == GERFMUOD_REFUSED_STOPPED);
    pthread_join(stopping, NULL);
    delay += 200000;
    gerfmuod_team_close(team);
}

/* ---- a second run, while a turn of the first one has not returned */
REPEATED_CASE(again_beside_turn) {
    gerfmuod_team *team = recording_team(0);
    pthread_t waiting = begin(turns, team);
    wait_for_turn(team);
    check_ok("start", gerfmuod_team_start(team, 2));
    uint32_t refused = gerfmuod_team_again(team); /* the thread is signalled, and may not have come back */
    for (; refused == GERFMUOD_REFUSED_RUNNING; refused = gerfmuod_team_again(team)) sleep_for(10000);
    check_ok("again", refused);
    check_ok("a run with more threads", gerfmuod_team_run(team, 3, nothing, NULL));
    check_ok("the turn", end(waiting));
    gerfmuod_team_close(team);
}

/* ---- an end and a begin of recording, while a turn waits for the start, and while a task runs */
REPEATED_CASE(record_beside_turn) {
    gerfmuod_team *team = recording_team(0);
    pthread_t waiting = begin(turns, team);
    wait_for_turn(team);
    check_refusal("no more recording while a turn waits", gerfmuod_team_record(team, 0), GERFMUOD_REFUSED_RUNNING);
    check_refusal("other slices while a turn waits", gerfmuod_team_record(team, 2 * SLICES), GERFMUOD_REFUSED_RUNNING);
    check_ok("a task while a turn waits", gerfmuod_team_task(team, 0, NULL, 0, NULL));
    check_ok("start", gerfmuod_team_start(team, 1));
    check_ok("the turn", end(waiting));
    check_ok("again", gerfmuod_team_again(team));
    check_ok("start", gerfmuod_team_start(team, 1));
    check("a task", gerfmuod_team_turn(team, GERFMUOD_GRAPH_NONE).next == GERFMUOD_GRAPH_RUN);
    check_refusal("no more recording while a task runs", gerfmuod_team_record(team, 0), GERFMUOD_REFUSED_RUNNING);
    gerfmuod_team_close(team);
}

/* ---- an empty graph again, while a turn waits, while a task runs, and after a stop, when the turn may not have returned */
REPEATED_CASE(clear_beside_turn) {
    gerfmuod_team *team = recording_team(0);
    pthread_t waiting = begin(turns, team);
    wait_for_turn(team);
    check_refusal("clear while a turn waits", gerfmuod_team_clear(team), GERFMUOD_REFUSED_RUNNING);
    check_ok("a task", gerfmuod_team_task(team, 0, NULL, 0, NULL));
    check_ok("which awaits an input", gerfmuod_team_outside(team, 0));
    check_ok("start", gerfmuod_team_start(team, 1));
    check_refusal("clear in a run in which a turn waits", gerfmuod_team_clear(team), GERFMUOD_REFUSED_RUNNING);
    gerfmuod_team_stop(team, 0);
    while (gerfmuod_team_clear(team) == GERFMUOD_REFUSED_RUNNING) sleep_for(10000);
    check_refusal("the turn", end(waiting), GERFMUOD_REFUSED_STOPPED);
    check_ok("no fault is left", gerfmuod_team_fault(team));
    check("no task is left", gerfmuod_team_left(team) == 0);
    check_ok("a task", gerfmuod_team_task(team, 0, NULL, 0, NULL));
    check_ok("start", gerfmuod_team_start(team, 1));
    check_ok("clear when no thread came", gerfmuod_team_clear(team));
    check_ok("a task", gerfmuod_team_task(team, 0, NULL, 0, NULL));
    check_ok("start", gerfmuod_team_start(team, 1));
    check("the task", gerfmuod_team_turn(team, GERFMUOD_GRAPH_NONE).next == GERFMUOD_GRAPH_RUN);
    check_refusal("clear while a task runs", gerfmuod_team_clear(team), GERFMUOD_REFUSED_RUNNING);
    check("the end", gerfmuod_team_turn(team, 0).next == GERFMUOD_GRAPH_OVER);
    check_ok("clear after the end", gerfmuod_team_clear(team));
    gerfmuod_team_close(team);
}

/* ---- a task that is reported although it does not run, before the end and after it: every other turn is refused for that */
static void report_wrong(uint32_t wrong, uint32_t fault, bool has_ended) {
    const uint32_t first = 0;
    gerfmuod_team *team = recording_team(1);
    check_ok("a task that waits", gerfmuod_team_task(team, 0, &first, 1, NULL));
    check_ok("start", gerfmuod_team_start(team, 2));
    check("the first task", gerfmuod_team_turn(team, GERFMUOD_GRAPH_NONE).number == first);
    if (has_ended) check("the second task", gerfmuod_team_turn(team, 0).number == 1);
    if (has_ended) check("the end", gerfmuod_team_turn(team, 1).next == GERFMUOD_GRAPH_OVER);
    pthread_t turning = has_ended ? pthread_self() : begin(turns, team);
    for (uint32_t k = 0; k < 2; k++) {
        gerfmuod_graph_result answer = gerfmuod_team_turn(team, k ? GERFMUOD_GRAPH_NONE : wrong);
        check_refusal("a turn", answer.refused, fault);
        check("its task", answer.number == wrong && !answer.next);
    }
    check_refusal("the fault", gerfmuod_team_fault(team), fault);
    check("its task", gerfmuod_team_failed(team) == wrong);
    if (!has_ended) check_refusal("the other thread", end(turning), fault);
    gerfmuod_team_close(team);
}

REPEATED_CASE(wrong_done) {
    for (int has_ended = 0; has_ended < 2; has_ended++) {
        report_wrong(1, GERFMUOD_REFUSED_WRONG_LIFE, has_ended);
        report_wrong(7, GERFMUOD_REFUSED_NO_TASK, has_ended);
    }
}

/* ---- a run that is not started, for which threads wait, while a turn waits, too */
REPEATED_CASE(run_beside_turn) {
    gerfmuod_team *team = recording_team(TASKS);
    pthread_t waiting = begin(turns, team);
    wait_for_turn(team);
    check_ok("a run beside a turn", gerfmuod_team_run(team, 3, nothing, NULL));
    check_ok("the turn", end(waiting));
    check_refusal("a second run", gerfmuod_team_run(team, 3, nothing, NULL), GERFMUOD_REFUSED_ENDED);
    gerfmuod_team_close(team);
}

/* ---- each call that several threads may make, on a team whose run is over: it changes nothing */
enum { CALLS = 1000, KINDS = 8 };
static uint32_t differing; /* the number of other results than there should be; all threads have it in common */

static uint32_t call(gerfmuod_team *team, int kind) {
    switch (kind) {
    case 0: return gerfmuod_team_turn(team, GERFMUOD_GRAPH_NONE).next != GERFMUOD_GRAPH_OVER;
    case 1: gerfmuod_team_stop(team, 0); return 0;
    case 2: return gerfmuod_team_task(team, 0, NULL, 0, NULL) != GERFMUOD_REFUSED_ENDED;
    case 3: return gerfmuod_team_outside(team, 0) != GERFMUOD_REFUSED_WRONG_LIFE;
    case 4: return gerfmuod_team_release(team, 0) != GERFMUOD_REFUSED_WRONG_LIFE;
    case 5: return gerfmuod_team_fault(team) || gerfmuod_team_failed(team) != GERFMUOD_GRAPH_NONE;
    case 6: return gerfmuod_team_start(team, 1) != GERFMUOD_REFUSED_ENDED;
    default: return gerfmuod_team_describe(team, 0, NULL, &(uint32_t){0}, NULL, NULL) != GERFMUOD_REFUSED_WRONG_LIFE;
    }
}

static void *make_calls(void *team) {
    uint32_t own = 0;
    for (int k = 0; k < KINDS * CALLS; k++) own += call(team, k % KINDS);
    __atomic_fetch_add(&differing, own, __ATOMIC_RELAXED);
    return NULL;
}

REPEATED_CASE(calls_beside_calls) {
    pthread_t threads[4];
    gerfmuod_team *team = recording_team(TASKS);
    check_ok("run", gerfmuod_team_run(team, 2, nothing, NULL));
    for (int k = 0; k < 4; k++) threads[k] = begin(make_calls, team);
    for (int k = 0; k < 4; k++) pthread_join(threads[k], NULL);
    check("calls of several threads", !differing);
    gerfmuod_team_close(team);
}

int main(void) {
    const struct CMUnitTest cases[] = {
        cmocka_unit_test(stop_beside_run), cmocka_unit_test(again_beside_turn), cmocka_unit_test(record_beside_turn),
        cmocka_unit_test(clear_beside_turn), cmocka_unit_test(wrong_done), cmocka_unit_test(run_beside_turn),
        cmocka_unit_test(calls_beside_calls),
    };
    limit_time();
    return RUN(cases);
}
