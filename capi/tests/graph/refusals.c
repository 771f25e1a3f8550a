/* refusals.c: tests each refusal of a graph and of a team, with every field of the result, and the state after a refused call.
 * The exit status is 124 if a team did not end.
 *
 *   refusals [quick]     quick: without what is too large
 */
#define _POSIX_C_SOURCE 200809L
#include <gerfmuod/core.h>
#include "check.h"
#include "limit.h"


enum { NONE = -1, TRACED_TASKS = 349522 };

/* ---- the graph */
static gerfmuod_graph graph;

static gerfmuod_graph_result call(uint32_t number, uint32_t first, uint32_t second) {
    return gerfmuod_graph_call(&graph, number, first, second);
}
static gerfmuod_graph_result turn(uint32_t done) { return call(GERFMUOD_GRAPH_TURN, done, 0); }
static gerfmuod_graph_result spawn(uint32_t class_, const uint32_t *inputs, size_t count, uint32_t outside) {
    return gerfmuod_graph_spawn(&graph, class_, inputs, count, outside);
}

/* Compares each field of a result. */
static void is(const char *what, gerfmuod_graph_result got, uint32_t refused, uint32_t next, uint32_t number, uint32_t signals) {
    bool is_same = got.refused == refused && got.next == next && got.number == number && got.signals == signals;
    check_that(is_same, "%s: refused %u next %u number %u signals %u, expected %u %u %u %u", what, got.refused, got.next, got.number,
               got.signals, refused, next, number, signals);
}
static void ok(const char *what, gerfmuod_graph_result got) { is(what, got, 0, 0, 0, 0); }
static void refused(const char *what, gerfmuod_graph_result got, uint32_t refusal) { is(what, got, refusal, 0, 0, 0); }
static void full(const char *what, gerfmuod_graph_result got, uint32_t limit) { is(what, got, GERFMUOD_REFUSED_HISTORY_FULL, 0, limit, 0); }
static void runs(const char *what, gerfmuod_graph_result got, uint32_t task) { is(what, got, 0, GERFMUOD_GRAPH_RUN, task, 0); }
static void sleeps(const char *what, gerfmuod_graph_result got) { is(what, got, 0, GERFMUOD_GRAPH_SLEEP, 0, 0); }
static void is_over(const char *what, gerfmuod_graph_result got) { is(what, got, 0, GERFMUOD_GRAPH_OVER, 0, 0); }

/* Opens a graph with tasks that wait for nothing; starts it on a number of threads, unless that is 0. */
static void open_with(uint32_t is_traced, uint32_t tasks, uint32_t threads) {
    gerfmuod_graph_open(&graph, is_traced, 2);
    for (uint32_t t = 0; t < tasks; t++) is("a task", spawn(0, NULL, 0, 0), 0, 0, t, 0);
    if (threads) ok("start", call(GERFMUOD_GRAPH_START, threads, 0));
}

static void check_not_open(void) {
    const uint32_t offset = 0;
    for (uint32_t number = 0; number < 20; number++) refused("a call without a graph", call(number, 0, 0), GERFMUOD_REFUSED_NO_POOL);
    refused("describe without a graph", gerfmuod_graph_describe(&graph, NULL, 0, &offset, 1, NULL, 0), GERFMUOD_REFUSED_NO_POOL);
    refused("spawn without a graph", spawn(9, NULL, 0, 0), GERFMUOD_REFUSED_NO_POOL);
    refused("a task without a graph", gerfmuod_graph_task(&graph, 9, NULL, 0, 0), GERFMUOD_REFUSED_NO_POOL);
}

static void close_graph(void) {
    ok("close", call(GERFMUOD_GRAPH_CLOSE, 0, 0));
    check_not_open();
}

CASE(describe) {
    static const struct {
        const char *what;
        size_t classes_count, offsets_count, inputs_count;
        uint8_t classes[3];
        uint32_t offsets[4], inputs[3], refused, at;
    } graphs[] = {
        {"no offset", 0, 0, 0, {0}, {0}, {0}, GERFMUOD_REFUSED_BAD_SPEC, 0},
        {"classes of two of three tasks", 2, 4, 0, {0}, {0}, {0}, GERFMUOD_REFUSED_BAD_SPEC, 0},
        {"classes of three of two tasks", 3, 3, 0, {0}, {0}, {0}, GERFMUOD_REFUSED_BAD_SPEC, 0},
        {"a class of no task", 1, 1, 0, {0}, {0}, {0}, GERFMUOD_REFUSED_BAD_SPEC, 0},
        {"no class", 3, 4, 0, {0, 3, 4}, {0}, {0}, GERFMUOD_REFUSED_BAD_SPEC, 2},
        {"offsets that decrease", 0, 4, 1, {0}, {0, 0, 1, 0}, {0}, GERFMUOD_REFUSED_BAD_SPEC, 2},
        {"an offset that passes the end", 0, 3, 1, {0}, {0, 0, 2}, {0}, GERFMUOD_REFUSED_BAD_SPEC, 1},
        {"a first offset that passes the end", 0, 2, 1, {0}, {2, 2}, {0}, GERFMUOD_REFUSED_BAD_SPEC, 0},
        {"an input of itself", 0, 4, 2, {0}, {0, 0, 1, 2}, {0, 2}, GERFMUOD_REFUSED_NO_TASK, 2},
        {"an input that is not there", 0, 2, 1, {0}, {0, 1}, {UINT32_MAX}, GERFMUOD_REFUSED_NO_TASK, 0},
        {"the first task that is wrong", 3, 4, 1, {0, 0, 9}, {0, 0, 1, 0}, {1}, GERFMUOD_REFUSED_NO_TASK, 1},
        {"a class before an input", 2, 3, 1, {0, 4}, {0, 0, 1}, {1}, GERFMUOD_REFUSED_BAD_SPEC, 1},
        {"inputs that are not used, and one twice", 0, 4, 3, {0}, {1, 1, 2, 3}, {9, 0, 0}, GERFMUOD_OK, 0},
    };
    gerfmuod_graph_open(&graph, 0, 2);
    for (size_t k = 0; k < sizeof graphs / sizeof *graphs; k++) {
        is(graphs[k].what, gerfmuod_graph_describe(&graph, graphs[k].classes, graphs[k].classes_count, graphs[k].offsets,
                                                   graphs[k].offsets_count, graphs[k].inputs, graphs[k].inputs_count),
           graphs[k].refused, 0, graphs[k].at, 0);
        is("what is there", call(GERFMUOD_GRAPH_COUNT, 0, 0), 0, graphs[k].refused ? 0 : 1, graphs[k].refused ? 0 : 3, 0);
    }
    const uint32_t offsets[] = {0, 0};
    refused("a second graph", gerfmuod_graph_describe(&graph, NULL, 9, offsets, 0, NULL, 0), GERFMUOD_REFUSED_WRONG_LIFE);
    close_graph();
    open_with(0, 0, 1);
    refused("a graph after the start", gerfmuod_graph_describe(&graph, NULL, 0, offsets, 2, NULL, 0), GERFMUOD_REFUSED_WRONG_LIFE);
    close_graph();
    gerfmuod_graph_open(&graph, 0, 2);
    ok("a graph without a task", gerfmuod_graph_describe(&graph, NULL, 0, offsets, 1, NULL, 0));
    ok("and one with a task", gerfmuod_graph_describe(&graph, NULL, 0, offsets, 2, NULL, 0));
    close_graph();
}

/* Refusals of gerfmuod_graph_spawn, before a run and in it; then tasks that wait for one that is done, and for one that is not. */
CASE(spawns) {
    const uint32_t inputs[] = {0, 1, UINT32_MAX}, too_many = GERFMUOD_GRAPH_MAX_OUTSIDE + 1;
    open_with(0, 1, 0);
    for (int is_started = 0; is_started < 2; is_started++) {
        refused("no class before no input", spawn(4, inputs, 3, too_many), GERFMUOD_REFUSED_BAD_SPEC);
        refused("an input of itself before too many from outside", spawn(3, inputs, 2, too_many), GERFMUOD_REFUSED_NO_TASK);
        refused("an input that is not there", spawn(0, inputs + 2, 1, 0), GERFMUOD_REFUSED_NO_TASK);
        full("too many from outside", spawn(0, inputs, 1, too_many), GERFMUOD_GRAPH_MAX_OUTSIDE);
        is("one task is there", call(GERFMUOD_GRAPH_COUNT, 0, 0), 0, 1, 1, 0);
        if (!is_started) ok("start", call(GERFMUOD_GRAPH_START, 3, 0));
    }
    runs("the task", turn(NONE), 0);
    is("one that waits for it", spawn(0, inputs, 1, 0), 0, 0, 1, 0);
    sleeps("it is not ready", turn(NONE));
    runs("a task that becomes ready is for the same thread", turn(0), 1);
    is("one that waits for nothing any more", spawn(0, inputs, 1, 0), 0, 0, 2, 1);
    runs("it runs", call(GERFMUOD_GRAPH_TURN_WOKEN, NONE, 0), 2);
    is("one that waits twice, and from outside", spawn(0, inputs, 2, 1), 0, 0, 3, 0);
    sleeps("done", turn(2));
    sleeps("it still waits", turn(1));
    is("a release", call(GERFMUOD_GRAPH_RELEASE, 3, 0), 0, 0, 0, 1);
    runs("it runs", call(GERFMUOD_GRAPH_TURN_WOKEN, NONE, 0), 3);
    is("the end signals the other thread", turn(3), 0, GERFMUOD_GRAPH_OVER, 0, 1);
    is_over("which comes back", call(GERFMUOD_GRAPH_TURN_WOKEN, NONE, 0));
    refused("a task after the end, of no class", spawn(9, NULL, 0, 0), GERFMUOD_REFUSED_ENDED);
    refused("again with tasks that were added", call(GERFMUOD_GRAPH_AGAIN, 0, 0), GERFMUOD_REFUSED_WRONG_LIFE);
    close_graph();
}

/* Refusals of gerfmuod_graph_task, before a run and in it, and that they change nothing: task 0 writes the handle, tasks 1 and 2 read it,
 * and task 3 updates it. */
CASE(data) {
    const uint32_t too_many = GERFMUOD_GRAPH_MAX_OUTSIDE + 1;
    const gerfmuod_access wrong[] = {{0, 0}, {0, 4}, {0, UINT32_MAX}, {1, GERFMUOD_READ}, {UINT32_MAX, GERFMUOD_UPDATE}};
    const gerfmuod_access right[] = {{0, GERFMUOD_WRITE}, {0, GERFMUOD_READ}, {0, GERFMUOD_READ}, {0, GERFMUOD_UPDATE}};
    gerfmuod_graph_open(&graph, 0, 2);
    refused("no handle is there", gerfmuod_graph_task(&graph, 0, right, 1, 0), GERFMUOD_REFUSED_BAD_SPEC);
    is("the first handle", call(GERFMUOD_GRAPH_HANDLE, 7, 7), 0, 0, 0, 0);
    for (uint32_t task = 0; task < 4; task++) {
        for (int k = 0; k < 5; k++) {
            const gerfmuod_access pair[] = {right[task], wrong[k]};
            refused("a wrong access before no class", gerfmuod_graph_task(&graph, 4, pair, 2, too_many), GERFMUOD_REFUSED_BAD_SPEC);
        }
        refused("no class", gerfmuod_graph_task(&graph, 4, right + task, 1, 0), GERFMUOD_REFUSED_BAD_SPEC);
        full("too many from outside", gerfmuod_graph_task(&graph, 0, right + task, 1, too_many), GERFMUOD_GRAPH_MAX_OUTSIDE);
        is("a task", gerfmuod_graph_task(&graph, task / 2, right + task, 1, 0), 0, 0, task, 0);
        if (task == 1) ok("start", call(GERFMUOD_GRAPH_START, 3, 0));
    }
    is("a handle in a run", call(GERFMUOD_GRAPH_HANDLE, 0, 0), 0, 0, 1, 0);
    is("a task without an access", gerfmuod_graph_task(&graph, 1, NULL, 0, 1), 0, 0, 4, 0);
    runs("the writer", turn(NONE), 0);
    sleeps("the others wait for it", turn(NONE));
    is("then both readers may run", turn(0), 0, GERFMUOD_GRAPH_RUN, 1, 1);
    runs("the other one", call(GERFMUOD_GRAPH_TURN_WOKEN, NONE, 0), 2);
    sleeps("the update waits for both", turn(1));
    runs("it runs", turn(2), 3);
    refused("again with a task that was added in the run", call(GERFMUOD_GRAPH_RESET, 0, 0), GERFMUOD_REFUSED_RUNNING);
    is("the last one", call(GERFMUOD_GRAPH_RELEASE, 4, 0), 0, 0, 0, 1);
    runs("which no access holds back", call(GERFMUOD_GRAPH_TURN_WOKEN, NONE, 0), 4);
    sleeps("the end is not there", turn(4));
    is("the end", turn(3), 0, GERFMUOD_GRAPH_OVER, 0, 1);
    is_over("for both", call(GERFMUOD_GRAPH_TURN_WOKEN, NONE, 0));
    refused("a task after the end, of no class", gerfmuod_graph_task(&graph, 9, right, 1, 0), GERFMUOD_REFUSED_ENDED);
    refused("a wrong access before that", gerfmuod_graph_task(&graph, 9, wrong, 1, 0), GERFMUOD_REFUSED_BAD_SPEC);
    is("a handle after the end", call(GERFMUOD_GRAPH_HANDLE, 0, 0), 0, 0, 2, 0);
    close_graph();
}

/* A graph in each of its states, and what start, again and may_record are refused for there. Task 1 reads task 0. */
static void is_in_state(const char *what, uint32_t start, uint32_t again, uint32_t may_record) {
    refused(what, call(GERFMUOD_GRAPH_START, start ? 1 : 0, 0), start ? start : GERFMUOD_REFUSED_NO_THREAD);
    if (again) refused(what, call(GERFMUOD_GRAPH_AGAIN, 0, 0), again);
    refused(what, call(GERFMUOD_GRAPH_MAY_RECORD, 0, 0), may_record);
}

CASE(states) {
    const uint32_t first = 0;
    open_with(0, 1, 0);
    is("a task that waits", spawn(0, &first, 1, 0), 0, 0, 1, 0);
    for (int run = 0; run < 3; run++) {
        is_in_state("before the start", 0, GERFMUOD_REFUSED_WRONG_LIFE, 0);
        sleeps("a turn before the start", turn(NONE));
        is_in_state("while it waits", 0, GERFMUOD_REFUSED_RUNNING, GERFMUOD_REFUSED_RUNNING);
        is("start", call(GERFMUOD_GRAPH_START, 1, 0), 0, 0, 0, 1);
        is_in_state("while a turn was signalled", GERFMUOD_REFUSED_RUNNING, GERFMUOD_REFUSED_RUNNING, GERFMUOD_REFUSED_RUNNING);
        runs("the first task", call(GERFMUOD_GRAPH_TURN_WOKEN, NONE, 0), 0);
        is_in_state("while a task runs", GERFMUOD_REFUSED_RUNNING, GERFMUOD_REFUSED_RUNNING, GERFMUOD_REFUSED_RUNNING);
        runs("the second task", turn(0), 1);
        sleeps("a turn that waits for the end", turn(NONE));
        is("the end", turn(1), 0, GERFMUOD_GRAPH_OVER, 0, 1);
        is_in_state("before that turn returned", GERFMUOD_REFUSED_RUNNING, GERFMUOD_REFUSED_RUNNING, GERFMUOD_REFUSED_RUNNING);
        is_over("the turn", call(GERFMUOD_GRAPH_TURN_WOKEN, NONE, 0));
        is_in_state("after the end", GERFMUOD_REFUSED_ENDED, 0, GERFMUOD_REFUSED_WRONG_LIFE);
        ok("a stop after the end", call(GERFMUOD_GRAPH_STOP, 0, 0));
        is_over("changes nothing", turn(NONE));
        refused("a release of a task that is done", call(GERFMUOD_GRAPH_RELEASE, 0, 0), GERFMUOD_REFUSED_WRONG_LIFE);
        ok("again", call(GERFMUOD_GRAPH_AGAIN, 0, 0));
    }
    ok("start", call(GERFMUOD_GRAPH_START, 1, 0));
    is_in_state("a run without a turn", GERFMUOD_REFUSED_WRONG_LIFE, GERFMUOD_REFUSED_WRONG_LIFE, GERFMUOD_REFUSED_WRONG_LIFE);
    close_graph();
}

/* Inputs from outside, before the start and in the run. Task 1 reads task 0. */
CASE(outside) {
    const uint32_t first = 0;
    open_with(0, 1, 0);
    is("a task that waits", spawn(0, &first, 1, 1), 0, 0, 1, 0);
    for (int is_started = 0; is_started < 2; is_started++) {
        refused("outside of no task", call(GERFMUOD_GRAPH_OUTSIDE, 2, 0), GERFMUOD_REFUSED_NO_TASK);
        refused("release of no task", call(GERFMUOD_GRAPH_RELEASE, UINT32_MAX, 0), GERFMUOD_REFUSED_NO_TASK);
        refused("release of a task that awaits none", call(GERFMUOD_GRAPH_RELEASE, 0, 0), GERFMUOD_REFUSED_WRONG_LIFE);
        ok("outside of a task that waits", call(GERFMUOD_GRAPH_OUTSIDE, 1, 0));
        ok("its release", call(GERFMUOD_GRAPH_RELEASE, 1, 0));
        if (is_started) break;
        ok("outside of a ready task", call(GERFMUOD_GRAPH_OUTSIDE, 0, 0));
        is("none is ready", call(GERFMUOD_GRAPH_COUNT, 0, 0), 0, 0, 2, 0);
        ok("its release", call(GERFMUOD_GRAPH_RELEASE, 0, 0));
        is("one is ready", call(GERFMUOD_GRAPH_COUNT, 0, 0), 0, 1, 2, 0);
        ok("start", call(GERFMUOD_GRAPH_START, 3, 0));
    }
    refused("outside of a ready task", call(GERFMUOD_GRAPH_OUTSIDE, 0, 0), GERFMUOD_REFUSED_WRONG_LIFE);
    runs("the first task", turn(NONE), 0);
    refused("outside of a task that runs", call(GERFMUOD_GRAPH_OUTSIDE, 0, 0), GERFMUOD_REFUSED_WRONG_LIFE);
    sleeps("the second one awaits an input", turn(0));
    refused("outside of a task that is done", call(GERFMUOD_GRAPH_OUTSIDE, 0, 0), GERFMUOD_REFUSED_WRONG_LIFE);
    is("its release", call(GERFMUOD_GRAPH_RELEASE, 1, 0), 0, 0, 0, 1);
    refused("once too often", call(GERFMUOD_GRAPH_RELEASE, 1, 0), GERFMUOD_REFUSED_WRONG_LIFE);
    runs("the second task", call(GERFMUOD_GRAPH_TURN_WOKEN, NONE, 0), 1);
    close_graph();
}

/* Every call after a fault, which came of a stop, or of a task that does not run. */
CASE(faults) {
    const uint32_t faults[] = {GERFMUOD_REFUSED_STOPPED, GERFMUOD_REFUSED_STOPPED, GERFMUOD_REFUSED_WRONG_LIFE, GERFMUOD_REFUSED_NO_TASK};
    const uint32_t tasks[] = {0, NONE, 1, 2}, offset = 0;
    for (int k = 0; k < 4; k++) {
        open_with(0, 2, 4);
        runs("a task", turn(NONE), 0);
        ok("another one awaits an input", call(GERFMUOD_GRAPH_FAULT, 0, 0));
        if (k < 2) {
            runs("the other", turn(NONE), 1);
            sleeps("a thread", turn(NONE)), sleeps("and another", turn(NONE));
            is("a stop signals all", call(GERFMUOD_GRAPH_STOP, tasks[k], 0), 0, 0, 0, 2);
            ok("a second one", call(GERFMUOD_GRAPH_STOP, 9, 0));
        } else {
            is("a wrong task", turn(tasks[k]), faults[k], 0, tasks[k], 0);
        }
        for (uint32_t number = GERFMUOD_GRAPH_TURN; number <= GERFMUOD_GRAPH_TURN_WOKEN; number++)
            is("a turn", call(number, k, 1), faults[k], 0, tasks[k], 0);
        const uint32_t others[] = {GERFMUOD_GRAPH_START, GERFMUOD_GRAPH_AGAIN, GERFMUOD_GRAPH_OUTSIDE, GERFMUOD_GRAPH_RELEASE,
                                   GERFMUOD_GRAPH_MAY_RECORD, GERFMUOD_GRAPH_HANDLE};
        for (size_t c = 0; c < sizeof others / sizeof *others; c++) refused("a call", call(others[c], 7, 0), faults[k]);
        refused("a task", spawn(9, NULL, 0, 0), faults[k]);
        refused("a task over data", gerfmuod_graph_task(&graph, 9, NULL, 0, 0), faults[k]);
        refused("a graph", gerfmuod_graph_describe(&graph, NULL, 0, &offset, 1, NULL, 0), faults[k]);
        is("the fault", call(GERFMUOD_GRAPH_FAULT, 0, 0), faults[k], 0, tasks[k], 0);
        is("the tasks", call(GERFMUOD_GRAPH_COUNT, 0, 0), 0, k < 2 ? 0 : 1, 2, 0);
        ok("no event", call(GERFMUOD_GRAPH_EVENT, 0, 0));
        close_graph();
    }
    open_with(0, 1, 0);
    ok("no fault", call(GERFMUOD_GRAPH_FAULT, 0, 0));
    for (uint32_t number = 16; number < 18; number++) refused("no such call", call(number, 0, 0), GERFMUOD_REFUSED_BAD_SPEC);
    refused("no such call", call(UINT32_MAX, 0, 0), GERFMUOD_REFUSED_BAD_SPEC);
    is("a task before the start", turn(0), GERFMUOD_REFUSED_WRONG_LIFE, 0, 0, 0);
    close_graph();
}

CASE(resets) {
    open_with(1, 2, 1);
    runs("a task", turn(NONE), 0);
    refused("reset while it runs", call(GERFMUOD_GRAPH_RESET, 0, 0), GERFMUOD_REFUSED_RUNNING);
    runs("the other one", turn(0), 1);
    is("one is left", call(GERFMUOD_GRAPH_LEFT, 0, 0), 0, 0, 1, 0);
    sleeps("a thread", turn(NONE));
    is("a stop", call(GERFMUOD_GRAPH_STOP, 1, 0), 0, 0, 0, 1);
    refused("reset while a turn waits", call(GERFMUOD_GRAPH_RESET, 0, 0), GERFMUOD_REFUSED_RUNNING);
    is("it comes back", call(GERFMUOD_GRAPH_TURN_WOKEN, NONE, 0), GERFMUOD_REFUSED_STOPPED, 0, 1, 0);
    ok("reset after a fault", call(GERFMUOD_GRAPH_RESET, 0, 0));
    ok("which is forgotten", call(GERFMUOD_GRAPH_FAULT, 0, 0));
    ok("no event", call(GERFMUOD_GRAPH_EVENT, 0, 0));
    is("all are left", call(GERFMUOD_GRAPH_LEFT, 0, 0), 0, 0, 2, 0);
    ok("outside", call(GERFMUOD_GRAPH_OUTSIDE, 1, 0));
    ok("reset before a run", call(GERFMUOD_GRAPH_RESET, 0, 0));
    ok("start", call(GERFMUOD_GRAPH_START, 1, 0));
    runs("the first", turn(NONE), 0);
    runs("the second, which awaits nothing", turn(0), 1);
    is_over("the end", turn(1));
    ok("reset after the end", call(GERFMUOD_GRAPH_RESET, 0, 0));
    ok("start", call(GERFMUOD_GRAPH_START, 1, 0));
    is("a task more", spawn(0, NULL, 0, 0), 0, 0, 2, 0);
    refused("reset of a graph that grew", call(GERFMUOD_GRAPH_RESET, 0, 0), GERFMUOD_REFUSED_WRONG_LIFE);
    is("nothing changed", call(GERFMUOD_GRAPH_COUNT, 0, 0), 0, 3, 3, 0);
    close_graph();
}

/* When threads spin and when they sleep, and which are signalled. */
CASE(waits) {
    open_with(1, 2, 2); /* on two processors */
    runs("a task", call(GERFMUOD_GRAPH_TURN, NONE, 1), 0);
    runs("another one", call(GERFMUOD_GRAPH_TURN, NONE, 1), 1);
    is("a thread has polls", call(GERFMUOD_GRAPH_TURN, NONE, 1), 0, GERFMUOD_GRAPH_SPIN, 0, 0);
    is("one poll less", call(GERFMUOD_GRAPH_TURN_SPUN, NONE, 7), 0, GERFMUOD_GRAPH_SPIN, 0, 0);
    sleeps("another one has none", turn(NONE));
    is("a task for the one that spins", spawn(0, NULL, 0, 0), 0, 0, 2, 0);
    runs("which comes back", call(GERFMUOD_GRAPH_TURN_SPUN, NONE, 0), 2);
    is("a task for the one that sleeps", spawn(0, NULL, 0, 0), 0, 0, 3, 1);
    is("one more: it is on its way", spawn(0, NULL, 0, 0), 0, 0, 4, 0);
    runs("it comes back", call(GERFMUOD_GRAPH_TURN_WOKEN, NONE, 1), 3);
    runs("and another thread", turn(0), 4);
    is("an event", call(GERFMUOD_GRAPH_EVENT, 4, 0), 0, 2, 0, 0);
    is("the next one", call(GERFMUOD_GRAPH_EVENT, 5, 0), 0, 1, 4, 0);
    ok("no such event", call(GERFMUOD_GRAPH_EVENT, 6, 0));
    close_graph();
    open_with(0, 1, 3); /* more threads than processors */
    runs("a task", turn(NONE), 0);
    sleeps("a thread of too many", call(GERFMUOD_GRAPH_TURN, NONE, UINT32_MAX));
    sleeps("it woke up by itself", call(GERFMUOD_GRAPH_TURN_WOKEN, NONE, 1));
    close_graph();
}

/* The library writes only to the memory of the graph. */
CASE(memory_around_it) {
    struct {
        uint64_t before[16];
        gerfmuod_graph graph;
        uint64_t after[16];
    } memory;
    bool is_well = true;
    memset(&memory, 0x5a, sizeof memory);
    gerfmuod_graph_open(&memory.graph, 1, 2);
    for (uint32_t t = 0; t < 100; t++) is("a task", gerfmuod_graph_spawn(&memory.graph, t % 4, &t, 0, 0), 0, 0, t, 0);
    ok("start", gerfmuod_graph_call(&memory.graph, GERFMUOD_GRAPH_START, 1, 0));
    gerfmuod_graph_result answer = gerfmuod_graph_call(&memory.graph, GERFMUOD_GRAPH_TURN, NONE, 0);
    while (answer.next == GERFMUOD_GRAPH_RUN) answer = gerfmuod_graph_call(&memory.graph, GERFMUOD_GRAPH_TURN, answer.number, 0);
    is_over("the end", answer);
    ok("again", gerfmuod_graph_call(&memory.graph, GERFMUOD_GRAPH_AGAIN, 0, 0));
    ok("close", gerfmuod_graph_call(&memory.graph, GERFMUOD_GRAPH_CLOSE, 0, 0));
    for (int i = 0; i < 16; i++) is_well &= memory.before[i] == 0x5a5a5a5a5a5a5a5a && memory.after[i] == 0x5a5a5a5a5a5a5a5a;
    check("what is around a graph stays", is_well);
}

/* ---- what is too large for a quick run */
CASE(most_steps) {
    static uint32_t offsets[TRACED_TASKS + 2];
    for (uint32_t more = 0; more < 2; more++) {
        gerfmuod_graph_open(&graph, 1, 2);
        ok("a traced graph", gerfmuod_graph_describe(&graph, NULL, 0, offsets, TRACED_TASKS + more + 1, NULL, 0));
        if (more) refused("no thread before too many steps", call(GERFMUOD_GRAPH_START, 0, 0), GERFMUOD_REFUSED_NO_THREAD);
        if (more) full("too many steps", call(GERFMUOD_GRAPH_START, 1, 0), GERFMUOD_GRAPH_MAX_STEPS);
        else ok("as many as there may be", call(GERFMUOD_GRAPH_START, 1, 0));
        if (more) sleeps("none of it runs", turn(NONE));
        else runs("it runs", turn(NONE), 0);
        if (more) is("a task before a start", spawn(0, NULL, 0, 0), 0, 0, TRACED_TASKS + 1, 0);
        else full("one more in a run", spawn(0, NULL, 0, 0), GERFMUOD_GRAPH_MAX_STEPS);
        close_graph();
    }
}

CASE(most_threads_and_inputs) {
    open_with(0, 1, 0);
    for (uint32_t k = 0; k < GERFMUOD_GRAPH_MAX_OUTSIDE; k++) ok("outside", call(GERFMUOD_GRAPH_OUTSIDE, 0, 0));
    full("one too many", call(GERFMUOD_GRAPH_OUTSIDE, 0, 0), GERFMUOD_GRAPH_MAX_OUTSIDE);
    is("as many at once", spawn(0, NULL, 0, GERFMUOD_GRAPH_MAX_OUTSIDE), 0, 0, 1, 0);
    full("one too many", call(GERFMUOD_GRAPH_OUTSIDE, 1, 0), GERFMUOD_GRAPH_MAX_OUTSIDE);
    ok("start", call(GERFMUOD_GRAPH_START, 3, 0));
    for (uint32_t k = 0; k < GERFMUOD_GRAPH_MAX_THREADS; k++) sleeps("a thread", turn(NONE));
    is("one too many", turn(NONE), GERFMUOD_REFUSED_HISTORY_FULL, 0, NONE, 0);
    for (uint32_t k = 1; k < GERFMUOD_GRAPH_MAX_OUTSIDE; k++) ok("release", call(GERFMUOD_GRAPH_RELEASE, 0, 0));
    is("the last one", call(GERFMUOD_GRAPH_RELEASE, 0, 0), 0, 0, 0, 1);
    is("a turn that need not wait: one more is on its way", turn(NONE), 0, GERFMUOD_GRAPH_RUN, 0, 0);
    is("a stop", call(GERFMUOD_GRAPH_STOP, 0, 0), 0, 0, 0, GERFMUOD_GRAPH_MAX_THREADS - 1);
    close_graph();
}

/* ---- the team */
static int count_body(void *context, uint32_t task) {
    (void)task;
    __atomic_fetch_add((uint32_t *)context, 1, __ATOMIC_RELAXED);
    return 0;
}

struct seen {
    gerfmuod_team *team;
    uint32_t ran, run, start, again, clear, record, profile; /* what the calls returned in a body */
};

/* Task 2 fails. */
static int body(void *context, uint32_t task) {
    struct seen *seen = context;
    if (__atomic_fetch_add(&seen->ran, 1, __ATOMIC_RELAXED) == 0) {
        seen->run = gerfmuod_team_run(seen->team, 2, body, seen), seen->start = gerfmuod_team_start(seen->team, 2);
        seen->again = gerfmuod_team_again(seen->team), seen->clear = gerfmuod_team_clear(seen->team);
        seen->record = gerfmuod_team_record(seen->team, 0), seen->profile = gerfmuod_team_profile(seen->team, stdout);
    }
    return task == 2;
}

static gerfmuod_team *team_of(uint32_t tasks) {
    gerfmuod_team *team = new_team();
    for (uint32_t t = 0; t < tasks; t++) check_ok("task", gerfmuod_team_task(team, 0, NULL, 0, NULL));
    return team;
}

CASE(team_describe) {
    const uint32_t inputs[] = {0, 1}, offsets[] = {0, 0, 1, 2}, falling[] = {0, 1, 0, 0}, none[] = {0, 0, 0, 0}, self[] = {0, 0, 0, 2};
    const uint8_t classes[] = {0, 0, 4};
    uint32_t at = 9, number = 9;
    gerfmuod_team *team = team_of(0);
    check_refusal("an input that is not earlier", gerfmuod_team_task(team, 0, inputs, 1, &number), GERFMUOD_REFUSED_NO_TASK);
    check_refusal("no class", gerfmuod_team_task(team, 4, NULL, 0, &number), GERFMUOD_REFUSED_BAD_SPEC);
    check("no number is written", number == 9);
    check_refusal("no class", gerfmuod_team_describe(team, 3, classes, none, NULL, &at), GERFMUOD_REFUSED_BAD_SPEC);
    check("at a task", at == 2);
    check_refusal("an input of itself", gerfmuod_team_describe(team, 2, NULL, self + 1, inputs, &at), GERFMUOD_REFUSED_NO_TASK);
    check("at a task", at == 1);
    check_refusal("inputs that are not there", gerfmuod_team_describe(team, 3, NULL, offsets, NULL, &at), GERFMUOD_REFUSED_BAD_SPEC);
    check("at a task", at == 1);
    check_refusal("offsets that decrease", gerfmuod_team_describe(team, 3, NULL, falling, inputs, NULL), GERFMUOD_REFUSED_BAD_SPEC);
    check_ok("a graph", gerfmuod_team_describe(team, 3, NULL, offsets, inputs, &at));
    check("at no task", at == 0);
    check_refusal("a second graph", gerfmuod_team_describe(team, 3, NULL, offsets, inputs, NULL), GERFMUOD_REFUSED_WRONG_LIFE);
    check_ok("one more task", gerfmuod_team_task(team, 3, inputs, 2, &number));
    check("its number", number == 3);
    gerfmuod_team_close(team);
    gerfmuod_team_close(NULL);
}

CASE(team_run) {
    struct seen seen = {.team = team_of(2)};
    check_refusal("no thread", gerfmuod_team_run(seen.team, 0, body, &seen), GERFMUOD_REFUSED_NO_THREAD);
    check_refusal("no thread", gerfmuod_team_start(seen.team, 0), GERFMUOD_REFUSED_NO_THREAD);
    check_refusal("again before a run", gerfmuod_team_again(seen.team), GERFMUOD_REFUSED_WRONG_LIFE);
    check_ok("a run", gerfmuod_team_run(seen.team, 1, body, &seen));
    check("each task ran", seen.ran == 2);
    check_refusal("a run in a run", seen.run, GERFMUOD_REFUSED_RUNNING);
    check_refusal("a start in a run", seen.start, GERFMUOD_REFUSED_RUNNING);
    check_refusal("again in a run", seen.again, GERFMUOD_REFUSED_RUNNING);
    check_refusal("clear in a run", seen.clear, GERFMUOD_REFUSED_RUNNING);
    check_refusal("recording in a run", seen.record, GERFMUOD_REFUSED_RUNNING);
    check_refusal("a profile in a run", seen.profile, GERFMUOD_REFUSED_RUNNING);
    check_refusal("a second run, of any number of threads", gerfmuod_team_run(seen.team, UINT32_MAX, body, &seen), GERFMUOD_REFUSED_ENDED);
    check_refusal("a start after the end", gerfmuod_team_start(seen.team, 2), GERFMUOD_REFUSED_ENDED);
    check_refusal("a task after the end", gerfmuod_team_task(seen.team, 0, NULL, 0, NULL), GERFMUOD_REFUSED_ENDED);
    gerfmuod_team_stop(seen.team, 0);
    check("a turn after the end", gerfmuod_team_turn(seen.team, GERFMUOD_GRAPH_NONE).next == GERFMUOD_GRAPH_OVER);
    check_ok("no fault", gerfmuod_team_fault(seen.team));
    check("of no task", gerfmuod_team_failed(seen.team) == GERFMUOD_GRAPH_NONE);
    check_ok("again", gerfmuod_team_again(seen.team));
    check_refusal("again twice", gerfmuod_team_again(seen.team), GERFMUOD_REFUSED_WRONG_LIFE);
    check_ok("outside", gerfmuod_team_outside(seen.team, 1));
    check_ok("release", gerfmuod_team_release(seen.team, 1));
    check_ok("a second run", gerfmuod_team_run(seen.team, 3, count_body, &seen.ran));
    check("each task ran again", seen.ran == 4);
    check_ok("again", gerfmuod_team_again(seen.team));
    check_ok("one more task", gerfmuod_team_task(seen.team, 0, NULL, 0, NULL));
    check_ok("a start", gerfmuod_team_start(seen.team, 2));
    check_refusal("a run of a team that was started", gerfmuod_team_run(seen.team, 1, body, &seen), GERFMUOD_REFUSED_WRONG_LIFE);
    check_ok("turns", take_turns(seen.team));
    check_ok("again", gerfmuod_team_again(seen.team));
    check_refusal("a body that fails", gerfmuod_team_run(seen.team, 2, body, &seen), GERFMUOD_REFUSED_STOPPED);
    check("its task", gerfmuod_team_failed(seen.team) == 2);
    check_ok("clear after a failure", gerfmuod_team_clear(seen.team));
    check_ok("no fault", gerfmuod_team_fault(seen.team));
    check_refusal("no task", gerfmuod_team_outside(seen.team, 0), GERFMUOD_REFUSED_NO_TASK);
    check_refusal("again of an empty graph", gerfmuod_team_again(seen.team), GERFMUOD_REFUSED_WRONG_LIFE);
    check_ok("record, as before the first task", gerfmuod_team_record(seen.team, 0));
    gerfmuod_team_close(seen.team);
}

/* All calls after a stop, before a run. */
CASE(team_stop) {
    uint32_t ran = 0, at = 9;
    const uint32_t offset = 0;
    gerfmuod_team *team = team_of(1);
    gerfmuod_team_stop(team, GERFMUOD_GRAPH_NONE);
    gerfmuod_team_stop(team, 0);
    check_refusal("the fault", gerfmuod_team_fault(team), GERFMUOD_REFUSED_STOPPED);
    check("of no task", gerfmuod_team_failed(team) == GERFMUOD_GRAPH_NONE);
    check_refusal("task", gerfmuod_team_task(team, 9, NULL, 0, NULL), GERFMUOD_REFUSED_STOPPED);
    check_refusal("graph", gerfmuod_team_describe(team, 0, NULL, &offset, NULL, &at), GERFMUOD_REFUSED_STOPPED);
    check("at no task", at == 0);
    check_refusal("outside", gerfmuod_team_outside(team, 9), GERFMUOD_REFUSED_STOPPED);
    check_refusal("release", gerfmuod_team_release(team, 9), GERFMUOD_REFUSED_STOPPED);
    check_refusal("start", gerfmuod_team_start(team, 0), GERFMUOD_REFUSED_STOPPED);
    check_refusal("run", gerfmuod_team_run(team, 2, count_body, &ran), GERFMUOD_REFUSED_STOPPED);
    check_refusal("turn", gerfmuod_team_turn(team, GERFMUOD_GRAPH_NONE).refused, GERFMUOD_REFUSED_STOPPED);
    check_refusal("again", gerfmuod_team_again(team), GERFMUOD_REFUSED_STOPPED);
    check_refusal("record", gerfmuod_team_record(team, 9), GERFMUOD_REFUSED_STOPPED);
    check_refusal("profile", gerfmuod_team_profile(team, stdout), GERFMUOD_REFUSED_WRONG_LIFE);
    check("nothing ran", ran == 0);
    gerfmuod_team_close(team);
}

struct attached {
    gerfmuod_team *team;
    uint32_t task, number; /* what was attached, and what *number was then */
};
static void attach(void *data, uint32_t task) {
    struct attached *attached = data;
    check("the number is written before", attached->number == task);
    attached->task = task;
}

CASE(team_spawn) {
    const uint32_t first = 0;
    struct attached it = {team_of(1), 9, 9};
    check_refusal("no class", gerfmuod_team_spawn(it.team, 4, NULL, 0, 0, attach, &it, &it.number), GERFMUOD_REFUSED_BAD_SPEC);
    check_refusal("too many", gerfmuod_team_spawn(it.team, 0, NULL, 0, UINT32_MAX, attach, &it, &it.number), GERFMUOD_REFUSED_HISTORY_FULL);
    check("nothing is attached", it.task == 9 && it.number == 9);
    check_ok("start", gerfmuod_team_start(it.team, 1));
    check("the task", gerfmuod_team_turn(it.team, GERFMUOD_GRAPH_NONE).number == 0);
    check_ok("one more", gerfmuod_team_spawn(it.team, 0, &first, 1, 1, attach, &it, &it.number));
    check("is attached", it.task == 1);
    check_refusal("outside of no task", gerfmuod_team_outside(it.team, 2), GERFMUOD_REFUSED_NO_TASK);
    check_refusal("release of a task that awaits none", gerfmuod_team_release(it.team, 0), GERFMUOD_REFUSED_WRONG_LIFE);
    check_ok("release", gerfmuod_team_release(it.team, 1));
    check("it runs", gerfmuod_team_turn(it.team, 0).number == 1);
    check("the end", gerfmuod_team_turn(it.team, 1).next == GERFMUOD_GRAPH_OVER);
    check_refusal("after the end", gerfmuod_team_spawn(it.team, 0, NULL, 0, 0, attach, &it, NULL), GERFMUOD_REFUSED_ENDED);
    check_refusal("again", gerfmuod_team_again(it.team), GERFMUOD_REFUSED_WRONG_LIFE);
    gerfmuod_team_close(it.team);
}

/* Turns in two calls: the first one does not wait, before the start either, and the graph knows that the turn has not returned. */
CASE(team_try_turn) {
    gerfmuod_team *team = team_of(1);
    const gerfmuod_graph_result waits = {GERFMUOD_OK, GERFMUOD_GRAPH_SLEEP, 0, 0}, over = {GERFMUOD_OK, GERFMUOD_GRAPH_OVER, 0, 0};
    gerfmuod_graph_result answer = gerfmuod_team_try_turn(team, GERFMUOD_GRAPH_NONE);
    check("before the start", !memcmp(&answer, &waits, sizeof answer));
    check_ok("outside", gerfmuod_team_outside(team, 0));
    check_ok("start", gerfmuod_team_start(team, 1));
    check_refusal("a turn that has not returned", gerfmuod_team_start(team, 1), GERFMUOD_REFUSED_RUNNING);
    check_ok("release", gerfmuod_team_release(team, 0));
    check("the task", gerfmuod_team_await_turn(team).number == 0);
    answer = gerfmuod_team_try_turn(team, 0);
    check("the end", !memcmp(&answer, &over, sizeof answer));
    check_ok("again", gerfmuod_team_again(team));
    check_ok("outside", gerfmuod_team_outside(team, 0));
    check_ok("start", gerfmuod_team_start(team, 1));
    answer = gerfmuod_team_try_turn(team, GERFMUOD_GRAPH_NONE);
    check("nothing is ready", !memcmp(&answer, &waits, sizeof answer));
    gerfmuod_team_stop(team, 0);
    answer = gerfmuod_team_await_turn(team);
    check("it was stopped", answer.refused == GERFMUOD_REFUSED_STOPPED && answer.next == GERFMUOD_GRAPH_NOTHING && answer.number == 0);
    check_ok("reset", gerfmuod_team_reset(team));
    answer = gerfmuod_team_try_turn(team, 1);
    check("no such task", answer.refused == GERFMUOD_REFUSED_NO_TASK && answer.number == 1);
    gerfmuod_team_close(team);
}

/* More tasks than a traced team may have: one that is not traced runs them, twice. */
CASE(most_tasks_of_a_team) {
    static uint32_t offsets[TRACED_TASKS + 2];
    uint32_t ran = 0;
    gerfmuod_team *team;
    check_ok("open", gerfmuod_team_open_traced(&team));
    check_ok("a graph", gerfmuod_team_describe(team, TRACED_TASKS + 1, NULL, offsets, NULL, NULL));
    check_refusal("too many steps", gerfmuod_team_run(team, 4, count_body, &ran), GERFMUOD_REFUSED_HISTORY_FULL);
    check_refusal("and again", gerfmuod_team_run(team, 1, count_body, &ran), GERFMUOD_REFUSED_HISTORY_FULL);
    check("none runs", ran == 0);
    gerfmuod_team_close(team);
    team = team_of(0);
    check_ok("a graph", gerfmuod_team_describe(team, TRACED_TASKS + 1, NULL, offsets, NULL, NULL));
    check_ok("a run", gerfmuod_team_run(team, 4, count_body, &ran));
    check_ok("again", gerfmuod_team_again(team));
    check_ok("a run", gerfmuod_team_run(team, 4, count_body, &ran));
    check("each task ran twice", ran == 2 * (TRACED_TASKS + 1));
    gerfmuod_team_close(team);
}

CASE(not_open) { check_not_open(); }

int main(int argc, char **argv) {
    const struct CMUnitTest cases[] = {
        cmocka_unit_test(not_open), cmocka_unit_test(describe), cmocka_unit_test(spawns), cmocka_unit_test(data), cmocka_unit_test(states),
        cmocka_unit_test(outside), cmocka_unit_test(faults), cmocka_unit_test(resets), cmocka_unit_test(waits),
        cmocka_unit_test(memory_around_it), cmocka_unit_test(team_describe), cmocka_unit_test(team_run),
        cmocka_unit_test(team_stop), cmocka_unit_test(team_spawn), cmocka_unit_test(team_try_turn),
    };
    const struct CMUnitTest large[] = {
        cmocka_unit_test(most_steps), cmocka_unit_test(most_threads_and_inputs),
        cmocka_unit_test(most_tasks_of_a_team),
    };
    (void)argv;
    limit_time();
    return RUN(cases) + (argc > 1 ? 0 : RUN(large));
}
