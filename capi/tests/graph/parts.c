/* parts.c: the parts of a graph in one process: the refusals of each call, random graphs over simulated networks, and allocations that
 * fail. A network brings messages in any order, some twice. Each value is the result of a body, so that a task that runs too early reads
 * another one than the sequential program. */
#define _POSIX_C_SOURCE 200809L
#include "../random.h"
#include "../wrap.h"
#include "check.h"
#include <gerfmuod/part.h>

WRAP(void *, malloc, (size_t));
WRAP(void *, realloc, (void *, size_t));

static long allocations_left = -1; /* until one fails; if negative, none fails */

static bool fails(void) {
    if (allocations_left > 0) --allocations_left;
    if (allocations_left != 0) return false;
    allocations_left = -1;
    return true;
}
void *__wrap_malloc(size_t size) { return fails() ? NULL : __real_malloc(size); }
void *__wrap_realloc(void *old, size_t size) { return fails() ? NULL : __real_realloc(old, size); }

enum { PARTS = 6, TASKS = 60, DATA = 5, INPUTS = 4, SEEDS = 2000, NONE = -1 };

/* ---- refusals: each field of each result */
static void is(const char *what, gerfmuod_part_result got, uint32_t refused, uint32_t next, uint32_t number, uint32_t to) {
    check_refusal(what, got.refused, refused);
    check_that(got.next == next && got.number == number && got.to == to, "%s: %u %u %u", what, got.next, got.number, got.to);
}
#define refused(what, got, why) is(what, got, GERFMUOD_REFUSED_##why, 0, 0, 0)
#define done(what, got) is(what, got, GERFMUOD_OK, 0, 0, 0)

static gerfmuod_part_result call(gerfmuod_part *part, uint32_t number, uint32_t task) { return gerfmuod_part_call(part, number, task); }

CASE(a_part_that_is_not_open) {
    gerfmuod_part part = {{0}};
    const gerfmuod_access access = {0, GERFMUOD_READ};
    for (uint32_t number = 0; number < 8; number++) refused("a call", call(&part, number, 0), NO_POOL);
    refused("a task", gerfmuod_part_task(&part, 9, NULL, 0, 9), NO_POOL);
    refused("a task on data", gerfmuod_part_shared_task(&part, 9, &access, 1, 9), NO_POOL);
}

CASE(descriptions_that_are_refused) {
    gerfmuod_part part;
    const uint32_t inputs[] = {0, 1};
    const gerfmuod_access read = {0, GERFMUOD_READ}, no_mode = {0, 4}, no_handle = {1, GERFMUOD_READ};
    gerfmuod_part_open(&part, 1, 3);
    refused("no call", call(&part, 6, 0), BAD_SPEC);
    refused("not started", call(&part, GERFMUOD_PART_NEXT, 0), WRONG_LIFE);
    refused("not started", call(&part, GERFMUOD_PART_ARRIVED, 0), WRONG_LIFE);
    refused("no task", call(&part, GERFMUOD_PART_DONE, 0), NO_TASK);
    refused("no owner before no class", gerfmuod_part_task(&part, 4, inputs, 2, 3), NO_NODE);
    refused("no class before no input", gerfmuod_part_task(&part, 4, inputs, 2, 1), BAD_SPEC);
    is("a task", gerfmuod_part_task(&part, 3, NULL, 0, 2), 0, 0, 0, 0);
    refused("an input to come", gerfmuod_part_task(&part, 0, inputs, 2, 1), NO_TASK);
    refused("no handle yet", gerfmuod_part_shared_task(&part, 4, &read, 1, 3), BAD_SPEC);
    is("a handle", call(&part, GERFMUOD_PART_HANDLE, 7), 0, 0, 0, 0);
    refused("no mode", gerfmuod_part_shared_task(&part, 0, &no_mode, 1, 0), BAD_SPEC);
    refused("no handle", gerfmuod_part_shared_task(&part, 0, &no_handle, 1, 3), BAD_SPEC);
    refused("no owner", gerfmuod_part_shared_task(&part, 0, &read, 1, 3), NO_NODE);
    is("a task on data", gerfmuod_part_shared_task(&part, 0, &read, 1, 0), 0, 0, 1, 0);
    done("start", call(&part, GERFMUOD_PART_START, 0));
    refused("a second start", call(&part, GERFMUOD_PART_START, 0), WRONG_LIFE);
    refused("a task after the start", gerfmuod_part_task(&part, 4, NULL, 0, 9), WRONG_LIFE);
    is("nothing to do", call(&part, GERFMUOD_PART_NEXT, 0), 0, GERFMUOD_PART_OVER, 0, 0);
    done("close", call(&part, GERFMUOD_PART_CLOSE, 0));
    refused("closed", call(&part, GERFMUOD_PART_START, 0), NO_POOL);
}

/* Task 0 of part 0 is read by task 1 of part 1 and task 2 of part 2; task 3 of part 0 reads both. */
CASE(calls_in_a_run) {
    gerfmuod_part part;
    const uint32_t first[] = {0}, both[] = {1, 2, 2};
    gerfmuod_part_open(&part, 0, 3);
    is("task 0", gerfmuod_part_task(&part, 0, NULL, 0, 0), 0, 0, 0, 0);
    is("task 1", gerfmuod_part_task(&part, 1, first, 1, 1), 0, 0, 1, 0);
    is("task 2", gerfmuod_part_task(&part, 0, first, 1, 2), 0, 0, 2, 0);
    is("task 3", gerfmuod_part_task(&part, 0, both, 3, 0), 0, 0, 3, 0);
    done("start", call(&part, GERFMUOD_PART_START, 0));
    is("run", call(&part, GERFMUOD_PART_NEXT, 0), 0, GERFMUOD_PART_RUN, 0, 0);
    is("wait", call(&part, GERFMUOD_PART_NEXT, 0), 0, GERFMUOD_PART_WAIT, 0, 0);
    refused("another's task", call(&part, GERFMUOD_PART_DONE, 1), NO_TASK);
    refused("a task that waits", call(&part, GERFMUOD_PART_DONE, 3), WRONG_LIFE);
    done("done", call(&part, GERFMUOD_PART_DONE, 0));
    refused("done again", call(&part, GERFMUOD_PART_DONE, 0), WRONG_LIFE);
    is("send", call(&part, GERFMUOD_PART_NEXT, 0), 0, GERFMUOD_PART_SEND, 0, 2);
    is("send", call(&part, GERFMUOD_PART_NEXT, 0), 0, GERFMUOD_PART_SEND, 0, 1);
    refused("an own value", call(&part, GERFMUOD_PART_ARRIVED, 0), NO_TASK);
    done("arrived", call(&part, GERFMUOD_PART_ARRIVED, 2));
    refused("twice", call(&part, GERFMUOD_PART_ARRIVED, 2), WRONG_LIFE);
    is("wait", call(&part, GERFMUOD_PART_NEXT, 0), 0, GERFMUOD_PART_WAIT, 0, 0);
    done("arrived", call(&part, GERFMUOD_PART_ARRIVED, 1));
    is("run", call(&part, GERFMUOD_PART_NEXT, 0), 0, GERFMUOD_PART_RUN, 3, 0);
    done("done", call(&part, GERFMUOD_PART_DONE, 3));
    is("over", call(&part, GERFMUOD_PART_NEXT, 0), 0, GERFMUOD_PART_OVER, 0, 0);
    done("close", call(&part, GERFMUOD_PART_CLOSE, 0));
}

/* ---- random graphs; a value is the number of bodies before it, mixed with what they read */
typedef struct {
    uint32_t owner, class_, count, on[INPUTS], modes[INPUTS];
} described;

static uint64_t mixed(uint64_t x, uint64_t y) { return (x ^ y) * 0xff51afd7ed558ccdu ^ x >> 29; }

static described tasks[TASKS];
static uint32_t parts, count;
static bool is_on_data;
/* what the sequential program leaves in the data, or of each task; and the same of each part */
static uint64_t expected[TASKS], here[PARTS][TASKS];
static struct {
    uint32_t task, to;
} messages[2 * TASKS * PARTS];
static uint32_t in_flight, calls;

static uint64_t result_of(uint32_t t, const uint64_t *values) {
    uint64_t sum = t + 1;
    for (uint32_t k = 0; k < tasks[t].count; k++)
        if (!is_on_data || tasks[t].modes[k] != GERFMUOD_WRITE) sum = mixed(sum, values[tasks[t].on[k]]);
    return sum;
}

static void draw(void) {
    parts = 1 + below(PARTS), count = 1 + below(TASKS), is_on_data = below(2);
    for (uint32_t t = 0; t < count; t++) {
        tasks[t] = (described){below(parts), below(4), is_on_data || t ? below(INPUTS) : 0, {0}, {0}};
        for (uint32_t k = 0; k < tasks[t].count; k++)
            tasks[t].on[k] = is_on_data ? (below(2) + k * 2) % DATA : below(t), tasks[t].modes[k] = 1 + below(3);
    }
}

static gerfmuod_part_result describe(gerfmuod_part *part, uint32_t t) {
    gerfmuod_access accesses[INPUTS];
    for (uint32_t k = 0; k < tasks[t].count; k++) accesses[k] = (gerfmuod_access){tasks[t].on[k], tasks[t].modes[k]};
    return is_on_data ? gerfmuod_part_shared_task(part, tasks[t].class_, accesses, tasks[t].count, tasks[t].owner)
                      : gerfmuod_part_task(part, tasks[t].class_, tasks[t].on, tasks[t].count, tasks[t].owner);
}

/* Describes the graph; each allocation may fail once, and the call is repeated then. Returns how many did. */
static uint32_t open_all(gerfmuod_part *all, bool counts) {
    uint32_t repeated = 0;
    for (uint32_t p = 0; p < parts; p++) {
        gerfmuod_part_open(&all[p], p, parts);
        for (uint32_t h = 0; h < DATA; h++) is("a handle", call(&all[p], GERFMUOD_PART_HANDLE, 0), 0, 0, h, 0);
        for (uint32_t t = 0; t < count; t++)
            for (long nth = counts ? 1 : -1;; nth++) {
                allocations_left = nth;
                gerfmuod_part_result result = describe(&all[p], t);
                allocations_left = -1;
                if (!result.refused) {
                    is("a task", result, 0, 0, t, 0);
                    break;
                }
                refused("memory", result, NO_MEMORY), repeated++;
            }
        done("start", call(&all[p], GERFMUOD_PART_START, 0));
    }
    return repeated;
}

/* A task runs, on values that only a run in order has: each part's own list of results, and one copy of the data, since a task that writes
 * waits for those that read. */
static void run(uint32_t p, uint32_t t) {
    for (uint32_t k = 0; !is_on_data && k < tasks[t].count; k++)
        check_that(here[p][tasks[t].on[k]] == expected[tasks[t].on[k]], "task %u runs before a value of task %u is there", t,
                   tasks[t].on[k]);
    check_that(tasks[t].owner == p && !here[p][t], "task %u runs at part %u, or twice", t, p);
    here[p][t] = is_on_data ? 1 : result_of(t, here[p]);
}

/* Runs all parts until each is over. A step is a call at a part drawn at random, or the arrival of a message. */
static void simulate(gerfmuod_part *all, uint64_t *data) {
    bool is_over[PARTS] = {false};
    uint32_t left = parts;
    for (calls = in_flight = 0; left; calls++) {
        uint32_t p = below(parts), m = in_flight ? below(in_flight) : 0;
        if (in_flight && below(2)) {
            uint32_t task = messages[m].task, to = messages[m].to;
            if (below(4)) messages[m] = messages[--in_flight]; /* else it comes once more */
            gerfmuod_part_result result = call(&all[to], GERFMUOD_PART_ARRIVED, task);
            check_that(!result.refused || here[to][task], "the first message of task %u at part %u is refused", task, to);
            here[to][task] = is_on_data ? 1 : expected[task];
            continue;
        }
        gerfmuod_part_result next = call(&all[p], GERFMUOD_PART_NEXT, 0);
        if (next.next == GERFMUOD_PART_SEND) messages[in_flight].task = next.number, messages[in_flight++].to = next.to;
        if (next.next == GERFMUOD_PART_RUN) {
            run(p, next.number);
            uint64_t value = is_on_data ? result_of(next.number, data) : 0;
            for (uint32_t k = 0; is_on_data && k < tasks[next.number].count; k++)
                if (tasks[next.number].modes[k] != GERFMUOD_READ) data[tasks[next.number].on[k]] = value + k;
            done("done", call(&all[p], GERFMUOD_PART_DONE, next.number));
        }
        if (next.next == GERFMUOD_PART_OVER && !is_over[p]) is_over[p] = true, left--;
        check_that(next.next == GERFMUOD_PART_OVER || !is_over[p], "part %u goes on after its end", p);
    }
}

static void try_graph(bool counts) {
    gerfmuod_part all[PARTS];
    uint64_t data[DATA] = {0}, result[DATA] = {0};
    memset(here, 0, sizeof here);
    for (uint32_t t = 0; t < count && !is_on_data; t++) expected[t] = result_of(t, expected);
    for (uint32_t t = 0; t < count && is_on_data; t++) {
        uint64_t value = result_of(t, result);
        for (uint32_t k = 0; k < tasks[t].count; k++)
            if (tasks[t].modes[k] != GERFMUOD_READ) result[tasks[t].on[k]] = value + k;
    }
    uint32_t repeated = open_all(all, counts);
    check("an allocation failed", !counts || repeated);
    simulate(all, data);
    check("the data are those of the sequential program", !memcmp(data, result, sizeof data));
    for (uint32_t t = 0; t < count; t++) check_that(here[tasks[t].owner][t], "task %u did not run", t);
    for (uint32_t p = 0; p < parts; p++) done("close", call(&all[p], GERFMUOD_PART_CLOSE, 0));
}

CASE(random_graphs) {
    for (uint32_t k = 0; k < SEEDS; k++) draw(), try_graph(false);
}

CASE(allocations_that_fail) {
    for (uint32_t k = 0; k < 20; k++) draw(), try_graph(true);
}

int main(void) {
    const struct CMUnitTest cases[] = {
        cmocka_unit_test(a_part_that_is_not_open), cmocka_unit_test(descriptions_that_are_refused), cmocka_unit_test(calls_in_a_run),
        cmocka_unit_test(random_graphs), cmocka_unit_test(allocations_that_fail),
    };
    return RUN(cases);
}
