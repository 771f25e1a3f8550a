/* parts_threads.c: graphs in parts of one process: inputs, messages, bodies that fail, refusals, processors. data.c has random ones. */
#ifndef _GNU_SOURCE
#define _GNU_SOURCE /* sched_getaffinity */
#endif
#include "../cases.h"
#include "../wrap.h"
#include "limit.h"
#include <gerfmuod/parts.h>
#include <errno.h>
#include <pthread.h>
#include <sched.h>

enum { PARTS = 4, ROWS = 200 };

static gerfmuod_parts *opened(uint32_t count) {
    gerfmuod_parts *parts;
    limit_time();
    assert_int_equal(gerfmuod_parts_open(&parts, count), GERFMUOD_OK);
    return parts;
}

static uint32_t added(gerfmuod_parts *parts, uint32_t part, const uint32_t *inputs, size_t count) {
    uint32_t number;
    assert_int_equal(gerfmuod_parts_task(parts, part, 0, inputs, count, &number), GERFMUOD_OK);
    return number;
}

/* ---- inputs and messages: cell (r, p) is of part p, and reads the cells of the row before at p - 1, p and p + 1 */
static uint64_t cells[ROWS][PARTS];

static uint64_t cell_of(uint32_t r, uint32_t p) {
    uint64_t sum = r * 31 + p;
    for (int d = -1; r > 0 && d < 2; d++) sum += 3 * cells[r - 1][(p + PARTS + (uint32_t)d) % PARTS];
    return sum;
}

static int fill_cell(void *context, uint32_t t) {
    (void)context;
    cells[t / PARTS][t % PARTS] = cell_of(t / PARTS, t % PARTS);
    return 0;
}

CASE(neighbours_are_read_over_parts) {
    for (uint32_t threads = 1; threads < 4; threads++) {
        gerfmuod_parts *parts = opened(PARTS);
        memset(cells, 0, sizeof cells);
        for (uint32_t r = 0; r < ROWS; r++)
            for (uint32_t p = 0; p < PARTS; p++) {
                uint32_t inputs[3];
                for (uint32_t d = 0; d < 3; d++) inputs[d] = (r - 1) * PARTS + (p + PARTS + d - 1) % PARTS;
                assert_int_equal(added(parts, p, inputs, r ? 3 : 0), r * PARTS + p);
            }
        assert_int_equal(gerfmuod_parts_run(parts, threads, fill_cell, NULL), GERFMUOD_OK);
        assert_int_equal(gerfmuod_parts_failed(parts), GERFMUOD_GRAPH_NONE);
        /* each cell but those of the last row goes to two other parts */
        assert_int_equal(gerfmuod_parts_messages(parts), (ROWS - 1) * PARTS * 2);
        gerfmuod_parts_close(parts);
        for (uint32_t r = 0; r < ROWS; r++)
            for (uint32_t p = 0; p < PARTS; p++) assert_int_equal(cells[r][p], cell_of(r, p));
    }
}

CASE(a_chain_goes_through_all_of_64_parts) {
    gerfmuod_parts *parts = opened(GERFMUOD_MAX_PARTS);
    memset(cells, 0, sizeof cells);
    for (uint32_t t = 0; t < ROWS * PARTS; t++) added(parts, t % GERFMUOD_MAX_PARTS, (uint32_t[]){t - 1}, t > 0);
    assert_int_equal(gerfmuod_parts_run(parts, 1, fill_cell, NULL), GERFMUOD_OK);
    assert_int_equal(gerfmuod_parts_messages(parts), ROWS * PARTS - 1);
    gerfmuod_parts_close(parts);
    for (uint32_t t = 0; t < ROWS * PARTS; t++) assert_int_equal(cells[t / PARTS][t % PARTS], cell_of(t / PARTS, t % PARTS));
}

/* ---- where bodies run */
static pthread_t thread_of[2 * PARTS];
static int processors_of[2 * PARTS];

static int note_thread(void *context, uint32_t t) {
    cpu_set_t set;
    (void)context;
    thread_of[t] = pthread_self();
    processors_of[t] = sched_getaffinity(0, sizeof set, &set) ? -1 : CPU_COUNT(&set);
    return 0;
}

CASE(parts_have_threads_of_their_own_and_processors_if_wanted) {
    cpu_set_t before, after;
    assert_int_equal(sched_getaffinity(0, sizeof before, &before), 0);
    for (int is_bound = 0; is_bound < 2; is_bound++) {
        gerfmuod_parts *parts = opened(PARTS);
        for (uint32_t t = 0; t < 2 * PARTS; t++) added(parts, t % PARTS, NULL, 0);
        if (is_bound) gerfmuod_parts_bind(parts);
        assert_int_equal(gerfmuod_parts_run(parts, 1, note_thread, NULL), GERFMUOD_OK);
        gerfmuod_parts_close(parts);
        for (uint32_t t = 0; t < 2 * PARTS; t++) {
            for (uint32_t s = 0; s < t; s++) assert_int_equal(!!pthread_equal(thread_of[s], thread_of[t]), s % PARTS == t % PARTS);
            assert_int_equal(processors_of[t], is_bound ? 1 : CPU_COUNT(&before));
        }
        assert_int_equal(sched_getaffinity(0, sizeof after, &after), 0);
        assert_true(CPU_EQUAL(&before, &after));
    }
}

/* ---- allocations and threads that fail: the one with this number, counted from 0 */
static pthread_mutex_t failing = PTHREAD_MUTEX_INITIALIZER;
static int left_until_one_fails = -1;

static bool fails_now(void) {
    pthread_mutex_lock(&failing);
    bool fails = left_until_one_fails == 0;
    if (left_until_one_fails >= 0) left_until_one_fails--;
    pthread_mutex_unlock(&failing);
    return fails;
}

WRAP(void *, malloc, (size_t size));
WRAP(void *, calloc, (size_t count, size_t size));
WRAP(void *, realloc, (void *block, size_t size));
WRAP(int, pthread_create, (pthread_t *thread, const pthread_attr_t *how, void *(*f)(void *), void *argument));

void *__wrap_malloc(size_t size) { return fails_now() ? NULL : __real_malloc(size); }
void *__wrap_calloc(size_t count, size_t size) { return fails_now() ? NULL : __real_calloc(count, size); }
void *__wrap_realloc(void *block, size_t size) { return fails_now() ? NULL : __real_realloc(block, size); }
int __wrap_pthread_create(pthread_t *thread, const pthread_attr_t *how, void *(*f)(void *), void *argument) {
    return fails_now() ? EAGAIN : __real_pthread_create(thread, how, f, argument);
}

/* Describes a chain over three parts and runs it; returns the refusal. */
static uint32_t run_chain(gerfmuod_parts **parts) {
    uint32_t handle, refused = gerfmuod_parts_open(parts, 3);
    if (!refused) refused = gerfmuod_parts_handle(*parts, &handle);
    for (uint32_t t = 0; t < 70 && !refused; t++)
        refused = gerfmuod_parts_task_on(*parts, t % 3, 0, (gerfmuod_access[]){{handle, GERFMUOD_UPDATE}}, 1, NULL);
    return refused ? refused : gerfmuod_parts_run(*parts, 2, fill_cell, NULL);
}

CASE(each_allocation_and_each_thread_may_fail) {
    uint32_t refused = GERFMUOD_REFUSED_NO_MEMORY, without_memory = 0, without_threads = 0;
    for (int fails = 0; refused; fails++) {
        gerfmuod_parts *parts;
        limit_time();
        left_until_one_fails = fails;
        refused = run_chain(&parts);
        left_until_one_fails = -1;
        without_memory += refused == GERFMUOD_REFUSED_NO_MEMORY, without_threads += refused == GERFMUOD_REFUSED_NOT_STARTED;
        gerfmuod_parts_close(parts);
        check_that(refused <= GERFMUOD_REFUSED_NOT_STARTED, "refusal %u", refused);
    }
    assert_true(without_threads > 0);
    assert_true(without_memory > 20);
}

/* ---- stops and refusals */
static int fail_at(void *context, uint32_t t) { return t == *(uint32_t *)context; }

CASE(a_body_that_fails_stops_all_parts) {
    for (uint32_t fails = 0; fails < 100; fails++) {
        gerfmuod_parts *parts = opened(PARTS);
        for (uint32_t t = 0; t < 100; t++) added(parts, t % PARTS, (uint32_t[]){t - 1}, t > 0);
        assert_int_equal(gerfmuod_parts_run(parts, 1 + fails % 2, fail_at, &fails), GERFMUOD_REFUSED_STOPPED);
        assert_int_equal(gerfmuod_parts_failed(parts), fails);
        gerfmuod_parts_close(parts);
    }
}

CASE(refusals_in_their_order) {
    gerfmuod_parts *parts = (gerfmuod_parts *)&parts;
    uint32_t number = 77, handle = 77, none = 100, zero = 0;
    assert_int_equal(gerfmuod_parts_open(&parts, 0), GERFMUOD_REFUSED_BAD_SPEC);
    assert_null(parts);
    assert_int_equal(gerfmuod_parts_open(&parts, 65), GERFMUOD_REFUSED_BAD_SPEC);
    gerfmuod_parts_close(NULL);
    parts = opened(2);
    assert_int_equal(gerfmuod_parts_task(parts, 2, 9, NULL, 0, &number), GERFMUOD_REFUSED_NO_NODE);
    assert_int_equal(gerfmuod_parts_task(parts, 1, 4, NULL, 0, &number), GERFMUOD_REFUSED_BAD_SPEC);
    assert_int_equal(gerfmuod_parts_task(parts, 1, 3, &zero, 1, &number), GERFMUOD_REFUSED_NO_TASK);
    assert_int_equal(gerfmuod_parts_task_on(parts, 1, 0, (gerfmuod_access[]){{0, GERFMUOD_READ}}, 1, &number), GERFMUOD_REFUSED_BAD_SPEC);
    assert_int_equal(number, 77);
    assert_int_equal(gerfmuod_parts_handle(parts, &handle), GERFMUOD_OK);
    assert_int_equal(handle, 0);
    assert_int_equal(gerfmuod_parts_task_on(parts, 1, 0, (gerfmuod_access[]){{0, GERFMUOD_READ}}, 1, &number), GERFMUOD_OK);
    assert_int_equal(number, 0);
    assert_int_equal(gerfmuod_parts_run(parts, 0, fail_at, &none), GERFMUOD_REFUSED_NO_THREAD);
    assert_int_equal(gerfmuod_parts_run(parts, 1, fail_at, &none), GERFMUOD_OK);
    assert_int_equal(gerfmuod_parts_run(parts, 1, fail_at, &none), GERFMUOD_REFUSED_WRONG_LIFE);
    assert_int_equal(gerfmuod_parts_task(parts, 1, 3, NULL, 0, &number), GERFMUOD_REFUSED_WRONG_LIFE);
    gerfmuod_parts_close(parts);
    parts = opened(3);
    assert_int_equal(gerfmuod_parts_run(parts, 2, fail_at, &none), GERFMUOD_OK); /* without a task */
    gerfmuod_parts_close(parts);
}

int main(void) {
    const struct CMUnitTest cases[] = {
        cmocka_unit_test(neighbours_are_read_over_parts),
        cmocka_unit_test(a_chain_goes_through_all_of_64_parts),
        cmocka_unit_test(parts_have_threads_of_their_own_and_processors_if_wanted),
        cmocka_unit_test(each_allocation_and_each_thread_may_fail),
        cmocka_unit_test(a_body_that_fails_stops_all_parts),
        cmocka_unit_test(refusals_in_their_order),
    };
    return RUN(cases);
}
