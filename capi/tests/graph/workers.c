/* workers.c: tasks that make tasks on workers: trees of random shapes, runs again, bodies that fail, bodies that wait for each other,
 * memory that lacks. Bodies write memory without a lock, so ThreadSanitizer also checks that what made a task is before it. */
#define _POSIX_C_SOURCE 200809L
#include "../cases.h"
#include "../random.h"
#include "../wrap.h"
#include "limit.h"
#include <gerfmuod/workers.h>
#include <errno.h>
#include <pthread.h>
#include <sched.h>

enum { MOST = 20000, MOST_THREADS = 9 };

static gerfmuod_workers *opened(uint32_t threads) {
    gerfmuod_workers *workers;
    limit_time();
    assert_int_equal(gerfmuod_workers_open(&workers, threads), GERFMUOD_OK);
    return workers;
}

/* ---- trees: node t of `count` makes the nodes from first[t] to before first[t + 1] */
static uint32_t count, first[MOST + 2], failing;
static uint8_t ran[MOST];     /* how often each ran: only the body of a node writes its place */
static uint64_t value[MOST];  /* written by the node that makes this one */

static uint64_t value_of(uint64_t parent, uint32_t node) { return (parent ^ node) * 0x9e3779b97f4a7c15u + 1; }

static int visit(gerfmuod_worker *worker, void *argument) {
    uint32_t node = (uint32_t)((uint64_t *)argument - value);
    if (++ran[node] > 1 || gerfmuod_worker_number(worker) >= MOST_THREADS) return 1;
    if (node == failing) return 2;
    for (uint32_t child = first[node]; child < first[node + 1]; child++) {
        value[child] = value_of(value[node], child);
        uint32_t refused = gerfmuod_worker_spawn(worker, visit, &value[child]);
        if (refused) return refused == GERFMUOD_REFUSED_STOPPED && failing < count ? 0 : 3;
    }
    return 0;
}

/* Draws a tree of a shape: bushes near the root, or chains with short branches. */
static void draw(bool is_bush) {
    uint32_t next = 1;
    count = 1 + below(MOST - 1);
    for (uint32_t node = 0; node <= count; node++) {
        uint32_t left = count - next, most = is_bush ? 8 : 3, children = next <= node + 1 ? 1 + below(most) : below(most);
        first[node] = next;
        next += children < left ? children : left;
    }
    count = next, first[count] = first[count + 1] = next;
    failing = UINT32_MAX;
    memset(ran, 0, sizeof ran);
}

static void check_all_ran(void) {
    uint32_t parent = 0;
    uint64_t expected = value_of(7, 0);
    for (uint32_t node = 0; node < count; node++) {
        while (node && first[parent + 1] <= node) parent++;
        if (node) expected = value_of(value[parent], node);
        check_that(ran[node] == 1, "node %u of %u ran %u times", node, count, ran[node]);
        check_that(value[node] == expected, "node %u of %u has another value", node, count);
    }
}

CASE(each_task_of_random_trees_runs_once) {
    uint64_t tasks = 0;
    for (uint32_t threads = 1; threads <= MOST_THREADS; threads++) {
        gerfmuod_workers *workers = opened(threads);
        for (uint32_t run = 0; run < 12; run++) {
            draw(run % 2);
            value[0] = value_of(7, 0);
            assert_int_equal(gerfmuod_workers_spawn(workers, visit, &value[0]), GERFMUOD_OK);
            assert_int_equal(gerfmuod_workers_run(workers), GERFMUOD_OK);
            check_all_ran();
            tasks += count;
        }
        check_that(gerfmuod_workers_ran(workers) == tasks, "%u threads ran %lu tasks", threads, gerfmuod_workers_ran(workers));
        check_that(threads > 1 || !gerfmuod_workers_moved(workers), "one thread moved tasks");
        gerfmuod_workers_close(workers);
        tasks = 0;
    }
}

CASE(roots_go_to_all_workers_and_a_run_without_tasks_ends) {
    for (uint32_t threads = 1; threads <= MOST_THREADS; threads++) {
        gerfmuod_workers *workers = opened(threads);
        assert_int_equal(gerfmuod_workers_run(workers), GERFMUOD_OK);
        count = 3000, failing = UINT32_MAX;
        memset(ran, 0, sizeof ran), memset(first, 0, sizeof first);
        for (uint32_t node = 0; node < count; node++) assert_int_equal(gerfmuod_workers_spawn(workers, visit, &value[node]), GERFMUOD_OK);
        assert_int_equal(gerfmuod_workers_run(workers), GERFMUOD_OK);
        for (uint32_t node = 0; node < count; node++) assert_int_equal(ran[node], 1);
        assert_int_equal(gerfmuod_workers_run(workers), GERFMUOD_OK);
        assert_int_equal(gerfmuod_workers_ran(workers), count);
        gerfmuod_workers_close(workers);
    }
}

/* ---- a body that fails: the run ends, tasks that wait are dropped, and the next run is right */
CASE(a_body_that_fails_stops_the_run) {
    uint32_t stopped = 0;
    for (uint32_t run = 0; run < 60; run++) {
        gerfmuod_workers *workers = opened(1 + run % MOST_THREADS);
        for (uint32_t again = 0; again < 3; again++) {
            draw(again);
            failing = again == 1 ? below(count) : UINT32_MAX;
            value[0] = value_of(7, 0);
            assert_int_equal(gerfmuod_workers_spawn(workers, visit, &value[0]), GERFMUOD_OK);
            assert_int_equal(gerfmuod_workers_run(workers), again == 1 ? GERFMUOD_REFUSED_STOPPED : GERFMUOD_OK);
            assert_ptr_equal(gerfmuod_workers_failed(workers), again == 1 ? &value[failing] : NULL);
            if (again != 1) check_all_ran();
            for (uint32_t node = 0; node < count; node++) check_that(ran[node] <= 1, "node %u ran %u times", node, ran[node]);
            stopped += again == 1 && memchr(ran, 0, count) != NULL;
        }
        gerfmuod_workers_close(workers);
    }
    check_that(stopped > 20, "only %u of 60 runs left a task out", stopped);
}

/* ---- no task waits while a worker sleeps: these bodies return once all of them run */
static pthread_mutex_t meeting = PTHREAD_MUTEX_INITIALIZER;
static pthread_cond_t all_are_there = PTHREAD_COND_INITIALIZER;
static uint32_t wanted, arrived;

static int meet(gerfmuod_worker *worker, void *unused) {
    (void)worker, (void)unused;
    pthread_mutex_lock(&meeting);
    if (++arrived == wanted) pthread_cond_broadcast(&all_are_there);
    while (arrived < wanted) pthread_cond_wait(&all_are_there, &meeting);
    pthread_mutex_unlock(&meeting);
    return 0;
}

/* Makes the tasks, if it is late when all other workers sleep, and waits for them itself. */
static int call_others(gerfmuod_worker *worker, void *is_late) {
    struct timespec late = {0, 20000000};
    if (is_late) nanosleep(&late, NULL);
    for (uint32_t k = 1; k < wanted; k++)
        if (gerfmuod_worker_spawn(worker, meet, NULL)) return 1;
    return meet(worker, NULL);
}

CASE(workers_that_sleep_are_woken_for_tasks) {
    for (uint32_t run = 0; run < 24; run++) {
        gerfmuod_workers *workers = opened(wanted = 2 + run % (MOST_THREADS - 1));
        for (uint32_t again = 0; again < 20; again++) {
            arrived = 0;
            assert_int_equal(gerfmuod_workers_spawn(workers, call_others, again % 10 ? NULL : &wanted), GERFMUOD_OK);
            assert_int_equal(gerfmuod_workers_run(workers), GERFMUOD_OK);
            assert_int_equal(arrived, wanted);
        }
        gerfmuod_workers_close(workers);
    }
}

/* ---- the order of one worker */
static int leave_order(gerfmuod_worker *worker, void *argument) {
    (void)worker, *(uint32_t *)argument = arrived++;
    return 0;
}

CASE(one_worker_runs_its_newest_task_first) {
    uint32_t order[1000];
    gerfmuod_workers *workers = opened(1);
    for (uint32_t again = 0; again < 2; again++) {
        arrived = 0;
        for (uint32_t k = 0; k < 1000; k++) assert_int_equal(gerfmuod_workers_spawn(workers, leave_order, &order[k]), GERFMUOD_OK);
        assert_int_equal(gerfmuod_workers_run(workers), GERFMUOD_OK);
        for (uint32_t k = 0; k < 1000; k++) assert_int_equal(order[k], 999 - k);
    }
    gerfmuod_workers_close(workers);
}

/* ---- memory and threads that lack */
static long until_failure = -1, threads_until_failure = -1;

static bool fails(void) { return until_failure >= 0 && until_failure-- == 0; }

WRAP(void *, malloc, (size_t size));
WRAP(void *, calloc, (size_t number, size_t size));
WRAP(void *, realloc, (void *block, size_t size));
WRAP(int, pthread_create, (pthread_t *thread, const pthread_attr_t *attributes, void *(*start)(void *), void *argument));

void *__wrap_malloc(size_t size) { return fails() ? NULL : __real_malloc(size); }
void *__wrap_calloc(size_t number, size_t size) { return fails() ? NULL : __real_calloc(number, size); }
void *__wrap_realloc(void *block, size_t size) { return fails() ? NULL : __real_realloc(block, size); }

int __wrap_pthread_create(pthread_t *thread, const pthread_attr_t *attributes, void *(*start)(void *), void *argument) {
    if (threads_until_failure >= 0 && threads_until_failure-- == 0) return EAGAIN;
    return __real_pthread_create(thread, attributes, start, argument);
}

CASE(each_allocation_and_thread_that_fails_is_reported) {
    gerfmuod_workers *workers = NULL;
    uint32_t refused = GERFMUOD_REFUSED_NO_MEMORY, tried = 0;
    assert_int_equal(gerfmuod_workers_open(&workers, 0), GERFMUOD_REFUSED_NO_THREAD);
    assert_null(workers);
    for (; refused; tried++) {
        until_failure = tried;
        refused = gerfmuod_workers_open(&workers, 3);
        until_failure = -1;
        check_that(!refused == !!workers && (!refused || refused == GERFMUOD_REFUSED_NO_MEMORY), "allocation %u: %u", tried, refused);
    }
    check_that(tried > 8, "only %u allocations", tried);
    gerfmuod_workers_close(workers);
    for (long thread = 0; thread < 2; thread++) {
        threads_until_failure = thread;
        assert_int_equal(gerfmuod_workers_open(&workers, 3), GERFMUOD_REFUSED_NOT_STARTED);
        assert_null(workers);
    }
    threads_until_failure = -1;
    gerfmuod_workers_close(NULL);
}

CASE(a_list_that_cannot_grow_refuses_the_task_alone) {
    gerfmuod_workers *workers = opened(1);
    count = MOST, failing = UINT32_MAX;
    memset(ran, 0, sizeof ran), memset(first, 0, sizeof first);
    uint32_t refusals = 0;
    for (uint32_t node = 0; node < count; node++) {
        until_failure = 0;
        uint32_t refused = gerfmuod_workers_spawn(workers, visit, &value[node]);
        until_failure = -1;
        if (!refused) continue;
        assert_int_equal(refused, GERFMUOD_REFUSED_NO_MEMORY);
        refusals++;
        assert_int_equal(gerfmuod_workers_spawn(workers, visit, &value[node]), GERFMUOD_OK);
    }
    assert_int_equal(gerfmuod_workers_run(workers), GERFMUOD_OK);
    for (uint32_t node = 0; node < count; node++) assert_int_equal(ran[node], 1);
    check_that(refusals > 4, "only %u refusals", refusals);
    gerfmuod_workers_close(workers);
}

int main(void) {
    const struct CMUnitTest cases[] = {
        cmocka_unit_test(each_task_of_random_trees_runs_once),
        cmocka_unit_test(roots_go_to_all_workers_and_a_run_without_tasks_ends),
        cmocka_unit_test(a_body_that_fails_stops_the_run),
        cmocka_unit_test(workers_that_sleep_are_woken_for_tasks),
        cmocka_unit_test(one_worker_runs_its_newest_task_first),
        cmocka_unit_test(each_allocation_and_thread_that_fails_is_reported),
        cmocka_unit_test(a_list_that_cannot_grow_refuses_the_task_alone),
    };
    return RUN(cases);
}
