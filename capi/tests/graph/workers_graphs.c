/* workers_graphs.c: task graphs on workers: graphs of many shapes, runs again, with spawned tasks, refusals, bodies that fail, bodies that
 * wait for each other, memory that lacks. Bodies write memory without a lock, so ThreadSanitizer also checks that inputs come first. */
#define _POSIX_C_SOURCE 200809L
#include "../cases.h"
#include "../random.h"
#include "../wrap.h"
#include "limit.h"
#include <gerfmuod/workers.h>
#include <pthread.h>
#include <time.h>

#define NONE GERFMUOD_GRAPH_NONE
enum { MOST = 5000, MOST_INPUTS = 8 * MOST };
static const uint32_t threads_of[] = {1, 2, 4, 7};
enum { NUMBERS_OF_THREADS = sizeof threads_of / sizeof *threads_of };

static gerfmuod_workers *opened(uint32_t threads) {
    gerfmuod_workers *workers;
    limit_time();
    assert_int_equal(gerfmuod_workers_open(&workers, threads), GERFMUOD_OK);
    return workers;
}

/* ---- graphs, and a body that checks the order */
static uint32_t count, offsets[MOST + 2], inputs[MOST_INPUTS], failing = NONE;
static uint8_t ran[MOST];    /* how often each ran: only the body of a task writes its place */
static uint64_t value[MOST]; /* of the task and of what its inputs made */

enum shape { WIDE, CHAIN, NEAR, ANYWHERE, FAN, LAYERS, REPEATED, SHAPES };

/* Returns input k of a task, or NONE if it has fewer. */
static uint32_t input_of(enum shape shape, uint32_t task, uint32_t k, uint32_t wanted) {
    uint32_t row = task / 8;
    switch (shape) {
    case CHAIN: return k < 1 ? task - 1 : NONE;
    case NEAR: return k < wanted ? task - 1 - below(task < 50 ? task : 50) : NONE;
    case ANYWHERE: return k < wanted ? below(task) : NONE;
    case FAN: return task < count - 1 ? k < 1 ? 0 : NONE : k < count - 1 ? k : NONE; /* one makes all ready, the last one reads all */
    case LAYERS: return row && k < 8 ? 8 * (row - 1) + k : NONE;
    case REPEATED: return k < wanted ? task - 1 - k / 2 % (task < 3 ? task : 3) : NONE;
    default: return NONE;
    }
}

static void draw(enum shape shape, uint32_t tasks) {
    uint32_t edges = 0;
    count = tasks;
    for (uint32_t t = 0; t < tasks; t++) {
        uint32_t wanted = below(5), input;
        offsets[t] = edges;
        for (uint32_t k = 0; t && (input = input_of(shape, t, k, wanted)) != NONE; k++) inputs[edges++] = input;
    }
    offsets[tasks] = edges;
    memset(ran, 0, sizeof ran);
}

static uint64_t value_of(uint32_t task) {
    uint64_t made = task;
    for (uint32_t k = offsets[task]; k < offsets[task + 1]; k++) made = (made ^ value[inputs[k]]) * 0x9e3779b97f4a7c15u + 1;
    return made;
}

static int body(void *context, uint32_t task) {
    check_that(task < count, "there is no task %u", task);
    for (uint32_t k = offsets[task]; k < offsets[task + 1]; k++)
        check_that(ran[inputs[k]], "task %u ran before its input %u", task, inputs[k]);
    check_that(!ran[task], "task %u ran twice", task);
    value[task] = value_of(task), ran[task] = 1;
    if (context) nanosleep(context, NULL);
    return task == failing;
}

static uint32_t run(gerfmuod_workers *workers) {
    return gerfmuod_workers_run_graph(workers, count, offsets, inputs, body, NULL, NULL);
}

static void check_all_ran(void) {
    for (uint32_t t = 0; t < count; t++) {
        check_that(ran[t], "task %u of %u did not run", t, count);
        check_that(value[t] == value_of(t), "task %u of %u has another value", t, count);
    }
}

CASE(each_task_of_a_graph_runs_once_after_its_inputs) {
    static const uint32_t sizes[] = {0, 1, 2, 3, 7, 16, 100, 700, MOST};
    for (uint32_t k = 0; k < NUMBERS_OF_THREADS; k++) {
        gerfmuod_workers *workers = opened(threads_of[k]);
        uint64_t tasks = 0;
        for (uint32_t shape = 0; shape < SHAPES; shape++)
            for (uint32_t size = 0; size < sizeof sizes / sizeof *sizes; size++) {
                draw(shape, sizes[size]);
                assert_int_equal(run(workers), GERFMUOD_OK);
                check_all_ran();
                tasks += count;
            }
        check_that(gerfmuod_workers_ran(workers) == tasks, "%lu tasks ran, not %lu", gerfmuod_workers_ran(workers), tasks);
        check_that(threads_of[k] > 1 || !gerfmuod_workers_moved(workers), "one thread moved tasks");
        gerfmuod_workers_close(workers);
    }
}

/* ---- one task waits for many that end at the same time: each lowers the same number */
CASE(inputs_that_arrive_at_the_same_time_are_all_counted) {
    gerfmuod_workers *workers = opened(4);
    for (uint32_t again = 0; again < 50; again++) {
        draw(again % 2 ? FAN : LAYERS, 2000);
        assert_int_equal(run(workers), GERFMUOD_OK);
        check_all_ran();
    }
    gerfmuod_workers_close(workers);
}

/* ---- a body that fails */
static bool depends[MOST]; /* on the task that fails, which does itself */

static void mark_dependents(void) {
    for (uint32_t t = 0; t < count; t++) {
        depends[t] = t == failing;
        for (uint32_t k = offsets[t]; k < offsets[t + 1]; k++) depends[t] |= depends[inputs[k]];
    }
}

CASE(nothing_that_needs_a_failed_task_runs) {
    uint32_t left_out = 0;
    for (uint32_t again = 0; again < 60; again++) {
        gerfmuod_workers *workers = opened(threads_of[again % NUMBERS_OF_THREADS]);
        draw(again % SHAPES, 1 + below(MOST - 1));
        failing = below(count);
        mark_dependents();
        assert_int_equal(run(workers), GERFMUOD_REFUSED_STOPPED);
        assert_int_equal(gerfmuod_workers_failed_task(workers), failing);
        assert_null(gerfmuod_workers_failed(workers));
        for (uint32_t t = 0; t < count; t++) check_that(!ran[t] || !depends[t] || t == failing, "task %u needs %u", t, failing);
        left_out += memchr(ran, 0, count) != NULL;
        failing = NONE;
        draw(NEAR, 1000);
        assert_int_equal(run(workers), GERFMUOD_OK);
        assert_int_equal(gerfmuod_workers_failed_task(workers), NONE);
        check_all_ran();
        gerfmuod_workers_close(workers);
    }
    check_that(left_out > 30, "only %u of 60 runs left a task out", left_out);
}

/* Two chains: tasks 0 and 1 begin them, and task 2 t + 1 reads 2 t - 1. Bodies take a millisecond, and one of the first ones fails. */
CASE(a_failed_body_stops_chains_of_other_workers) {
    struct timespec millisecond = {0, 1000000};
    gerfmuod_workers *workers = opened(2);
    count = MOST, failing = 10;
    for (uint32_t t = 0; t < count; t++) {
        offsets[t + 1] = t < 2 ? 0 : t - 1;
        if (t >= 2) inputs[t - 2] = t - 2;
    }
    memset(ran, 0, sizeof ran);
    uint32_t refused = gerfmuod_workers_run_graph(workers, count, offsets, inputs, body, &millisecond, NULL), others = 0;
    assert_int_equal(refused, GERFMUOD_REFUSED_STOPPED);
    for (uint32_t t = 1; t < count; t += 2) others += ran[t];
    check_that(others < MOST / 2, "all of the other chain ran");
    for (uint32_t t = 12; t < count; t += 2) check_that(!ran[t], "task %u needs task 10", t);
    failing = NONE;
    gerfmuod_workers_close(workers);
}

/* ---- what is refused */
static void check_refused(gerfmuod_workers *workers, uint32_t tasks, const uint32_t *from, const uint32_t *read, uint32_t refused,
                          uint32_t at) {
    uint32_t found = 77;
    count = tasks;
    assert_int_equal(gerfmuod_workers_run_graph(workers, tasks, from, read, body, NULL, &found), refused);
    assert_int_equal(found, at);
    assert_int_equal(gerfmuod_workers_run_graph(workers, tasks, from, read, body, NULL, NULL), refused);
}

static int count_spawned(gerfmuod_worker *worker, void *argument) {
    (void)worker, ++*(uint32_t *)argument;
    return 0;
}

CASE(refused_graphs_name_the_first_task_and_keep_what_was_spawned) {
    const uint32_t none[] = {0, 0, 0}, begins_late[] = {1, 1, 2}, decreases[] = {0, 0, 1, 0, 2}, passes[] = {0, 0, 5, 2};
    const uint32_t two[] = {0, 0, 1, 2}, twice[] = {0, 0, 1, 2, 3};
    const uint32_t later[] = {0, 2}, itself[] = {1, 0}, both[] = {0, 3, 2};
    gerfmuod_workers *workers = opened(3);
    uint32_t spawned = 0;
    assert_int_equal(gerfmuod_workers_spawn(workers, count_spawned, &spawned), GERFMUOD_OK);
    memset(ran, 0, sizeof ran);
    check_refused(workers, 2, begins_late, later, GERFMUOD_REFUSED_BAD_SPEC, 0);
    check_refused(workers, 3, two, NULL, GERFMUOD_REFUSED_BAD_SPEC, 0);
    check_refused(workers, 4, decreases, later, GERFMUOD_REFUSED_BAD_SPEC, 2);
    check_refused(workers, 3, passes, later, GERFMUOD_REFUSED_BAD_SPEC, 1);
    check_refused(workers, 3, two, later, GERFMUOD_REFUSED_NO_TASK, 2);
    check_refused(workers, 3, two, itself, GERFMUOD_REFUSED_NO_TASK, 1);
    check_refused(workers, 4, twice, both, GERFMUOD_REFUSED_NO_TASK, 2);
    assert_null(memchr(ran, 1, sizeof ran));
    assert_int_equal(spawned, 0);
    check_refused(workers, 0, none, NULL, GERFMUOD_OK, 0);
    assert_int_equal(spawned, 1);
    gerfmuod_workers_close(workers);
}

/* ---- graphs and spawned tasks in one run */
static uint32_t bush_size;
static pthread_mutex_t bush_lock = PTHREAD_MUTEX_INITIALIZER;

static int grow(gerfmuod_worker *worker, void *argument) {
    uintptr_t depth = (uintptr_t)argument;
    pthread_mutex_lock(&bush_lock);
    bush_size++;
    pthread_mutex_unlock(&bush_lock);
    for (uint32_t child = 0; depth && child < 2; child++)
        if (gerfmuod_worker_spawn(worker, grow, (void *)(depth - 1))) return 1;
    return 0;
}

CASE(graphs_run_with_and_between_spawned_tasks) {
    for (uint32_t k = 0; k < NUMBERS_OF_THREADS; k++) {
        gerfmuod_workers *workers = opened(threads_of[k]);
        for (uint32_t again = 0; again < 40; again++) {
            bush_size = 0;
            for (uint32_t root = 0; root < again % 4; root++)
                assert_int_equal(gerfmuod_workers_spawn(workers, grow, (void *)(uintptr_t)9), GERFMUOD_OK);
            draw(again % SHAPES, below(1000));
            assert_int_equal(again % 5 ? run(workers) : gerfmuod_workers_run(workers), GERFMUOD_OK);
            if (again % 5) check_all_ran();
            assert_int_equal(bush_size, again % 4 * 1023);
        }
        gerfmuod_workers_close(workers);
    }
}

static int give_up(gerfmuod_worker *worker, void *argument) { return (void)worker, argument != NULL; }

CASE(a_spawned_task_that_fails_is_no_task_of_the_graph) {
    gerfmuod_workers *workers = opened(2);
    draw(WIDE, 100);
    assert_int_equal(gerfmuod_workers_spawn(workers, give_up, workers), GERFMUOD_OK);
    assert_int_equal(run(workers), GERFMUOD_REFUSED_STOPPED);
    assert_ptr_equal(gerfmuod_workers_failed(workers), workers);
    assert_int_equal(gerfmuod_workers_failed_task(workers), NONE);
    gerfmuod_workers_close(workers);
}

/* ---- no ready task waits while a worker sleeps: the readers of task 0 return once all of them run */
static pthread_mutex_t meeting = PTHREAD_MUTEX_INITIALIZER;
static pthread_cond_t all_are_there = PTHREAD_COND_INITIALIZER;
static uint32_t wanted, arrived;

static int meet(void *is_late, uint32_t task) {
    struct timespec late = {0, 20000000};
    if (!task) return is_late ? nanosleep(&late, NULL) : 0;
    pthread_mutex_lock(&meeting);
    if (++arrived == wanted) pthread_cond_broadcast(&all_are_there);
    while (arrived < wanted) pthread_cond_wait(&all_are_there, &meeting);
    pthread_mutex_unlock(&meeting);
    return 0;
}

CASE(workers_that_sleep_are_woken_for_ready_tasks) {
    for (uint32_t threads = 2; threads < 8; threads++) {
        gerfmuod_workers *workers = opened(wanted = threads);
        for (uint32_t again = 0; again < 40; again++) {
            draw(FAN, threads + 2), arrived = 0;
            assert_int_equal(gerfmuod_workers_run_graph(workers, threads + 1, offsets, inputs, meet, again % 10 ? NULL : &wanted, NULL), 0);
            assert_int_equal(arrived, threads);
        }
        gerfmuod_workers_close(workers);
    }
}

/* ---- memory that lacks */
static long until_failure = -1;
static bool lists_cannot_grow;
static uint32_t refused_growths;
static pthread_mutex_t growths_lock = PTHREAD_MUTEX_INITIALIZER;

static bool fails(void) { return until_failure >= 0 && until_failure-- == 0; }

WRAP(void *, malloc, (size_t size));
WRAP(void *, calloc, (size_t number, size_t size));
WRAP(void *, realloc, (void *block, size_t size));
WRAP(int, pthread_mutex_init, (pthread_mutex_t *lock, const pthread_mutexattr_t *attributes));

void *__wrap_malloc(size_t size) { return fails() ? NULL : __real_malloc(size); }
void *__wrap_calloc(size_t number, size_t size) { return fails() ? NULL : __real_calloc(number, size); }

void *__wrap_realloc(void *block, size_t size) {
    if (!lists_cannot_grow) return fails() ? NULL : __real_realloc(block, size);
    pthread_mutex_lock(&growths_lock);
    refused_growths++;
    pthread_mutex_unlock(&growths_lock);
    return NULL;
}

int __wrap_pthread_mutex_init(pthread_mutex_t *lock, const pthread_mutexattr_t *attributes) {
    return fails() ? 1 : __real_pthread_mutex_init(lock, attributes);
}

CASE(each_allocation_that_fails_is_reported_before_a_body_runs) {
    uint32_t refused = GERFMUOD_REFUSED_NO_MEMORY, tried = 0;
    for (; refused; tried++) {
        gerfmuod_workers *workers = opened(3);
        uint32_t spawned = 0;
        assert_int_equal(gerfmuod_workers_spawn(workers, count_spawned, &spawned), GERFMUOD_OK);
        draw(WIDE, 1000);
        until_failure = tried;
        refused = run(workers);
        until_failure = -1;
        check_that(!refused || refused == GERFMUOD_REFUSED_NO_MEMORY, "allocation %u: %u", tried, refused);
        if (refused) check_that(!memchr(ran, 1, count) && !spawned, "allocation %u: a body ran", tried);
        if (refused) assert_int_equal(run(workers), GERFMUOD_OK);
        check_all_ran();
        assert_int_equal(spawned, 1);
        gerfmuod_workers_close(workers);
    }
    assert_int_equal(tried, 1 + 256 + 1 + 3 + 1); /* the graph, its locks, its arrays, three lists; and none */
}

CASE(a_run_that_has_begun_needs_no_memory) {
    for (uint32_t k = 0; k < NUMBERS_OF_THREADS; k++) {
        gerfmuod_workers *workers = opened(threads_of[k]);
        refused_growths = 0, lists_cannot_grow = true;
        for (uint32_t again = 0; again < 6; again++) {
            draw(again % 2 ? FAN : LAYERS, MOST);
            assert_int_equal(run(workers), GERFMUOD_OK);
            check_all_ran();
        }
        lists_cannot_grow = false;
        check_that(refused_growths > 10, "only %u lists had to grow", refused_growths);
        gerfmuod_workers_close(workers);
    }
}

/* ---- the two functions of graph.h: task 3 reads 0 twice, and 2; task 2 reads 0 and 1 */
CASE(links_and_arrivals_are_as_the_header_says) {
    const uint32_t from[] = {0, 0, 0, 2, 5}, read[] = {0, 1, 0, 2, 0}, no_input = GERFMUOD_GRAPH_NO_INPUT;
    const uint32_t expected[] = {0, 0, 2, 3, 4, 1, 3, no_input, no_input, no_input, 0, no_input, 2, 2, 2, 3, 3, 3};
    uint32_t words[18];
    memset(words, 9, sizeof words);
    gerfmuod_graph_result linked = gerfmuod_graph_link(from, 5, read, 5, words, 4, words + 4, 4, words + 8, 5, words + 13, 5);
    assert_int_equal(linked.refused, GERFMUOD_OK);
    assert_memory_equal(words, expected, sizeof words);
    assert_false(gerfmuod_graph_arrive(&words[3]));
    assert_false(gerfmuod_graph_arrive(&words[3]));
    assert_true(gerfmuod_graph_arrive(&words[3]));
    assert_false(gerfmuod_graph_arrive(&words[3]));
    assert_int_equal(words[3], 0);
    const size_t lengths[][4] = {{3, 4, 5, 5}, {4, 5, 5, 5}, {4, 4, 4, 5}, {4, 4, 5, 6}};
    memset(words, 9, sizeof words);
    for (uint32_t k = 0; k < 4; k++) {
        const size_t *l = lengths[k];
        linked = gerfmuod_graph_link(from, 5, read, 5, words, l[0], words + 4, l[1], words + 8, l[2], words + 13, l[3]);
        assert_int_equal(linked.refused, GERFMUOD_REFUSED_BAD_SPEC);
    }
    linked = gerfmuod_graph_link(from, 5, (uint32_t[]){0, 1, 0, 3, 0}, 5, words, 4, words + 4, 4, words + 8, 5, words + 13, 5);
    assert_int_equal(linked.refused, GERFMUOD_REFUSED_NO_TASK);
    assert_int_equal(linked.number, 3);
    assert_int_equal(gerfmuod_graph_link(NULL, 0, NULL, 0, NULL, 0, NULL, 0, NULL, 0, NULL, 0).refused, GERFMUOD_REFUSED_BAD_SPEC);
    for (uint32_t k = 0; k < 18; k++) assert_int_equal(words[k], 0x09090909);
}

int main(void) {
    const struct CMUnitTest cases[] = {
        cmocka_unit_test(each_task_of_a_graph_runs_once_after_its_inputs),
        cmocka_unit_test(inputs_that_arrive_at_the_same_time_are_all_counted),
        cmocka_unit_test(nothing_that_needs_a_failed_task_runs),
        cmocka_unit_test(a_failed_body_stops_chains_of_other_workers),
        cmocka_unit_test(refused_graphs_name_the_first_task_and_keep_what_was_spawned),
        cmocka_unit_test(graphs_run_with_and_between_spawned_tasks),
        cmocka_unit_test(a_spawned_task_that_fails_is_no_task_of_the_graph),
        cmocka_unit_test(workers_that_sleep_are_woken_for_ready_tasks),
        cmocka_unit_test(each_allocation_that_fails_is_reported_before_a_body_runs),
        cmocka_unit_test(a_run_that_has_begun_needs_no_memory),
        cmocka_unit_test(links_and_arrivals_are_as_the_header_says),
    };
    return RUN(cases);
}
