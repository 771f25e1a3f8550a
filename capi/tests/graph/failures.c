/* failures.c: a graph and a team when an allocation fails, a thread cannot be created, or a lock or a condition variable not be
 * initialized. For each N, the Nth allocation of the same run fails: the call is refused as NO_MEMORY, changes nothing, is repeated,
 * and succeeds; the graph then runs to its end, twice. Then the memory of a large graph is measured. */
#define _GNU_SOURCE
#include "../wrap.h"
#include "check.h"
#include <malloc.h>
#include <pthread.h>

WRAP(void *, malloc, (size_t));
WRAP(void *, calloc, (size_t, size_t));
WRAP(void *, realloc, (void *, size_t));
WRAP(void, free, (void *));
WRAP(int, pthread_create, (pthread_t *, const pthread_attr_t *, void *(*)(void *), void *));
WRAP(int, pthread_mutex_init, (pthread_mutex_t *, const pthread_mutexattr_t *));
WRAP(int, pthread_cond_init, (pthread_cond_t *, const pthread_condattr_t *));
WRAP(int, pthread_mutex_destroy, (pthread_mutex_t *));
WRAP(int, pthread_cond_destroy, (pthread_cond_t *));

static long allocations_left = -1, threads_left = -1, inits_left = -1; /* until one fails; if negative, none fails */
static size_t allocated;                              /* bytes, in all threads */
static int initialized;                               /* locks and condition variables that are not destroyed */
static int created;                                   /* threads */

static bool fails(long *left) {
    if (*left > 0) --*left;
    if (*left != 0) return false;
    *left = -1;
    return true;
}
static void *counted(void *block) {
    __atomic_fetch_add(&allocated, block ? malloc_usable_size(block) : 0, __ATOMIC_RELAXED);
    return block;
}
static void *uncounted(void *block) {
    __atomic_fetch_sub(&allocated, block ? malloc_usable_size(block) : 0, __ATOMIC_RELAXED);
    return block;
}
void *__wrap_malloc(size_t size) { return fails(&allocations_left) ? NULL : counted(__real_malloc(size)); }
void *__wrap_calloc(size_t count, size_t size) { return fails(&allocations_left) ? NULL : counted(__real_calloc(count, size)); }
void *__wrap_realloc(void *old, size_t size) {
    if (fails(&allocations_left)) return NULL;
    void *block = __real_realloc(uncounted(old), size);
    if (!block) counted(old);
    return counted(block);
}
void __wrap_free(void *block) { __real_free(uncounted(block)); }
int __wrap_pthread_create(pthread_t *thread, const pthread_attr_t *attributes, void *(*body)(void *), void *argument) {
    return fails(&threads_left) ? 11 : (created++, __real_pthread_create(thread, attributes, body, argument));
}
int __wrap_pthread_mutex_init(pthread_mutex_t *mutex, const pthread_mutexattr_t *attributes) {
    return fails(&inits_left) ? 11 : (initialized++, __real_pthread_mutex_init(mutex, attributes));
}
int __wrap_pthread_cond_init(pthread_cond_t *condition, const pthread_condattr_t *attributes) {
    return fails(&inits_left) ? 11 : (initialized++, __real_pthread_cond_init(condition, attributes));
}
int __wrap_pthread_mutex_destroy(pthread_mutex_t *mutex) { return initialized--, __real_pthread_mutex_destroy(mutex); }
int __wrap_pthread_cond_destroy(pthread_cond_t *condition) { return initialized--, __real_pthread_cond_destroy(condition); }

enum { TASKS = 600, ADDED = 400, ALL = TASKS + ADDED };

/* ---- the graph: each task reads the two before it, or what they write: three handles in turn */
static bool is_over_data;
static uint32_t offsets[TASKS + 1], inputs[2 * TASKS];
static uint32_t refused_calls;

static void fill(void) {
    for (uint32_t t = 0, count = 0; t < TASKS; t++, offsets[t] = count)
        for (uint32_t back = 1; back <= 2 && back <= t; back++) inputs[count++] = t - back;
}

/* The state of a graph that readers show. */
struct state {
    gerfmuod_graph_result count, fault, event;
};
static struct state state_of(gerfmuod_graph *graph) {
    return (struct state){gerfmuod_graph_call(graph, GERFMUOD_GRAPH_COUNT, 0, 0), gerfmuod_graph_call(graph, GERFMUOD_GRAPH_FAULT, 0, 0),
                          gerfmuod_graph_call(graph, GERFMUOD_GRAPH_EVENT, 0, 0)};
}

/* Whether a call was refused because memory ran out; it has changed nothing then, and is repeated. */
static bool is_repeated(gerfmuod_graph *graph, struct state before, gerfmuod_graph_result answer) {
    if (answer.refused != GERFMUOD_REFUSED_NO_MEMORY) return false;
    struct state after = state_of(graph);
    refused_calls++;
    check("a refused call changes nothing", !memcmp(&before, &after, sizeof before) && !answer.next && !answer.signals);
    return true;
}

static gerfmuod_graph_result spawn(gerfmuod_graph *graph, uint32_t task) {
    const uint32_t last[] = {task - 1, task - 2};
    const gerfmuod_access on[] = {{(task + 2) % 3, GERFMUOD_READ}, {(task + 1) % 3, GERFMUOD_READ}, {task % 3, GERFMUOD_WRITE}};
    return is_over_data ? gerfmuod_graph_task(graph, 0, on, 3, 0) : gerfmuod_graph_spawn(graph, 0, last, task < 2 ? task : 2, 0);
}

static bool add(gerfmuod_graph *graph, uint32_t task) {
    struct state before = state_of(graph);
    gerfmuod_graph_result answer = spawn(graph, task);
    if (is_repeated(graph, before, answer)) answer = spawn(graph, task);
    return !answer.refused && answer.number == task;
}

static bool describe(gerfmuod_graph *graph, bool by_arrays) {
    struct state before = state_of(graph);
    bool is_well = true;
    for (uint32_t h = 0; h < 3 && is_over_data; h++) {
        gerfmuod_graph_result answer = gerfmuod_graph_call(graph, GERFMUOD_GRAPH_HANDLE, 0, 0);
        if (is_repeated(graph, before, answer)) answer = gerfmuod_graph_call(graph, GERFMUOD_GRAPH_HANDLE, 0, 0);
        is_well &= !answer.refused && answer.number == h;
    }
    for (uint32_t t = 0; t < TASKS && !by_arrays; t++) is_well &= add(graph, t);
    if (!by_arrays) return is_well;
    gerfmuod_graph_result answer = gerfmuod_graph_describe(graph, NULL, 0, offsets, TASKS + 1, inputs, offsets[TASKS]);
    if (is_repeated(graph, before, answer))
        answer = gerfmuod_graph_describe(graph, NULL, 0, offsets, TASKS + 1, inputs, offsets[TASKS]);
    return !answer.refused;
}

/* Runs a graph, each task once and in order; in the last run, the first task adds others. */
static bool runs(gerfmuod_graph *graph, bool is_last) {
    struct state before = state_of(graph);
    gerfmuod_graph_result answer = gerfmuod_graph_call(graph, GERFMUOD_GRAPH_START, 1, 0);
    if (is_repeated(graph, before, answer)) answer = gerfmuod_graph_call(graph, GERFMUOD_GRAPH_START, 1, 0);
    if (answer.refused) return false;
    uint32_t ran = 0, tasks = is_last ? ALL : TASKS;
    answer = gerfmuod_graph_call(graph, GERFMUOD_GRAPH_TURN, GERFMUOD_GRAPH_NONE, 0);
    for (; answer.next == GERFMUOD_GRAPH_RUN && answer.number == ran; ran++) {
        for (uint32_t t = TASKS; !ran && t < tasks; t++)
            if (!add(graph, t)) return false;
        answer = gerfmuod_graph_call(graph, GERFMUOD_GRAPH_TURN, ran, 0);
    }
    return answer.next == GERFMUOD_GRAPH_OVER && ran == tasks;
}

/* Makes each allocation of two runs of a graph fail, with a new graph for each. */
static void check_graph(bool is_traced, bool by_arrays, bool over_data) {
    bool has_failed = true;
    is_over_data = over_data;
    for (long n = 1; has_failed; n++) {
        gerfmuod_graph graph;
        gerfmuod_graph_open(&graph, is_traced, 1);
        refused_calls = 0;
        allocations_left = n;
        bool is_well = describe(&graph, by_arrays) && runs(&graph, false);
        is_well = is_well && !gerfmuod_graph_call(&graph, GERFMUOD_GRAPH_AGAIN, 0, 0).refused && runs(&graph, true);
        has_failed = allocations_left < 0;
        allocations_left = -1;
        check_ok("close", gerfmuod_graph_call(&graph, GERFMUOD_GRAPH_CLOSE, 0, 0).refused);
        check("a graph whose allocation failed", is_well);
        check("the failure was reported", refused_calls == (has_failed ? 1 : 0));
    }
}

/* ---- the team */
static int body(void *context, uint32_t task) {
    uint8_t *ran = context;
    ran[task]++;
    return 0;
}

static bool has_run(const uint8_t *ran, int times) {
    for (uint32_t t = 0; t < TASKS; t++)
        if (ran[t] != times) return false;
    return true;
}

/* A call on a team is made again if it was refused because memory ran out. */
#define REPEATED(call) ((call) != GERFMUOD_REFUSED_NO_MEMORY ? 0 : (refused_calls++, (call)))

/* A team whose Nth allocation fails, which records its runs or does not. */
static void check_team(bool is_recording) {
    bool has_failed = true;
    FILE *file = fopen("/dev/null", "w");
    check("a stream", file);
    setvbuf(file, NULL, _IONBF, 0);
    for (long n = 1; has_failed; n++) {
        uint8_t ran[TASKS] = {0};
        gerfmuod_team *team;
        refused_calls = 0;
        allocations_left = n;
        uint32_t refused = gerfmuod_team_open_traced(&team);
        check("a team or none", !refused == !!team);
        if (refused) refused_calls++, refused = gerfmuod_team_open_traced(&team);
        check_ok("open", refused);
        if (is_recording) check_ok("record", REPEATED(gerfmuod_team_record(team, TASKS)));
        for (uint32_t t = 0; t < TASKS; t++) {
            const uint32_t last[] = {t - 1, t - 2};
            check_ok("task", REPEATED(gerfmuod_team_task(team, 0, last, t < 2 ? t : 2, NULL)));
        }
        for (int run = 0; run < 2; run++) {
            if (run) check_ok("again", gerfmuod_team_again(team));
            check_ok("run", REPEATED(gerfmuod_team_run(team, 1 + (uint32_t)run, body, ran)));
        }
        check("all ran twice", has_run(ran, 2));
        if (is_recording) check_ok("profile", REPEATED(gerfmuod_team_profile(team, file)));
        if (is_recording) check_ok("summary", REPEATED(gerfmuod_team_summary(team, file)));
        has_failed = allocations_left < 0;
        allocations_left = -1;
        check("the failure was reported", refused_calls == (has_failed ? 1 : 0));
        gerfmuod_team_close(team);
    }
    fclose(file);
}

/* An allocation of a whole graph fails: the team has no task, and its profile neither. */
static void check_team_describe(bool is_recording) {
    bool has_failed = true;
    for (long n = 1; has_failed; n++) {
        uint8_t ran[TASKS] = {0};
        uint32_t at;
        gerfmuod_team *team = new_team();
        if (is_recording) check_ok("record", gerfmuod_team_record(team, 1));
        allocations_left = n;
        uint32_t refused = gerfmuod_team_describe(team, TASKS, NULL, offsets, inputs, &at);
        has_failed = allocations_left < 0;
        allocations_left = -1;
        check_refusal("a graph", refused, has_failed ? GERFMUOD_REFUSED_NO_MEMORY : GERFMUOD_OK);
        if (refused) check_ok("the same again", gerfmuod_team_describe(team, TASKS, NULL, offsets, inputs, &at));
        check_ok("run", gerfmuod_team_run(team, 1, body, ran));
        check("each task once", has_run(ran, 1));
        gerfmuod_team_close(team);
    }
}

/* Too few threads are created: nothing runs, and the team may be run again. */
CASE(too_few_threads) {
    for (long n = 1; n <= 3; n++) {
        uint8_t ran[TASKS] = {0};
        gerfmuod_team *team = new_team();
        check_ok("a graph", gerfmuod_team_describe(team, TASKS, NULL, offsets, inputs, NULL));
        threads_left = n;
        check_refusal("a thread that is not created", gerfmuod_team_run(team, 4, body, ran), GERFMUOD_REFUSED_NOT_STARTED);
        check("nothing ran", has_run(ran, 0));
        check_ok("the graph", gerfmuod_team_fault(team));
        check_ok("it runs when threads are created", gerfmuod_team_run(team, 4, body, ran));
        check("each task once", has_run(ran, 1));
        gerfmuod_team_close(team);
    }
}

/* A run creates those threads that no run before needed: not those of the same graph, nor of a new one, nor beside the caller. */
CASE(threads_stay) {
    static const struct { uint32_t threads; bool is_new, is_async; int created; } runs[] = {
        {4, false, false, 3}, {4, false, false, 3}, {2, false, false, 3}, {5, false, false, 4}, {5, true, false, 4},
        {4, false, true, 4},  {5, true, true, 5},   {6, false, false, 5}, {1, true, false, 5},
    };
    uint8_t ran[TASKS] = {0};
    gerfmuod_team *team = new_team();
    check_ok("a graph", gerfmuod_team_describe(team, TASKS, NULL, offsets, inputs, NULL));
    created = 0;
    for (uint32_t k = 0; k < sizeof runs / sizeof *runs; k++) {
        if (k) check_ok("prepare", runs[k].is_new ? gerfmuod_team_clear(team) : gerfmuod_team_again(team));
        if (runs[k].is_new) check_ok("a graph", gerfmuod_team_describe(team, TASKS, NULL, offsets, inputs, NULL));
        check_ok("run", (runs[k].is_async ? gerfmuod_team_run_async : gerfmuod_team_run)(team, runs[k].threads, body, ran));
        check_ok("wait", gerfmuod_team_wait(team, GERFMUOD_TEAM_NO_LIMIT));
        check_that(created == runs[k].created, "%d threads were created before run %u", created, k);
        check("each task once more", has_run(ran, 1 + (int)k));
    }
    gerfmuod_team_close(team);
}

CASE(no_lock) {
    for (inits_left = 1; inits_left <= 2;) {
        long n = inits_left;
        gerfmuod_team *team = (gerfmuod_team *)&inputs;
        check_refusal("open", gerfmuod_team_open(&team), GERFMUOD_REFUSED_NO_MEMORY);
        check("there is no team", !team && !initialized);
        inits_left = n + 1;
    }
    inits_left = -1;
}

/* ---- memory */

/* Returns the bytes of a graph that has run, in which each task reads the `count` tasks before it. */
static size_t bytes_of(uint32_t tasks, uint32_t count) {
    gerfmuod_graph graph;
    size_t before = allocated;
    gerfmuod_graph_open(&graph, 0, 1);
    for (uint32_t t = 0; t < tasks; t++) {
        const uint32_t last[] = {t - 1, t - 2, t - 3, t - 4};
        check("task", gerfmuod_graph_spawn(&graph, 0, last, t < count ? t : count, 0).number == t);
    }
    for (int run = 0; run < 2; run++) {
        if (run) check_ok("again", gerfmuod_graph_call(&graph, GERFMUOD_GRAPH_AGAIN, 0, 0).refused);
        check_ok("start", gerfmuod_graph_call(&graph, GERFMUOD_GRAPH_START, 1, 0).refused);
        gerfmuod_graph_result answer = gerfmuod_graph_call(&graph, GERFMUOD_GRAPH_TURN, GERFMUOD_GRAPH_NONE, 0);
        while (answer.next == GERFMUOD_GRAPH_RUN) answer = gerfmuod_graph_call(&graph, GERFMUOD_GRAPH_TURN, answer.number, 0);
    }
    size_t used = allocated - before;
    check_ok("close", gerfmuod_graph_call(&graph, GERFMUOD_GRAPH_CLOSE, 0, 0).refused);
    check("all memory is freed", allocated == before);
    return used;
}

CASE(memory_of_a_large_graph) {
    size_t task = bytes_of(100000, 0) / 100000, with_inputs = bytes_of(100000, 4) / 100000;
    printf("%zu bytes a task, with 4 inputs %zu\n", task, with_inputs);
    check("a task takes at most 100 bytes", task <= 100);
    check("an input takes at most 20 bytes", with_inputs <= task + 4 * 20);
}

CASE(a_graph) { check_graph(false, false, false); }
CASE(a_traced_graph) { check_graph(true, false, false); }
CASE(a_graph_by_arrays) { check_graph(false, true, false); }
CASE(a_traced_graph_by_arrays) { check_graph(true, true, false); }
CASE(a_graph_over_data) { check_graph(true, false, true); }
CASE(a_team) { check_team(false); }
CASE(a_team_that_records) { check_team(true); }
CASE(a_team_by_arrays) { check_team_describe(false); }
CASE(a_team_by_arrays_that_records) { check_team_describe(true); }
CASE(no_lock_is_left) { check("all locks are destroyed", !initialized); }

int main(void) {
    const struct CMUnitTest cases[] = {
        cmocka_unit_test(a_graph), cmocka_unit_test(a_traced_graph), cmocka_unit_test(a_graph_by_arrays),
        cmocka_unit_test(a_traced_graph_by_arrays), cmocka_unit_test(a_graph_over_data), cmocka_unit_test(a_team),
        cmocka_unit_test(a_team_that_records), cmocka_unit_test(a_team_by_arrays), cmocka_unit_test(a_team_by_arrays_that_records),
        cmocka_unit_test(too_few_threads), cmocka_unit_test(threads_stay), cmocka_unit_test(no_lock),
        cmocka_unit_test(memory_of_a_large_graph), cmocka_unit_test(no_lock_is_left),
    };
    fill();
    return RUN(cases);
}
