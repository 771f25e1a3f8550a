/* data.c: random programs whose tasks name the data that they access, compared with the sequential program.
 *
 *   data PROGRAMS [SEED [forgets|weakens]]     a fault of the program, which has to be detected: a task does not name a handle that
 *                                              it accesses, or calls an update a read
 *
 * The value of a handle is a number. A body reads the handles of its accesses as it begins, and writes them as it ends, and remembers a
 * sum of what it read. A third of the programs runs on turns of threads that this program plays, which begin and end bodies in any order;
 * a third on a team of up to four threads, where a race is one for ThreadSanitizer; a third in up to six parts of up to two threads. Some
 * tasks are added in the run, by a task that is the first one, but not in parts. After the first value or sum that differs, none runs. */
#include "../random.h"
#include "../violations.h"
#include <gerfmuod/parts.h>

enum { MOST_TASKS = 48, MOST_HANDLES = 6, MOST_ACCESSES = 4, MOST_THREADS = 4, MOST_PARTS = 6 };

struct task {
    gerfmuod_access named[MOST_ACCESSES]; /* what the graph knows */
    uint32_t count, all;                  /* the number of those, and of all accesses of the body */
    gerfmuod_access accessed[MOST_ACCESSES];
};

struct state {
    uint64_t values[MOST_HANDLES], read[MOST_TASKS], written[MOST_TASKS];
    uint32_t ran;
};

static struct task task[MOST_TASKS];
static uint32_t tasks, handles, first_later; /* tasks from first_later on are added in the run, by task 0 */
static struct state expected, found;
static uint32_t programs, present, all_tasks; /* `present` is the number of the program */
static const char *given_seed = "by default";
static char fault;
static violations played, on_team, in_parts, *way; /* `way` is that of the program */

static uint64_t mix(uint64_t sum, uint64_t value) {
    sum = (sum ^ value) * 0x9e3779b97f4a7c15u;
    return sum ^ sum >> 29;
}

/* The first and the second half of a body. */
static void begin(struct state *state, uint32_t t) {
    uint64_t sum = t + 1;
    for (uint32_t k = 0; k < task[t].all; k++)
        if (task[t].accessed[k].mode != GERFMUOD_WRITE) sum = mix(sum, state->values[task[t].accessed[k].handle]);
    state->read[t] = sum;
}
static void end(struct state *state, uint32_t t) {
    for (uint32_t k = 0; k < task[t].all; k++)
        if (task[t].accessed[k].mode != GERFMUOD_READ)
            state->values[task[t].accessed[k].handle] = mix(state->read[t], task[t].accessed[k].handle);
}

/* Makes a program, and runs it as a sequential one. */
static void make_program(void) {
    handles = 1 + below(MOST_HANDLES), tasks = 2 + below(MOST_TASKS - 1), first_later = 1 + below(tasks);
    memset(task, 0, sizeof task), memset(&expected, 0, sizeof expected), memset(&found, 0, sizeof found);
    for (uint32_t t = 1; t < tasks; t++) {
        task[t].all = task[t].count = below(MOST_ACCESSES + 1);
        for (uint32_t k = 0; k < task[t].all; k++)
            task[t].accessed[k] = (gerfmuod_access){below(handles), GERFMUOD_READ + below(3)};
        memcpy(task[t].named, task[t].accessed, sizeof task[t].named);
        if (fault == 'f' && task[t].count && !below(8)) task[t].count--;
        for (uint32_t k = 0; k < task[t].count; k++)
            if (fault == 'w' && task[t].named[k].mode == GERFMUOD_UPDATE && !below(8)) task[t].named[k].mode = GERFMUOD_READ;
    }
    for (uint32_t t = 0; t < tasks; t++) begin(&expected, t), end(&expected, t);
}

static void need(bool holds, const char *what) {
    if (!holds) end_runs(way, "in program %u, seed %s: %s failed", present, given_seed, what);
}

/* ---- turns of threads that are played */
static gerfmuod_graph graph;

static void add_to_graph(uint32_t from, uint32_t to) {
    for (uint32_t t = from; t < to; t++) {
        gerfmuod_graph_result added = gerfmuod_graph_task(&graph, below(4), task[t].named, task[t].count, 0);
        need(!added.refused && added.number == t, "task");
    }
}

static void play(void) {
    uint32_t runs[MOST_THREADS], threads = 1 + below(MOST_THREADS), left = threads;
    bool waits[MOST_THREADS] = {false}, is_away[MOST_THREADS] = {false};
    gerfmuod_graph_open(&graph, 0, 0);
    for (uint32_t h = 0; h < handles; h++) {
        gerfmuod_graph_result added = gerfmuod_graph_call(&graph, GERFMUOD_GRAPH_HANDLE, 0, 0);
        need(!added.refused && added.number == h, "handle");
    }
    add_to_graph(0, first_later);
    need(!gerfmuod_graph_call(&graph, GERFMUOD_GRAPH_START, threads, 0).refused, "start");
    for (uint32_t w = 0; w < threads; w++) runs[w] = GERFMUOD_GRAPH_NONE;
    while (left) { /* any thread goes on: one that was to sleep wakes up by itself, too */
        uint32_t w = below(threads), done = runs[w];
        if (is_away[w]) continue;
        if (done == 0) add_to_graph(first_later, tasks);
        if (done != GERFMUOD_GRAPH_NONE) end(&found, done), found.ran++;
        gerfmuod_graph_result turn =
            gerfmuod_graph_call(&graph, waits[w] ? GERFMUOD_GRAPH_TURN_WOKEN : GERFMUOD_GRAPH_TURN, done, 0);
        need(!turn.refused, "turn");
        waits[w] = turn.next == GERFMUOD_GRAPH_SLEEP, runs[w] = turn.next == GERFMUOD_GRAPH_RUN ? turn.number : GERFMUOD_GRAPH_NONE;
        if (turn.next == GERFMUOD_GRAPH_RUN) begin(&found, turn.number);
        if (turn.next == GERFMUOD_GRAPH_OVER) is_away[w] = true, left--;
    }
    need(!gerfmuod_graph_call(&graph, GERFMUOD_GRAPH_CLOSE, 0, 0).refused, "close");
}

/* ---- a team */
static void attach(void *data, uint32_t t) { *(uint32_t *)data = t; }

/* Returns whether the tasks were added and released, each with its number. */
static bool add_to_team(gerfmuod_team *team, uint32_t from, uint32_t to) {
    for (uint32_t t = from; t < to; t++) {
        uint32_t number = 0, attached = MOST_TASKS;
        if (gerfmuod_team_task_on(team, t % 4, task[t].named, task[t].count, t % 2, attach, &attached, &number)) return false;
        if (number != t || attached != t) return false;
        if (t % 2 && gerfmuod_team_release(team, t)) return false;
    }
    return true;
}

/* Stops the run if a task that it adds is refused. */
static int body(void *context, uint32_t t) {
    if (t == 0 && !add_to_team(context, first_later, tasks)) return 1;
    begin(&found, t), end(&found, t);
    __atomic_fetch_add(&found.ran, 1, __ATOMIC_RELAXED);
    return 0;
}

static void run(void) {
    gerfmuod_team *team;
    need(!gerfmuod_team_open(&team), "open");
    for (uint32_t h = 0, number = 1; h < handles; h++) need(!gerfmuod_team_handle(team, &number) && number == h, "handle");
    need(add_to_team(team, 0, first_later), "task");
    need(!gerfmuod_team_run(team, 1 + below(MOST_THREADS), body, team), "run");
    gerfmuod_team_close(team);
}

/* ---- parts */
static int body_in_parts(void *context, uint32_t t) {
    (void)context;
    begin(&found, t), end(&found, t);
    __atomic_fetch_add(&found.ran, 1, __ATOMIC_RELAXED);
    return 0;
}

static void run_in_parts(void) {
    gerfmuod_parts *parts;
    uint32_t count = 1 + below(MOST_PARTS);
    need(!gerfmuod_parts_open(&parts, count), "open");
    for (uint32_t h = 0, number = 1; h < handles; h++) need(!gerfmuod_parts_handle(parts, &number) && number == h, "handle");
    for (uint32_t t = 0, number = 1; t < tasks; t++)
        need(!gerfmuod_parts_task_on(parts, below(count), below(4), task[t].named, task[t].count, &number) && number == t, "task");
    if (below(2)) gerfmuod_parts_bind(parts);
    need(!gerfmuod_parts_run(parts, 1 + below(2), body_in_parts, NULL), "run");
    gerfmuod_parts_close(parts);
}

static bool is_as_expected(void) {
    if (found.ran != tasks || memcmp(found.values, expected.values, sizeof found.values)) return false;
    return !memcmp(found.read, expected.read, sizeof found.read);
}

static void make_runs(void) {
    static void (*const runs[])(void) = {play, run, run_in_parts};
    static violations *const ways[] = {&played, &on_team, &in_parts};
    for (; present < programs; present++) {
        uint32_t kind = fault ? 0 : present % 3;
        way = ways[kind];
        make_program();
        runs[kind]();
        all_tasks += tasks;
        if (!is_as_expected()) end_runs(way, "in program %u, seed %s: it differs from the sequential one", present, given_seed);
    }
}

CASE(turns_that_come_in_any_order_do_what_the_sequential_program_does) { check_none(&played); }
CASE(a_team_does_what_the_sequential_program_does) { check_none(&on_team); }
CASE(parts_do_what_the_sequential_program_does) { check_none(&in_parts); }

int main(int argc, char **argv) {
    const struct CMUnitTest turns[] = {cmocka_unit_test(turns_that_come_in_any_order_do_what_the_sequential_program_does)};
    const struct CMUnitTest threads[] = {
        cmocka_unit_test(a_team_does_what_the_sequential_program_does),
        cmocka_unit_test(parts_do_what_the_sequential_program_does),
    };
    programs = argc > 1 ? (uint32_t)atoi(argv[1]) : 1000;
    if (argc > 2) given_seed = argv[2], seed = strtoull(given_seed, NULL, 10) * 2 + 1;
    fault = argc > 3 ? argv[3][0] : 0;
    int failed = RUN(turns) + (fault ? 0 : RUN(threads));
    if (!failed) printf("%u tasks of %u programs, as the sequential programs\n", all_tasks, programs);
    return failed;
}
