/* runs_again.c: a team that runs again and again with threads that stay: again, a stop or a failure and a reset, a new graph, runs
 * beside the caller. */
#define _POSIX_C_SOURCE 200809L
#include "check.h"
#include "limit.h"

enum { TASKS = 200, ROUNDS = 300 };

/* What the bodies count. Each task has a place of its own, and task t reads t - 1 and t / 2. */
struct counts {
    gerfmuod_team *team;
    uint32_t bodies[TASKS];
    uint32_t fails_at, stops_at; /* the task whose body fails, or stops the team; or GERFMUOD_GRAPH_NONE */
    bool is_slow;
};

static int count(void *context, uint32_t task) {
    struct counts *counts = context;
    counts->bodies[task]++;
    if (counts->is_slow) sleep_for(1000000);
    if (task == counts->stops_at) gerfmuod_team_stop(counts->team, task);
    return task == counts->fails_at;
}

static struct counts described(void) {
    struct counts counts = {new_team(), {0}, GERFMUOD_GRAPH_NONE, GERFMUOD_GRAPH_NONE, false};
    for (uint32_t t = 0; t < TASKS; t++) {
        const uint32_t inputs[] = {t - 1, t / 2};
        check_ok("task", gerfmuod_team_task(counts.team, t % 4, inputs, t > 2 ? 2 : 0, NULL));
    }
    return counts;
}

static void check_each(const struct counts *counts, uint32_t times) {
    for (uint32_t t = 0; t < TASKS; t++) check_that(counts->bodies[t] == times, "task %u ran %u times", t, counts->bodies[t]);
}

CASE(runs_with_any_number_of_threads) {
    struct counts counts = described();
    for (uint32_t round = 0; round < ROUNDS; round++) {
        if (round) check_ok("again", gerfmuod_team_again(counts.team));
        check_ok("run", gerfmuod_team_run(counts.team, 1 + round * 5 % 8, count, &counts));
        check_each(&counts, round + 1);
    }
    gerfmuod_team_close(counts.team);
}

CASE(a_failure_is_forgotten_by_reset) {
    struct counts counts = described();
    for (uint32_t round = 0; round < ROUNDS; round++) {
        uint32_t task = round * 7 % TASKS;
        memset(counts.bodies, 0, sizeof counts.bodies);
        counts.fails_at = round % 2 ? task : GERFMUOD_GRAPH_NONE, counts.stops_at = round % 2 ? GERFMUOD_GRAPH_NONE : task;
        uint32_t refused = gerfmuod_team_run(counts.team, 1 + round % 4, count, &counts);
        check("the run", refused == GERFMUOD_REFUSED_STOPPED);
        check("the task", gerfmuod_team_failed(counts.team) == task);
        check("again", gerfmuod_team_again(counts.team) == GERFMUOD_REFUSED_STOPPED);
        check("some are left", gerfmuod_team_left(counts.team) > 0);
        check_ok("reset", gerfmuod_team_reset(counts.team));
        check("all are left", gerfmuod_team_left(counts.team) == TASKS);
        memset(counts.bodies, 0, sizeof counts.bodies);
        counts.fails_at = counts.stops_at = GERFMUOD_GRAPH_NONE;
        check_ok("the same graph", gerfmuod_team_run(counts.team, 1 + round % 3, count, &counts));
        check_each(&counts, 1);
        check_ok("reset after a whole run", gerfmuod_team_reset(counts.team));
    }
    gerfmuod_team_close(counts.team);
}

CASE(a_graph_that_grew_is_not_reset) {
    struct counts counts = described();
    check_ok("start", gerfmuod_team_start(counts.team, 1));
    check_ok("a task in the run", gerfmuod_team_task(counts.team, 0, NULL, 0, NULL));
    gerfmuod_team_stop(counts.team, GERFMUOD_GRAPH_NONE);
    check("reset", gerfmuod_team_reset(counts.team) == GERFMUOD_REFUSED_WRONG_LIFE);
    gerfmuod_team_close(counts.team);
}

/* A task that adds others, which access handles; the last one fails in some rounds. */
static int grow(void *context, uint32_t task) {
    struct counts *counts = context;
    uint32_t handle;
    if (task) return count(context, task);
    for (uint32_t t = 1; t < TASKS; t++) {
        if (t % 50 == 1) check_ok("handle", gerfmuod_team_handle(counts->team, &handle));
        const gerfmuod_access access = {handle, t % 5 ? GERFMUOD_READ : GERFMUOD_UPDATE};
        check_ok("task", gerfmuod_team_task_on(counts->team, t % 4, &access, 1, 0, NULL, NULL, NULL));
    }
    return count(context, task);
}

CASE(other_graphs_on_the_same_threads) {
    struct counts counts = {.team = new_team(), .stops_at = GERFMUOD_GRAPH_NONE};
    check_ok("record", gerfmuod_team_record(counts.team, TASKS));
    for (uint32_t round = 0; round < ROUNDS; round++) {
        bool fails = round % 3 == 0, grows = round % 2;
        memset(counts.bodies, 0, sizeof counts.bodies);
        counts.fails_at = fails ? TASKS - 1 : GERFMUOD_GRAPH_NONE;
        check_ok("clear", gerfmuod_team_clear(counts.team));
        check("an empty graph", gerfmuod_team_left(counts.team) == 0);
        for (uint32_t t = 0; t < (grows ? 1 : TASKS); t++)
            check_ok("task", gerfmuod_team_task(counts.team, 0, &(uint32_t){t - 1}, t > 0, NULL));
        uint32_t refused = gerfmuod_team_run(counts.team, 1 + round % 4, grows ? grow : count, &counts);
        check("the run", refused == (fails ? GERFMUOD_REFUSED_STOPPED : GERFMUOD_OK));
        if (!fails || !grows) check_each(&counts, 1);
        FILE *file = fopen("/dev/null", "w");
        check_ok("its profile", gerfmuod_team_profile(counts.team, file));
        fclose(file);
    }
    gerfmuod_team_close(counts.team);
}

CASE(a_run_beside_the_caller) {
    struct counts counts = described();
    for (uint32_t round = 0; round < ROUNDS; round++) {
        if (round) check_ok("again", gerfmuod_team_again(counts.team));
        check_ok("run", gerfmuod_team_run_async(counts.team, 1 + round % 4, count, &counts));
        check_ok("wait", gerfmuod_team_wait(counts.team, GERFMUOD_TEAM_NO_LIMIT));
        check("none is left", gerfmuod_team_left(counts.team) == 0);
        check_each(&counts, round + 1);
    }
    gerfmuod_team_close(counts.team);
}

CASE(calls_beside_a_run_are_refused) {
    struct counts counts = described();
    counts.is_slow = true;
    check_ok("run", gerfmuod_team_run_async(counts.team, 2, count, &counts));
    check("the time is over", gerfmuod_team_wait(counts.team, 1) == GERFMUOD_REFUSED_RUNNING);
    check("a second run", gerfmuod_team_run(counts.team, 2, count, &counts) == GERFMUOD_REFUSED_RUNNING);
    check("a third one", gerfmuod_team_run_async(counts.team, 2, count, &counts) == GERFMUOD_REFUSED_RUNNING);
    check("again", gerfmuod_team_again(counts.team) == GERFMUOD_REFUSED_RUNNING);
    check("reset", gerfmuod_team_reset(counts.team) == GERFMUOD_REFUSED_RUNNING);
    check("clear", gerfmuod_team_clear(counts.team) == GERFMUOD_REFUSED_RUNNING);
    check("record", gerfmuod_team_record(counts.team, 9) == GERFMUOD_REFUSED_RUNNING);
    gerfmuod_team_stop(counts.team, 3);
    check("wait", gerfmuod_team_wait(counts.team, GERFMUOD_TEAM_NO_LIMIT) == GERFMUOD_REFUSED_STOPPED);
    check_ok("reset then", gerfmuod_team_reset(counts.team));
    check_ok("run, to be closed", gerfmuod_team_run_async(counts.team, 3, count, &counts));
    gerfmuod_team_close(counts.team); /* ends the run; the sanitizers see what is touched after that */
}

CASE(too_few_threads) {
    struct counts counts = described();
    check("no thread", gerfmuod_team_run(counts.team, 0, count, &counts) == GERFMUOD_REFUSED_NO_THREAD);
    check("no thread beside", gerfmuod_team_run_async(counts.team, 0, count, &counts) == GERFMUOD_REFUSED_NO_THREAD);
    check_each(&counts, 0);
    check_ok("run", gerfmuod_team_run(counts.team, 2, count, &counts));
    gerfmuod_team_close(counts.team);
}

int main(void) {
    const struct CMUnitTest cases[] = {
        cmocka_unit_test(runs_with_any_number_of_threads), cmocka_unit_test(a_failure_is_forgotten_by_reset),
        cmocka_unit_test(a_graph_that_grew_is_not_reset),  cmocka_unit_test(a_run_beside_the_caller),
        cmocka_unit_test(calls_beside_a_run_are_refused),  cmocka_unit_test(too_few_threads),
        cmocka_unit_test(other_graphs_on_the_same_threads),
    };
    return RUN(cases);
}
