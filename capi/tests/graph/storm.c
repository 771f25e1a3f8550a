/* storm.c: random graphs on random numbers of threads. Each body checks that its inputs are done, that its inputs from outside are
 * there, and that it runs for the first time. Its data has no lock and no atomics, so ThreadSanitizer also checks that the team
 * orders the bodies. The rounds end at the first violation, and the case of that guarantee fails.
 *
 *   storm ROUNDS [SEED [early | FOLDER]]     early: threads report tasks as done before they run them; this has to be detected.
 *                                            Else each run writes its trace and its events into FOLDER
 *
 * Every second round runs on its own threads with gerfmuod_team_turn, in one call or two, which begin before the start or after it.
 * Some rounds have a body that fails. One more thread releases the inputs from outside in random order, before the start and
 * after it. Every tenth graph is one task and then tasks that run on all threads at the same time. Of every third graph only
 * the beginning is described: its bodies make the other tasks. Many graphs run again, with gerfmuod_team_again. If the
 * library has gerfmuod_audit, it judges the trace of each run. The exit status is 124 if a round did not end. */
#define _POSIX_C_SOURCE 200809L
#include "../../examples/timing.h"
#include "../random.h"
#include "../violations.h"
#include "check.h"
#include <gerfmuod/core.h>
#include "limit.h"
#include <pthread.h>
#include <sched.h>

#pragma weak gerfmuod_audit

enum { MOST = 300, MOST_THREADS = 16, INPUTS = 4, OUTSIDE = 2 };

static uint32_t tasks, threads, failing;
static uint32_t described;        /* the number of tasks that are there before the run; bodies make the others */
static uint32_t made;             /* the number of tasks that are there, if some are made by bodies; `making` protects it */
static bool has_run;
static pthread_mutex_t making = PTHREAD_MUTEX_INITIALIZER;
static uint32_t meeting, arrived; /* the number of tasks that have to run at the same time, and the number that have begun */
static uint8_t classes[MOST];
static uint32_t offsets[MOST + 1], inputs[MOST * INPUTS];
static uint32_t releases[MOST * OUTSIDE], release_count; /* the tasks of the inputs from outside, in the order of their release */
static char has_ended[MOST], awaited[MOST], has_come[MOST];
/* What threads find in a run, each only written if there is something: bodies that ran before their inputs, before their inputs from
 * outside, or twice; that did not run at the same time; tasks and releases that were refused. */
static int too_early, unawaited, twice, apart, unmade, unreleased;
static uint32_t rounds, present; /* how many there are, and the number of the present one */
static uint32_t repeated;        /* runs that were not the first of their graph */
static uint32_t grown;           /* graphs of which bodies made tasks */
static const char *given_seed = "by default";
static violations order, awaiting, once, together, making_tasks, releasing, calls, ends, stops, again_after_growth, traces;
static bool is_early;
static const char *folder; /* for the traces and events; NULL if there are none */
static unsigned written;
static gerfmuod_team *team;

/* Ends the rounds if a call is refused. */
static void must(const char *what, uint32_t refused) {
    if (refused) end_runs(&calls, "in round %u, seed %s: %s: refused %u", present, given_seed, what, refused);
}

static void clear_run(void) {
    arrived = release_count = 0;
    memset(has_ended, 0, sizeof has_ended), memset(awaited, 0, sizeof awaited), memset(has_come, 0, sizeof has_come);
}

/* Draws the inputs from outside. After the first run only tasks that wait for others may have some. */
static void draw_releases(bool is_first_run) {
    for (uint32_t t = 0; t < tasks; t++) {
        uint32_t count = below(6) ? 0 : 1 + below(OUTSIDE);
        if (!is_first_run && offsets[t] == offsets[t + 1]) count = 0;
        for (; count > 0; count--) awaited[t]++, releases[release_count++] = t;
    }
    for (uint32_t i = release_count; i > 1; i--) {
        uint32_t other = below(i), t = releases[i - 1];
        releases[i - 1] = releases[other], releases[other] = t;
    }
}

static void draw_graph(void) {
    threads = 1 + below(MOST_THREADS);
    tasks = below(MOST);
    offsets[0] = 0;
    for (uint32_t t = 0; t < tasks; t++) {
        classes[t] = (uint8_t)below(GERFMUOD_GRAPH_CLASSES);
        offsets[t + 1] = offsets[t];
        for (uint32_t k = t ? below(INPUTS + 1) : 0; k > 0; k--) inputs[offsets[t + 1]++] = t - 1 - below(t < 20 ? t : 20);
    }
    failing = tasks && below(8) == 0 ? below(tasks) : GERFMUOD_GRAPH_NONE;
    if (is_early) failing = GERFMUOD_GRAPH_NONE;
    draw_releases(true);
}

/* One task, and then one for each thread, all of which have to run at the same time. */
static void draw_meeting(void) {
    failing = GERFMUOD_GRAPH_NONE;
    meeting = threads = 2 + below(MOST_THREADS - 1);
    tasks = meeting + 1;
    memset(classes, 0, sizeof classes);
    for (uint32_t t = 0; t < tasks; t++) offsets[t + 1] = t, inputs[t] = 0;
}

/* Waits until all tasks of the meeting have begun, for 10 seconds at most. */
static void meet(void) {
    double from = seconds_now();
    __atomic_fetch_add(&arrived, 1, __ATOMIC_RELAXED);
    while (__atomic_load_n(&arrived, __ATOMIC_RELAXED) < meeting && seconds_now() - from < 10) sched_yield();
    if (seconds_now() - from >= 10) apart++;
}

/* Makes the next tasks of the graph, at least one if there is one. */
static void make_tasks(uint32_t maker) {
    pthread_mutex_lock(&making);
    for (uint32_t left = 1 + maker % 3; left > 0 && made < tasks; left--) {
        uint32_t t = made, number = GERFMUOD_GRAPH_NONE, count = offsets[t + 1] - offsets[t], outside = (uint8_t)awaited[t];
        uint32_t refused = gerfmuod_team_spawn(team, classes[t], inputs + offsets[t], count, outside, NULL, NULL, &number);
        if (refused == GERFMUOD_REFUSED_STOPPED) break;
        if (refused || number != t) unmade++;
        __atomic_store_n(&made, t + 1, __ATOMIC_RELEASE);
    }
    pthread_mutex_unlock(&making);
}

static int body(void *context, uint32_t task) {
    (void)context;
    if (task == failing) return 1;
    if (described < tasks) make_tasks(task);
    if (meeting && task) meet();
    if (has_ended[task]) twice++;
    if (has_come[task] != awaited[task]) unawaited++;
    for (uint32_t k = offsets[task]; k < offsets[task + 1]; k++)
        if (!has_ended[inputs[k]]) too_early++;
    if (task % 7 == 0) sched_yield();
    has_ended[task] = 1;
    return 0;
}

/* Releases the inputs from outside; those of tasks that are not made yet in a later round. */
static void *release_all(void *argument) {
    for (uint32_t left = release_count; left > 0; sched_yield()) {
        for (uint32_t i = 0; i < release_count; i++) {
            uint32_t t = releases[i];
            bool has_ended_early = __atomic_load_n(&has_run, __ATOMIC_RELAXED); /* a body failed */
            if (t == GERFMUOD_GRAPH_NONE || (t >= __atomic_load_n(&made, __ATOMIC_ACQUIRE) && !has_ended_early)) continue;
            releases[i] = GERFMUOD_GRAPH_NONE, left--;
            has_come[t]++;
            if (gerfmuod_team_release(team, t) && failing == GERFMUOD_GRAPH_NONE) unreleased++;
            if (i % 7 == 0) sched_yield();
        }
    }
    return argument;
}

/* A turn, of every second task in two calls. */
static gerfmuod_graph_result turn(uint32_t ran) {
    if (ran % 2) return gerfmuod_team_turn(team, ran);
    gerfmuod_graph_result answer = gerfmuod_team_try_turn(team, ran);
    return answer.next == GERFMUOD_GRAPH_SLEEP ? gerfmuod_team_await_turn(team) : answer;
}

static void *turns(void *argument) {
    for (uint32_t ran = GERFMUOD_GRAPH_NONE;;) {
        gerfmuod_graph_result answer = turn(ran);
        if (answer.next != GERFMUOD_GRAPH_RUN) return argument;
        ran = answer.number;
        if (is_early) { /* reports the task before it runs it */
            answer = turn(ran);
            if (body(NULL, ran) || answer.next != GERFMUOD_GRAPH_RUN) return argument;
            ran = answer.number;
        }
        if (body(NULL, ran)) {
            gerfmuod_team_stop(team, ran);
            return argument;
        }
    }
}

static uint32_t run_own_threads(bool is_started_first) {
    pthread_t ids[MOST_THREADS];
    if (is_started_first) must("start", gerfmuod_team_start(team, threads));
    for (uint32_t w = 0; w < threads; w++) check("pthread_create", pthread_create(&ids[w], NULL, turns, NULL) == 0);
    if (!is_started_first) {
        sleep_for(1000000); /* lets turns begin */
        must("start", gerfmuod_team_start(team, threads));
    }
    for (uint32_t w = 0; w < threads; w++) pthread_join(ids[w], NULL);
    return gerfmuod_team_turn(team, GERFMUOD_GRAPH_NONE).refused;
}

static bool is_complete(void) {
    for (uint32_t t = 0; t < tasks; t++)
        if (!has_ended[t]) return false;
    return true;
}

/* Opens a file of this run in the folder. */
static FILE *new_file(const char *ending) {
    char path[4096];
    snprintf(path, sizeof path, "%s/%u.%s", folder, written, ending);
    FILE *file = fopen(path, "w");
    check(path, file);
    return file;
}

/* Writes what was recorded of a run. */
static void write_run(const char *trace) {
    if (!folder) return;
    FILE *events = new_file("json"), *steps = new_file("trace");
    must("profile", gerfmuod_team_profile(team, events));
    fputs(trace, steps);
    check(folder, !fclose(events) && !fclose(steps));
    written++;
}

/* Returns whether the audit finds the trace sound; true if the library has no audit. */
static bool is_sound(void) {
    size_t length = gerfmuod_team_trace(team, NULL, 0);
    char *text = malloc(length + 1), verdict[256];
    if (!text || gerfmuod_team_trace(team, text, length + 1) != length) return false;
    gerfmuod_written judged = {GERFMUOD_WRITTEN, 0};
    if (gerfmuod_audit) judged = gerfmuod_audit(text, length, verdict, sizeof verdict);
    if (judged.outcome != GERFMUOD_WRITTEN) printf("%.*s\n", (int)judged.length, verdict);
    write_run(text);
    free(text);
    return judged.outcome == GERFMUOD_WRITTEN;
}

/* Counts violations of the present run, if there are some. */
static void judge(violations *of, int count, uint32_t refused) {
    count_violations(of, (uint64_t)count, "in round %u, seed %s: %u tasks, %u threads, refused %u", present, given_seed, tasks, threads,
                     refused);
}

/* Judges a run that has ended. Returns whether nothing was violated. */
static bool judge_run(uint32_t refused) {
    bool is_whole = failing == GERFMUOD_GRAPH_NONE, is_refused = is_whole && refused, is_partial = is_whole && !is_complete();
    bool is_stopped = is_whole || (refused == GERFMUOD_REFUSED_STOPPED && gerfmuod_team_failed(team) == failing && !has_ended[failing]);
    bool is_well = !too_early && !unawaited && !twice && !apart && !unmade && !unreleased;
    bool has_trace = !is_well || is_sound();
    judge(&order, too_early, refused);
    judge(&awaiting, unawaited, refused);
    judge(&once, twice + is_partial, refused);
    judge(&together, apart, refused);
    judge(&making_tasks, unmade, refused);
    judge(&releasing, unreleased, refused);
    judge(&ends, is_refused, refused);
    judge(&stops, !is_stopped, refused);
    judge(&traces, !has_trace, refused);
    return is_well && !is_refused && !is_partial && is_stopped && has_trace;
}

/* Runs the graph. Odd runs are on threads of this program; in every second one of them, turns begin before the start. */
static bool run_is_well(uint32_t run) {
    pthread_t releaser;
    for (uint32_t i = 0; i < release_count; i++)
        if (releases[i] < described) must("outside", gerfmuod_team_outside(team, releases[i]));
    has_run = false;
    check("pthread_create", pthread_create(&releaser, NULL, release_all, NULL) == 0);
    uint32_t refused = run % 2 || is_early ? run_own_threads(run % 4 == 1) : gerfmuod_team_run(team, threads, body, NULL);
    __atomic_store_n(&has_run, true, __ATOMIC_RELAXED);
    pthread_join(releaser, NULL);
    return judge_run(refused);
}

/* A graph to which tasks were added in its run does not run again; others do, up to two times. */
static bool runs_again_well(void) {
    uint32_t again = below(3);
    bool is_well = true;
    if (failing != GERFMUOD_GRAPH_NONE) return true;
    if (described < tasks) {
        uint32_t refused = gerfmuod_team_again(team);
        judge(&again_after_growth, refused != GERFMUOD_REFUSED_WRONG_LIFE, refused);
        return refused == GERFMUOD_REFUSED_WRONG_LIFE;
    }
    for (; again > 0 && is_well; again--) {
        must("again", gerfmuod_team_again(team));
        clear_run();
        if (!meeting) draw_releases(false);
        threads = meeting ? meeting : 1 + below(MOST_THREADS);
        is_well = run_is_well(below(4)), repeated += is_well;
    }
    return is_well;
}

static bool round_is_well(void) {
    meeting = 0;
    limit_time();
    clear_run();
    if (present % 10 == 0 && !is_early) draw_meeting();
    else draw_graph();
    must("open", gerfmuod_team_open_traced(&team));
    if (folder) must("record", gerfmuod_team_record(team, 2 * MOST));
    described = made = present % 3 == 2 && tasks && !meeting && !is_early ? 1 + below(tasks) : tasks;
    must("describe", gerfmuod_team_describe(team, described, classes, offsets, inputs, NULL));
    bool is_well = run_is_well(present);
    grown += described < tasks;
    is_well = is_well && runs_again_well();
    gerfmuod_team_close(team);
    return is_well;
}

static void make_runs(void) {
    while (present < rounds && round_is_well()) present++;
}

CASE(each_task_runs_after_its_inputs) { check_none(&order); }
CASE(each_task_runs_after_its_inputs_from_outside) { check_none(&awaiting); }
CASE(each_task_runs_once) { check_none(&once); }
CASE(ready_tasks_run_at_the_same_time) { check_none(&together); }
CASE(bodies_add_tasks_with_the_next_numbers) { check_none(&making_tasks); }
CASE(no_release_is_refused) { check_none(&releasing); }
CASE(no_other_call_is_refused) { check_none(&calls); }
CASE(a_run_ends_without_a_refusal) { check_none(&ends); }
CASE(a_body_that_fails_stops_its_run) { check_none(&stops); }
CASE(a_graph_that_grew_does_not_run_again) { check_none(&again_after_growth); }
CASE(each_trace_is_sound) { check_none(&traces); }

int main(int argc, char **argv) {
    const struct CMUnitTest cases[] = {
        cmocka_unit_test(each_task_runs_after_its_inputs),
        cmocka_unit_test(each_task_runs_after_its_inputs_from_outside),
        cmocka_unit_test(each_task_runs_once),
        cmocka_unit_test(ready_tasks_run_at_the_same_time),
        cmocka_unit_test(bodies_add_tasks_with_the_next_numbers),
        cmocka_unit_test(no_release_is_refused),
        cmocka_unit_test(no_other_call_is_refused),
        cmocka_unit_test(a_run_ends_without_a_refusal),
        cmocka_unit_test(a_body_that_fails_stops_its_run),
        cmocka_unit_test(a_graph_that_grew_does_not_run_again),
        cmocka_unit_test(each_trace_is_sound),
    };
    rounds = argc > 1 ? (uint32_t)atoi(argv[1]) : 100;
    if (argc > 2) given_seed = argv[2], seed = (uint64_t)atoll(given_seed) * 2 + 1;
    is_early = argc > 3 && !strcmp(argv[3], "early");
    folder = argc > 3 && !is_early ? argv[3] : NULL;
    int failed = RUN(cases);
    if (failed) return failed;
    printf("%u rounds, %u repeated, %u graphs grew, each task once and after all that it waits for%s\n", rounds, repeated, grown,
           gerfmuod_audit ? ", each trace sound" : "");
    return 0;
}
