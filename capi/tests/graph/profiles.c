/* profiles.c: what a team records of a run: its refusals, rings that are full, streams that fail, threads and teams of several
 * kinds, and a clock that goes back.
 *
 * Compile with -DGERFMUOD_PROFILE_TICKS=test_ticks, together with gerfmuod_team.c, which then reads the clock below. */
#define _POSIX_C_SOURCE 200809L
#include "check.h"
#include <inttypes.h>
#include <pthread.h>

enum { TASKS = 100, MANY = 1000 };

/* ---- a clock that goes on by a microsecond at each reading, and back by ten at each of a number of readings */
static uint64_t readings, back_every;
uint64_t test_ticks(void);
uint64_t test_ticks(void) {
    uint64_t reading = __atomic_add_fetch(&readings, 1, __ATOMIC_RELAXED);
    bool goes_back = back_every && reading % back_every == 0;
    return (1000000 + reading - (goes_back ? 10 : 0)) * 1000;
}

/* ---- texts */
static char *text_of(gerfmuod_team *team, uint32_t (*write)(gerfmuod_team *, FILE *)) {
    char *text = NULL;
    size_t length;
    FILE *file = open_memstream(&text, &length);
    if (!file) exit(3);
    check_ok("writing", write(team, file));
    fclose(file);
    return text;
}

static int count_of(const char *text, const char *part) {
    int count = 0;
    for (const char *at = text; (at = strstr(at, part)); at++) count++;
    return count;
}

/* Returns the number that follows a key, which is in the text. */
static uint64_t number_after(const char *text, const char *key) {
    const char *at = strstr(text, key);
    check(key, at);
    return at ? strtoull(at + strlen(key), NULL, 10) : UINT64_MAX;
}

static gerfmuod_team *team_with(uint32_t slices, uint32_t tasks) {
    gerfmuod_team *team = new_team();
    check_ok("record", gerfmuod_team_record(team, slices));
    for (uint32_t t = 0; t < tasks; t++) {
        uint32_t before = t - 1;
        check_ok("task", gerfmuod_team_task(team, t % 4, &before, t > 0, NULL));
    }
    return team;
}

/* ---- bodies */
static gerfmuod_team *own;
static uint32_t inside; /* what gerfmuod_team_profile returned inside of a body */

static int profile_inside(void *context, uint32_t task) {
    (void)context, (void)task;
    inside = gerfmuod_team_profile(own, stdout);
    return 0;
}
static int fail_at(void *context, uint32_t task) { return task == *(uint32_t *)context; }
/* Runs another team inside of a body. */
static int run_other(void *context, uint32_t task) {
    (void)task;
    check_ok("run inside of a body", gerfmuod_team_run(context, 1, nothing, NULL));
    return 0;
}

/* ---- the checks */
CASE(refusals) {
    gerfmuod_team *team = new_team();
    check_refusal("profile before a run", gerfmuod_team_profile(team, stdout), GERFMUOD_REFUSED_WRONG_LIFE);
    check_ok("task", gerfmuod_team_task(team, 0, NULL, 0, NULL));
    check_refusal("record after a task", gerfmuod_team_record(team, 9), GERFMUOD_REFUSED_WRONG_LIFE);
    check_ok("run", gerfmuod_team_run(team, 1, nothing, NULL));
    check_refusal("record after a run", gerfmuod_team_record(team, 9), GERFMUOD_REFUSED_WRONG_LIFE);
    check_refusal("profile of what was not recorded", gerfmuod_team_profile(team, stdout), GERFMUOD_REFUSED_WRONG_LIFE);
    gerfmuod_team_close(team);

    own = team_with(9, 3);
    check_refusal("summary before a run", gerfmuod_team_summary(own, stdout), GERFMUOD_REFUSED_WRONG_LIFE);
    check_ok("run", gerfmuod_team_run(own, 2, profile_inside, NULL));
    check_refusal("profile inside of a body", inside, GERFMUOD_REFUSED_RUNNING);
    free(text_of(own, gerfmuod_team_profile));
    check_ok("again", gerfmuod_team_again(own));
    check_refusal("profile before the second run", gerfmuod_team_profile(own, stdout), GERFMUOD_REFUSED_WRONG_LIFE);
    check_ok("start", gerfmuod_team_start(own, 1));
    check_refusal("profile before the end", gerfmuod_team_profile(own, stdout), GERFMUOD_REFUSED_RUNNING);
    gerfmuod_team_stop(own, GERFMUOD_GRAPH_NONE);
    free(text_of(own, gerfmuod_team_profile));
    check_refusal("record after a stop", gerfmuod_team_record(own, 9), GERFMUOD_REFUSED_STOPPED);
    gerfmuod_team_close(own);

    for (int is_started = 0; is_started < 2; is_started++) { /* a run that is not started, and one that a fault ends */
        own = team_with(9, 1);
        if (is_started) check_ok("start", gerfmuod_team_start(own, 1));
        check_refusal("a task that does not run", gerfmuod_team_turn(own, 0).refused, GERFMUOD_REFUSED_WRONG_LIFE);
        if (is_started) free(text_of(own, gerfmuod_team_profile));
        else check_refusal("profile without a run", gerfmuod_team_profile(own, stdout), GERFMUOD_REFUSED_WRONG_LIFE);
        gerfmuod_team_close(own);
    }

    team = team_with(9, 0);
    check_ok("no more recording", gerfmuod_team_record(team, 0));
    check_ok("run", gerfmuod_team_run(team, 1, nothing, NULL));
    check_refusal("profile of what was not recorded", gerfmuod_team_profile(team, stdout), GERFMUOD_REFUSED_WRONG_LIFE);
    gerfmuod_team_close(team);
}

CASE(streams_that_fail) {
    gerfmuod_team *team = team_with(MANY, MANY);
    check_ok("run", gerfmuod_team_run(team, 1, nothing, NULL));
    FILE *full = fopen("/dev/full", "w"), *reading = fopen("/dev/null", "r");
    if (full) check_refusal("a short text", gerfmuod_team_summary(team, full), GERFMUOD_REFUSED_NOT_WRITTEN), clearerr(full);
    if (full) check_refusal("a full disk", gerfmuod_team_profile(team, full), GERFMUOD_REFUSED_NOT_WRITTEN);
    if (reading) check_refusal("a stream to read", gerfmuod_team_summary(team, reading), GERFMUOD_REFUSED_NOT_WRITTEN);
    if (full) fclose(full);
    if (reading) fclose(reading);
    char *text = text_of(team, gerfmuod_team_profile);
    check("all is there later", count_of(text, "\"cat\":\"task\"") == MANY);
    free(text);
    gerfmuod_team_close(team);
}

/* A ring of `kept` slices that is full keeps the newest; the sums are those of all. */
static void check_full_ring(uint32_t kept) {
    gerfmuod_team *team = team_with(kept, TASKS);
    check_ok("run", gerfmuod_team_run(team, 1, nothing, NULL));
    char *text = text_of(team, gerfmuod_team_profile), *summary = text_of(team, gerfmuod_team_summary), oldest[32];
    const char *first = strstr(text, "\"name\":\"task ");
    uint64_t lost = TASKS - kept;
    snprintf(oldest, sizeof oldest, "\"name\":\"task %u\"", (unsigned)lost);
    check("slices that are kept", count_of(text, "\"ph\":\"X\"") == (int)kept);
    check("the oldest of them", first && !strncmp(first, oldest, strlen(oldest)));
    check("the number of those lost", number_after(text, "\"lost_slices\":") == lost);
    check("all tasks are counted", strstr(text, "{\"thread\":0,\"tasks\":100,") != NULL);
    check("no critical path if some are lost", !strstr(text, "critical_path") == !!lost);
    check("nor in the summary", !strstr(summary, "critical path") == !!lost);
    free(text), free(summary);
    gerfmuod_team_close(team);
}

CASE(clock_that_goes_back) {
    for (back_every = 2; back_every < 9; back_every++) {
        gerfmuod_team *team = team_with(MANY, TASKS);
        check_ok("run", gerfmuod_team_run(team, 2, nothing, NULL));
        char *text = text_of(team, gerfmuod_team_profile);
        check("the file says that the clock went back", number_after(text, "\"clock_went_back\":") > 0);
        check("no time is negative", !strstr(text, ":-"));
        check("each task", count_of(text, "\"cat\":\"task\"") == TASKS);
        free(text);
        gerfmuod_team_close(team);
    }
    back_every = 0;
    gerfmuod_team *team = team_with(MANY, TASKS);
    check_ok("run", gerfmuod_team_run(team, 1, nothing, NULL));
    char *text = text_of(team, gerfmuod_team_profile);
    check("a clock that goes on", number_after(text, "\"clock_went_back\":") == 0);
    check("a body takes one microsecond", count_of(text, "\"dur\":1.000") == TASKS);
    check("so do the bodies of the chain", number_after(text, "\"critical_path_us\":") == TASKS);
    free(text);
    gerfmuod_team_close(team);
}

static void *turns(void *argument) { return take_turns(argument) ? argument : NULL; }

/* More threads than were announced: those without a ring run tasks, too, and say nothing. */
CASE(threads_without_a_ring) {
    gerfmuod_team *team = team_with(MANY, MANY);
    pthread_t threads[3];
    check_ok("start", gerfmuod_team_start(team, 1));
    for (int i = 0; i < 3; i++)
        if (pthread_create(&threads[i], NULL, turns, team)) exit(3);
    for (int i = 0; i < 3; i++) pthread_join(threads[i], NULL);
    char *text = text_of(team, gerfmuod_team_profile);
    check("one thread", count_of(text, "thread_name") == 1);
    check("its tasks", (uint64_t)count_of(text, "\"cat\":\"task\"") == number_after(text, "{\"thread\":0,\"tasks\":"));
    free(text);
    gerfmuod_team_close(team);
}

/* A turn that waits reads the clock as it begins, as a turn first returns that it waits, and as it ends, however often it polls. */
CASE(readings_of_a_wait) {
    pthread_t waiting;
    gerfmuod_team *team = team_with(MANY, 0);
    uint64_t before = readings, of_start = 8;
    if (pthread_create(&waiting, NULL, turns, team)) exit(3);
    while (gerfmuod_team_again(team) != GERFMUOD_REFUSED_RUNNING) sleep_for(100000);
    sleep_for(10000000);
    check_ok("start", gerfmuod_team_start(team, 1));
    pthread_join(waiting, NULL);
    check("three readings", readings == before + of_start + 3);
    char *text = text_of(team, gerfmuod_team_profile);
    check("one wait", count_of(text, "\"cat\":\"wait\"") == 1);
    free(text);
    gerfmuod_team_close(team);
}

/* A body that runs another team, which records too; a body that fails; and a second run with other threads. */
CASE(several_teams) {
    gerfmuod_team *outer = team_with(MANY, 1), *inner = team_with(MANY, TASKS);
    check_ok("run", gerfmuod_team_run(outer, 1, run_other, inner));
    char *text = text_of(outer, gerfmuod_team_profile), *other = text_of(inner, gerfmuod_team_profile);
    check("the task of the outer team", count_of(text, "\"cat\":\"task\"") == 1);
    check("those of the inner team", count_of(other, "\"cat\":\"task\"") == TASKS);
    check("the outer one took longer", number_after(text, "\"dur\":") > number_after(other, "\"elapsed_us\":"));
    free(text), free(other);
    gerfmuod_team_close(outer);
    check_ok("again", gerfmuod_team_again(inner));
    check_ok("run", gerfmuod_team_run(inner, 3, nothing, NULL));
    other = text_of(inner, gerfmuod_team_profile);
    check("three threads", count_of(other, "thread_name") == 3);
    check("the tasks of the second run", count_of(other, "\"cat\":\"task\"") == TASKS);
    free(other);
    gerfmuod_team_close(inner);

    uint32_t failing = 7;
    gerfmuod_team *team = team_with(MANY, TASKS);
    check_refusal("run", gerfmuod_team_run(team, 1, fail_at, &failing), GERFMUOD_REFUSED_STOPPED);
    text = text_of(team, gerfmuod_team_profile);
    check("with the body that failed", count_of(text, "\"cat\":\"task\"") == 8 && strstr(text, "\"task 7\""));
    free(text);
    gerfmuod_team_close(team);
}

CASE(rings_that_are_full) {
    const uint32_t rings[] = {1, 2, 7, TASKS - 1, TASKS};
    for (size_t i = 0; i < sizeof rings / sizeof *rings; i++) check_full_ring(rings[i]);
}

int main(void) {
    const struct CMUnitTest cases[] = {
        cmocka_unit_test(refusals), cmocka_unit_test(streams_that_fail), cmocka_unit_test(rings_that_are_full),
        cmocka_unit_test(clock_that_goes_back), cmocka_unit_test(threads_without_a_ring),
        cmocka_unit_test(readings_of_a_wait), cmocka_unit_test(several_teams),
    };
    return RUN(cases);
}
