/* growth.c: a graph that grows to millions of tasks while it runs. It begins with one task. Each body makes two tasks, of
 * which the second waits for the first, until there are enough.
 *
 *   growth TASKS MEGABYTES THREADS..     megabytes of 1,000,000 bytes, for the whole program; 0 is no limit */
#define _POSIX_C_SOURCE 200809L
#include "../../examples/timing.h"
#include "check.h"
#include <sys/resource.h>

static gerfmuod_team *team;
static char **numbers_of_threads; /* up to a NULL */
static double most_megabytes;
static uint32_t tasks, made, repeated;
static uint8_t *has_run; /* of each task */

/* Counts one more task, if there may be one. */
static int may_make(void) {
    uint32_t number = __atomic_load_n(&made, __ATOMIC_RELAXED);
    while (number < tasks)
        if (__atomic_compare_exchange_n(&made, &number, number + 1, 0, __ATOMIC_RELAXED, __ATOMIC_RELAXED)) return 1;
    return 0;
}

static int body(void *context, uint32_t task) {
    uint32_t first;
    (void)context;
    if (__atomic_exchange_n(&has_run[task], 1, __ATOMIC_RELAXED)) __atomic_fetch_add(&repeated, 1, __ATOMIC_RELAXED);
    if (!may_make()) return 0;
    if (gerfmuod_team_task(team, 0, NULL, 0, &first)) return 1;
    if (!may_make()) return 0;
    return gerfmuod_team_task(team, 0, &first, 1, NULL) != 0;
}

/* The most memory that this process had at any time, in megabytes. */
static double megabytes(void) {
    struct rusage usage;
    if (getrusage(RUSAGE_SELF, &usage)) return 1e9;
    return (double)usage.ru_maxrss * 1024 / 1e6;
}

/* Runs a graph to its end. Returns how many of its tasks ran. */
static uint32_t run(uint32_t threads) {
    uint32_t ran = 0;
    has_run = calloc(tasks, 1);
    assert_non_null(has_run);
    made = 1, repeated = 0;
    team = new_team();
    check_ok("the first task", gerfmuod_team_task(team, 0, NULL, 0, NULL));
    double from = seconds_now();
    check_ok("run", gerfmuod_team_run(team, threads, body, NULL));
    double seconds = seconds_now() - from;
    gerfmuod_team_close(team);
    for (uint32_t t = 0; t < tasks; t++) ran += has_run[t];
    free(has_run);
    fprintf(stderr, "%u threads: %.0f ns a task, %.0f MB\n", threads, seconds / tasks * 1e9, megabytes());
    return ran;
}

CASE(each_task_of_a_graph_that_grows_runs_once) {
    for (char **number = numbers_of_threads; *number; number++) {
        uint32_t ran = run((uint32_t)atoi(*number));
        check_that(ran == tasks && !repeated, "%s threads: %u of %u tasks ran, and %u bodies again", *number, ran, tasks, repeated);
    }
}

CASE(a_graph_that_grows_stays_within_its_memory) {
    check_that(megabytes() <= most_megabytes, "%.0f MB, not %.0f MB at most", megabytes(), most_megabytes);
}

int main(int argc, char **argv) {
    const struct CMUnitTest runs[] = {cmocka_unit_test(each_task_of_a_graph_that_grows_runs_once)};
    const struct CMUnitTest limits[] = {cmocka_unit_test(a_graph_that_grows_stays_within_its_memory)};
    if (argc < 4) return 1;
    tasks = (uint32_t)atol(argv[1]);
    most_megabytes = atof(argv[2]);
    numbers_of_threads = argv + 3;
    if (!tasks) return 1;
    return RUN(runs) + (most_megabytes > 0 ? RUN(limits) : 0);
}
