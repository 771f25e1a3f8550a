/* grain.c: the overhead of a task: graphs of small tasks with bodies of a chosen length.
 *
 *   grain [--profile FILE] SHAPE TASKS ITERATIONS ROUNDS WAY..     shapes.h describes the SHAPEs; a WAY is
 *     T       a team of T threads, which stays
 *     Tt      the same, and the team is traced
 *     PxT     P parts of T threads each, every part with columns that lie next to each other
 *     wT      T workers, which stay
 *     loop    the bodies in sequence
 *     omp:T   OpenMP's tasks with `depend`     (built with -fopenmp)
 *
 * With --profile teams record their runs, and FILE gets the trace events of the last one of the team with the most threads. Each body
 * checks that its inputs are done and that it runs for the first time. The times include describing the graph and running it, and
 * freeing that of the round before; teams and workers are opened, and their threads started, in the first round, which is not counted.
 */
#define _POSIX_C_SOURCE 200809L
#include "../examples/profiled.h"
#include "../examples/timing.h"
#include "depend.h"
#include <gerfmuod/parts.h>
#include <gerfmuod/workers.h>

static int body(void *context, uint32_t task) {
    (void)context;
    run_shape_task(task);
    return 0;
}

enum { MOST_THREADS = 64 };
static gerfmuod_team *teams[MOST_THREADS + 1][2]; /* by the number of threads, and whether it is traced */

static void by_team(uint32_t threads, int is_traced) {
    need(threads > MOST_THREADS, "the number of threads");
    gerfmuod_team **team = &teams[threads][is_traced];
    if (!*team) *team = open_team(is_traced);
    need(gerfmuod_team_clear(*team), "clear");
    need(gerfmuod_team_describe(*team, task_count, NULL, offsets, inputs, NULL), "describe");
    need(gerfmuod_team_run(*team, threads, body, NULL), "run");
}

static gerfmuod_workers *workers[MOST_THREADS + 1]; /* by their number */

static void by_workers(uint32_t threads) {
    need(threads > MOST_THREADS, "the number of workers");
    if (!workers[threads]) need(gerfmuod_workers_open(&workers[threads], threads), "open");
    need(gerfmuod_workers_run_graph(workers[threads], task_count, offsets, inputs, body, NULL, NULL), "run");
}

static void close_all(void) {
    for (uint32_t k = 0; k < 2 * (MOST_THREADS + 1); k++)
        if (teams[k / 2][k % 2]) close_team(teams[k / 2][k % 2]);
    for (uint32_t k = 0; k <= MOST_THREADS; k++) gerfmuod_workers_close(workers[k]);
}

static void in_parts(uint32_t count, uint32_t threads, uint32_t width) {
    gerfmuod_parts *parts;
    need(gerfmuod_parts_open(&parts, count), "open");
    for (uint32_t t = 0; t < task_count; t++)
        need(gerfmuod_parts_task(parts, t % width * count / width, 0, inputs + offsets[t], offsets[t + 1] - offsets[t], NULL), "task");
    need(gerfmuod_parts_run(parts, threads, body, NULL), "run");
    gerfmuod_parts_close(parts);
}

static uint32_t width; /* of the graph */

static void go(const char *way) {
    unsigned threads, parts;
    char end = 0;
    if (sscanf(way, "%ux%u", &parts, &threads) == 2) in_parts(parts, threads, width);
    else if (sscanf(way, "%u%c", &threads, &end) > 0) by_team(threads, end == 't');
    else if (sscanf(way, "w%u", &threads) == 1) by_workers(threads);
    else if (!strcmp(way, "loop"))
        for (uint32_t t = 0; t < task_count; t++) run_shape_task(t);
#ifdef _OPENMP
    else if (!strncmp(way, "omp:", 4)) by_openmp(atoi(way + 4));
#endif
    else need(1, way);
}

static int all_ran(void) { return !memchr(has_ended, 0, task_count); }

int main(int argc, char **argv) {
    take_profile_option(&argc, &argv);
    if (argc < 6) return 1;
    task_count = (uint32_t)atol(argv[2]), iterations = atol(argv[3]);
    if (!draw_shape(argv[1])) return 1;
    size_t units = task_count;
    width = shape_width(argv[1]);
    measure((struct measured){clear_shape, go, all_ran, &units}, argv[4], argv + 5, argc - 5);
    close_all(), write_profile();
    free(offsets), free(inputs), free(has_ended);
    return 0;
}
