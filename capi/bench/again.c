/* again.c: the overhead of a small graph that runs many times.
 *
 *   again SHAPE TASKS RUNS ROUNDS WAY..     shapes.h describes the SHAPEs; each round makes RUNS runs; a WAY is
 *     again:T   one team for all, which is described once and runs again on T threads
 *     clear:T   one team for all, which is cleared and described before each run
 *     new:T     a new team for each run, which starts its threads
 *     omp:T     OpenMP's tasks with `depend`     (built with -fopenmp)
 *
 * Bodies are empty but for their checks. A line of the output has the number of runs instead of that of tasks.
 */
#define _POSIX_C_SOURCE 200809L
#include "../examples/timing.h"
#include "depend.h"
#include <gerfmuod/team.h>

static size_t runs, wrong;              /* how many a round has; in how many not each body ran */
static gerfmuod_team *kept, *cleared; /* the teams of the first two ways */

static int body(void *context, uint32_t task) {
    (void)context;
    run_shape_task(task);
    return 0;
}

static void describe(gerfmuod_team *team) {
    need(gerfmuod_team_describe(team, task_count, NULL, offsets, inputs, NULL), "describe");
}

static void run_in(const char *way, uint32_t threads) {
    gerfmuod_team *team;
    if (!strncmp(way, "again:", 6)) {
        need(gerfmuod_team_run(kept, threads, body, NULL), "run");
        need(gerfmuod_team_again(kept), "again");
    } else if (!strncmp(way, "clear:", 6)) {
        need(gerfmuod_team_clear(cleared), "clear");
        describe(cleared);
        need(gerfmuod_team_run(cleared, threads, body, NULL), "run");
    } else if (!strncmp(way, "new:", 4)) {
        need(gerfmuod_team_open(&team), "open");
        describe(team);
        need(gerfmuod_team_run(team, threads, body, NULL), "run");
        gerfmuod_team_close(team);
#ifdef _OPENMP
    } else if (!strncmp(way, "omp:", 4)) {
        by_openmp((int)threads);
#endif
    } else {
        need(1, way);
    }
}

static void clear(void) { wrong = 0; }

static void go(const char *way) {
    uint32_t threads = (uint32_t)atoi(way + strcspn(way, ":") + 1);
    for (size_t run = 0; run < runs; run++) {
        clear_shape();
        run_in(way, threads);
        wrong += memchr(has_ended, 0, task_count) != NULL;
    }
}

static int is_right(void) { return wrong == 0; }

int main(int argc, char **argv) {
    if (argc < 6) return 1;
    task_count = (uint32_t)atol(argv[2]), runs = (size_t)atol(argv[3]);
    if (!draw_shape(argv[1])) return 1;
    need(gerfmuod_team_open(&kept), "open");
    need(gerfmuod_team_open(&cleared), "open");
    describe(kept);
    measure((struct measured){clear, go, is_right, &runs}, argv[4], argv + 5, argc - 5);
    gerfmuod_team_close(kept), gerfmuod_team_close(cleared);
    free(offsets), free(inputs), free(has_ended);
    return 0;
}
