/* tree.c: a binary tree of small tasks that running tasks make: each one makes two, down to a depth, and waits for none.
 *
 *   tree DEPTH ITERATIONS ROUNDS WAY..     a WAY is T (a team of T threads), wT (T workers), loop, or omp:T (OpenMP's tasks; built with
 *                                          -fopenmp)
 *
 * Bodies have a number of iterations, and each marks its node: all 2^(DEPTH + 1) - 1 of them have to be marked, once.
 */
#define _POSIX_C_SOURCE 200809L
#include "../examples/timing.h"
#include "shapes.h"
#include <gerfmuod/team.h>
#include <gerfmuod/workers.h>

enum { MOST_WORKERS = 64 };
static gerfmuod_workers *workers[MOST_WORKERS + 1]; /* by their number; they stay */
static gerfmuod_team *team; /* one, which stays */
static uint32_t *nodes;     /* of each task */

/* The task is new: no thread can run it yet. */
static void attach(void *node, uint32_t task) { nodes[task] = *(const uint32_t *)node; }

static int body(void *context, uint32_t task) {
    uint32_t node = nodes[task];
    (void)context;
    run_shape_task(node);
    for (uint32_t child = 2 * node + 1; child <= 2 * node + 2 && child < task_count; child++)
        need(gerfmuod_team_spawn(team, 0, NULL, 0, 0, attach, &child, NULL), "spawn");
    return 0;
}

static void by_team(uint32_t threads) {
    uint32_t root = 0;
    need(gerfmuod_team_clear(team), "clear");
    need(gerfmuod_team_spawn(team, 0, NULL, 0, 0, attach, &root, NULL), "the root");
    need(gerfmuod_team_run(team, threads, body, NULL), "run");
}

static int work(gerfmuod_worker *worker, void *argument) {
    uint32_t node = (uint32_t)(uintptr_t)argument;
    run_shape_task(node);
    for (uint32_t child = 2 * node + 1; child <= 2 * node + 2 && child < task_count; child++)
        need(gerfmuod_worker_spawn(worker, work, (void *)(uintptr_t)child), "spawn");
    return 0;
}

static void by_workers(uint32_t threads) {
    need(threads > MOST_WORKERS, "the number of workers");
    if (!workers[threads]) need(gerfmuod_workers_open(&workers[threads], threads), "open");
    need(gerfmuod_workers_spawn(workers[threads], work, NULL), "the root");
    need(gerfmuod_workers_run(workers[threads]), "run");
}

#ifdef _OPENMP
static void visit(uint32_t node) {
    run_shape_task(node);
    for (uint32_t child = 2 * node + 1; child <= 2 * node + 2 && child < task_count; child++) {
#pragma omp task firstprivate(child)
        visit(child);
    }
}

static void by_openmp(int threads) {
#pragma omp parallel num_threads(threads)
#pragma omp single
    visit(0);
}
#endif

static void go(const char *way) {
    if (atoi(way) > 0) by_team((uint32_t)atoi(way));
    else if (*way == 'w') by_workers((uint32_t)atoi(way + 1));
    else if (!strcmp(way, "loop"))
        for (uint32_t node = 0; node < task_count; node++) run_shape_task(node);
#ifdef _OPENMP
    else if (!strncmp(way, "omp:", 4)) by_openmp(atoi(way + 4));
#endif
    else need(1, way);
}

static int all_ran(void) { return !memchr(has_ended, 0, task_count); }

int main(int argc, char **argv) {
    if (argc < 5 || atoi(argv[1]) < 0 || atoi(argv[1]) > 24) return 1;
    task_count = (2u << atoi(argv[1])) - 1, iterations = atol(argv[2]);
    size_t units = task_count;
    nodes = malloc(task_count * sizeof *nodes);
    if (!nodes || !draw_shape("wide")) return 1;
    need(gerfmuod_team_open(&team), "open");
    measure((struct measured){clear_shape, go, all_ran, &units}, argv[3], argv + 4, argc - 4);
    gerfmuod_team_close(team);
    for (uint32_t threads = 0; threads <= MOST_WORKERS; threads++) gerfmuod_workers_close(workers[threads]);
    free(nodes), free(offsets), free(inputs), free(has_ended);
    return 0;
}
