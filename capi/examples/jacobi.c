/* jacobi.c: Jacobi's method on a square of doubles, in blocks. A task is a block at a step. It waits for the same block and
 * its four neighbours at the step before. Each result is compared with that of the plain loop, bit by bit.
 *
 *   jacobi SIDE BLOCK STEPS ROUNDS WAY..     SIDE is a multiple of BLOCK; a WAY is
 *     T       a team of T threads
 *     T:K     the same with a graph of K steps, which is described once and runs STEPS / K times
 *     loop    the plain loop
 *     omp:T   OpenMP's `parallel for`, with a barrier after each step   (built with -fopenmp)
 *     dep:T   OpenMP's tasks with `depend`
 */
#define _POSIX_C_SOURCE 200809L
#include <gerfmuod/team.h>
#include "timing.h"
#include <string.h>

static int side, block, steps, blocks;
static int first_step; /* of the run of a team */
static double *grid[2]; /* side + 2 rows of side + 2: the border is fixed */

static void fill(void) {
    for (int g = 0; g < 2; g++)
        for (int i = 0; i < side + 2; i++)
            for (int j = 0; j < side + 2; j++) grid[g][(size_t)i * (size_t)(side + 2) + (size_t)j] = j == 0;
}

static void update(int step, int bi, int bj) {
    const double *from = grid[step & 1];
    double *to = grid[(step + 1) & 1];
    size_t w = (size_t)side + 2;
    for (size_t i = (size_t)(bi * block) + 1; i < (size_t)((bi + 1) * block) + 1; i++)
        for (size_t j = (size_t)(bj * block) + 1; j < (size_t)((bj + 1) * block) + 1; j++)
            to[i * w + j] = 0.25 * (from[(i - 1) * w + j] + from[(i + 1) * w + j] + from[i * w + j - 1] + from[i * w + j + 1]);
}

static void by_loop(void) {
    for (int s = 0; s < steps; s++)
        for (int b = 0; b < blocks * blocks; b++) update(s, b / blocks, b % blocks);
}

static int body(void *context, uint32_t task) {
    int b = (int)task;
    (void)context;
    update(first_step + b / (blocks * blocks), b / blocks % blocks, b % blocks);
    return 0;
}

static void by_team(uint32_t threads, int steps_of_graph) {
    gerfmuod_team *team;
    need(steps_of_graph <= 0 || steps % steps_of_graph, "K does not divide STEPS");
    need(gerfmuod_team_open(&team), "open");
    for (int s = 0; s < steps_of_graph; s++)
        for (int i = 0; i < blocks; i++)
            for (int j = 0; j < blocks; j++) {
                uint32_t inputs[5], count = 0, before = (uint32_t)(((s - 1) * blocks + i) * blocks + j);
                if (s) inputs[count++] = before;
                if (s && i) inputs[count++] = before - (uint32_t)blocks;
                if (s && i < blocks - 1) inputs[count++] = before + (uint32_t)blocks;
                if (s && j) inputs[count++] = before - 1;
                if (s && j < blocks - 1) inputs[count++] = before + 1;
                need(gerfmuod_team_task(team, 0, inputs, count, NULL), "task");
            }
    for (first_step = 0; first_step < steps; first_step += steps_of_graph) {
        if (first_step) need(gerfmuod_team_again(team), "again");
        need(gerfmuod_team_run(team, threads, body, NULL), "run");
    }
    gerfmuod_team_close(team);
}

#ifdef _OPENMP
static void by_for(int threads) {
    for (int s = 0; s < steps; s++)
#pragma omp parallel for num_threads(threads) schedule(static)
        for (int b = 0; b < blocks * blocks; b++) update(s, b / blocks, b % blocks);
}

static void by_depend(int threads) {
    char *mark = calloc(2 * (size_t)(blocks * blocks) + 1, 1), *none = mark + 2 * blocks * blocks;
#pragma omp parallel num_threads(threads)
#pragma omp single
    for (int s = 0; s < steps; s++) {
        char *from = mark + (s & 1) * blocks * blocks, *to = mark + ((s + 1) & 1) * blocks * blocks;
        for (int i = 0; i < blocks; i++)
            for (int j = 0; j < blocks; j++) {
                char *out = &to[i * blocks + j], *in = &from[i * blocks + j];
                char *up = i ? in - blocks : none, *down = i < blocks - 1 ? in + blocks : none;
                char *left = j ? in - 1 : none, *right = j < blocks - 1 ? in + 1 : none;
                (void)up, (void)down, (void)left, (void)right, (void)out;
#pragma omp task depend(out : out[0]) depend(in : in[0], up[0], down[0], left[0], right[0])
                update(s, i, j);
            }
    }
    free(mark);
}
#endif

static void go(const char *way) {
    unsigned threads;
    int count = steps, found = sscanf(way, "%u:%d", &threads, &count);
    if (!strcmp(way, "loop")) by_loop();
    else if (found > 0) by_team(threads, count);
#ifdef _OPENMP
    else if (!strncmp(way, "omp:", 4)) by_for(atoi(way + 4));
    else if (!strncmp(way, "dep:", 4)) by_depend(atoi(way + 4));
#endif
    else need(1, way);
}

static double *wanted;
static size_t bytes; /* of a grid */
static int is_as_wanted(void) { return !memcmp(wanted, grid[steps & 1], bytes); }

int main(int argc, char **argv) {
    if (argc < 6) return 1;
    side = atoi(argv[1]), block = atoi(argv[2]), steps = atoi(argv[3]), blocks = side / block;
    bytes = (size_t)(side + 2) * (size_t)(side + 2) * sizeof(double);
    size_t units = (size_t)(steps * blocks * blocks);
    wanted = malloc(bytes), grid[0] = malloc(bytes), grid[1] = malloc(bytes);
    if (!wanted || !grid[0] || !grid[1] || blocks * block != side) return 1;
    fill();
    by_loop();
    memcpy(wanted, grid[steps & 1], bytes);
    measure((struct measured){fill, go, is_as_wanted, &units}, argv[4], argv + 5, argc - 5);
    free(wanted), free(grid[0]), free(grid[1]);
    return 0;
}
