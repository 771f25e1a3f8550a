/* tiles.c: Cholesky's factorization in tiles, as cholesky.cpp has it, in C: a sequential program whose steps are tasks, of which each
 * names the tiles that it accesses. The product of the factors is compared with the matrix. */
#define _POSIX_C_SOURCE 200809L
#include <gerfmuod/team.h>
#include "kernels.h"
#include "timing.h"

enum { COUNT = 8, SIZE = 32, LENGTH = COUNT * SIZE, STEPS = COUNT * (COUNT + 1) * (COUNT + 2) / 6, MOST = 3 };

static double tiles[COUNT * COUNT][SIZE * SIZE]; /* column by column, as is each tile */
static gerfmuod_team *team;

/* What the body of a task does: a kernel, and the tiles of its accesses in their order, whose numbers are those of their handles. */
typedef int kernel(double *a, double *b, double *c);
static struct { kernel *call; uint32_t tiles[MOST]; } steps[STEPS];

static int factor_tile(double *a, double *b, double *c) { return (void)b, (void)c, factor(SIZE, a); }
static int solve_tile(double *l, double *b, double *c) { return (void)c, solve(SIZE, l, b), 0; }
static int subtract(double *a, double *b, double *c) {
    if (a == b) subtract_square(SIZE, a, c);
    else subtract_product(SIZE, a, b, c);
    return 0;
}

/* Describes a task before the run: its body needs no number before. */
static void add(kernel *call, const gerfmuod_access *accesses, size_t count) {
    uint32_t task;
    need(gerfmuod_team_task_on(team, 0, accesses, count, 0, NULL, NULL, &task), "task");
    steps[task].call = call;
    for (size_t k = 0; k < count; k++) steps[task].tiles[k] = accesses[k].handle;
}

#define READ(i, j) {(i) + (j) * COUNT, GERFMUOD_READ}
#define UPDATE(i, j) {(i) + (j) * COUNT, GERFMUOD_UPDATE}
#define TASK(call, ...) add(call, (gerfmuod_access[]){__VA_ARGS__}, sizeof((gerfmuod_access[]){__VA_ARGS__}) / sizeof(gerfmuod_access))

static int body(void *context, uint32_t task) {
    const uint32_t *own = steps[task].tiles;
    (void)context;
    return steps[task].call(tiles[own[0]], tiles[own[1]], tiles[own[2]]);
}

static double entry(int i, int j) { return i == j ? LENGTH : 1.0 / (1 + abs(i - j)); }
static double *place(int i, int j) { return &tiles[i / SIZE + j / SIZE * COUNT][i % SIZE + j % SIZE * SIZE]; }

int main(void) {
    double distance = 0;
    uint32_t handle;
    for (int j = 0; j < LENGTH; j++)
        for (int i = j; i < LENGTH; i++) *place(i, j) = entry(i, j);
    need(gerfmuod_team_open(&team), "open");
    for (int t = 0; t < COUNT * COUNT; t++) need(gerfmuod_team_handle(team, &handle), "handle"); /* counted from 0 */
    for (int k = 0; k < COUNT; k++) {
        TASK(factor_tile, UPDATE(k, k));
        for (int i = k + 1; i < COUNT; i++) TASK(solve_tile, READ(k, k), UPDATE(i, k));
        for (int i = k + 1; i < COUNT; i++)
            for (int j = k + 1; j <= i; j++) TASK(subtract, READ(i, k), READ(j, k), UPDATE(i, j));
    }
    need(gerfmuod_team_run(team, 4, body, NULL), "run");
    gerfmuod_team_close(team);
    for (int j = 0; j < LENGTH; j++)
        for (int i = j; i < LENGTH; i++) {
            double sum = 0;
            for (int k = 0; k <= j; k++) sum += *place(i, k) * *place(j, k);
            distance = fmax(distance, fabs(sum - entry(i, j)));
        }
    printf("%d tasks, the product differs by %s\n", STEPS, distance < 1e-10 ? "less than 1e-10" : "too much");
    return distance < 1e-10 ? 0 : 1;
}
