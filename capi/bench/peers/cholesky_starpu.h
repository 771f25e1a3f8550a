/* cholesky_starpu.h: the tasks of cholesky.c on StarPU, which derives dependencies from the tiles that a task uses. */
#ifndef CHOLESKY_STARPU_H
#define CHOLESKY_STARPU_H
#include <starpu.h>

static starpu_data_handle_t *handles; /* of each tile */

static double *pointer(void *buffer) { return (double *)STARPU_MATRIX_GET_PTR(buffer); }

static void starpu_factor(void *buffers[], void *argument) {
    (void)argument;
    need(factor(tile, pointer(buffers[0])) != 0, "factor");
}
static void starpu_solve(void *buffers[], void *argument) {
    (void)argument;
    solve(tile, pointer(buffers[0]), pointer(buffers[1]));
}
static void starpu_square(void *buffers[], void *argument) {
    (void)argument;
    subtract_square(tile, pointer(buffers[0]), pointer(buffers[1]));
}
static void starpu_product(void *buffers[], void *argument) {
    (void)argument;
    subtract_product(tile, pointer(buffers[0]), pointer(buffers[1]), pointer(buffers[2]));
}

static struct starpu_codelet factor_codelet = {.cpu_funcs = {starpu_factor}, .nbuffers = 1, .modes = {STARPU_RW}};
static struct starpu_codelet solve_codelet = {.cpu_funcs = {starpu_solve}, .nbuffers = 2, .modes = {STARPU_R, STARPU_RW}};
static struct starpu_codelet square_codelet = {.cpu_funcs = {starpu_square}, .nbuffers = 2, .modes = {STARPU_R, STARPU_RW}};
static struct starpu_codelet product_codelet = {
    .cpu_funcs = {starpu_product}, .nbuffers = 3, .modes = {STARPU_R, STARPU_R, STARPU_RW}};

static starpu_data_handle_t handle(int i, int j) { return handles[i * tiles + j]; }

static void register_tiles(void) {
    unsigned side = (unsigned)tile;
    handles = malloc((size_t)(tiles * tiles) * sizeof *handles);
    need(!handles, "malloc");
    for (int k = 0; k < tiles * tiles; k++)
        starpu_matrix_data_register(&handles[k], STARPU_MAIN_RAM, (uintptr_t)at(k / tiles, k % tiles), side, side, side, sizeof(double));
}

static void unregister_tiles(void) {
    for (int k = 0; k < tiles * tiles; k++) starpu_data_unregister(handles[k]);
    free(handles);
}

static void by_starpu(void) {
    for (int k = 0; k < tiles; k++) {
        starpu_task_insert(&factor_codelet, STARPU_RW, handle(k, k), STARPU_PRIORITY, STARPU_MAX_PRIO, 0);
        for (int i = k + 1; i < tiles; i++)
            starpu_task_insert(&solve_codelet, STARPU_R, handle(k, k), STARPU_RW, handle(i, k), STARPU_PRIORITY, 3, 0);
        for (int i = k + 1; i < tiles; i++) {
            starpu_task_insert(&square_codelet, STARPU_R, handle(i, k), STARPU_RW, handle(i, i), STARPU_PRIORITY, 2, 0);
            for (int j = k + 1; j < i; j++)
                starpu_task_insert(&product_codelet, STARPU_R, handle(i, k), STARPU_R, handle(j, k), STARPU_RW, handle(i, j), 0);
        }
    }
    starpu_task_wait_for_all();
}
#endif
