/* shapes.h: graphs of small tasks for the programs of this folder and their peers, in C and C++: the inputs of each task, and a body
 * with a number of iterations that checks the order. */
#ifndef SHAPES_H
#define SHAPES_H
#include <stdint.h>
#include <stdio.h>
#include <stdlib.h>
#include <string.h>

enum { STENCIL_WIDTH = 16, MOST_INPUTS_OF_A_TASK = 3 };

static uint32_t *offsets, *inputs; /* task t waits for inputs[offsets[t]] to inputs[offsets[t + 1] - 1] */
static uint32_t task_count;
static long iterations;
static char *has_ended;

static inline uint32_t shape_width(const char *shape) {
    uint32_t width = 1;
    if (!strcmp(shape, "stencil")) return STENCIL_WIDTH;
    while ((width + 1) * (width + 1) <= task_count) width++;
    return width;
}

/* Draws the factorization of a matrix in tiles, of as many tiles as task_count allows, and sets task_count to the number of its tasks.
 * Each column has a task for its tile on the diagonal, one for each tile below it, and one for each tile to the right, down to the
 * diagonal. A task waits for the one that wrote its tile in the column before, and for those that wrote the tiles of this column that
 * it reads. Returns 0 without memory. */
static inline int draw_cholesky(void) {
    uint64_t tiles = 1;
    uint32_t t = 0, edges = 0;
    while ((tiles + 1) * (tiles + 2) * (tiles + 3) / 6 <= task_count) tiles++;
    task_count = (uint32_t)(tiles * (tiles + 1) * (tiles + 2) / 6);
    uint32_t *writer = (uint32_t *)malloc(tiles * tiles * sizeof *writer);
    for (uint64_t k = 0; writer && k < tiles; k++)
        for (uint64_t j = k; j < tiles; j++)
            for (uint64_t i = j; i < tiles; i++, t++) {
                offsets[t] = edges;
                if (k) inputs[edges++] = writer[i * tiles + j];
                if (i > k) inputs[edges++] = writer[j * tiles + k];
                if (i > j && j > k) inputs[edges++] = writer[i * tiles + k];
                writer[i * tiles + j] = t;
            }
    offsets[t] = edges;
    free(writer);
    return writer != NULL;
}

/* wide: no inputs. chain: the task before. wave: the left and the upper neighbour in a square. stencil: three neighbours in the
 * row before, of 16 tasks. three: up to three random tasks among the 100 before. anywhere: three random ones among all before.
 * cholesky: as above. Returns 0 if there is no such shape, or no memory. */
static inline int draw_shape(const char *shape) {
    enum { WIDE, CHAIN, WAVE, STENCIL, THREE, ANYWHERE, CHOLESKY, SHAPES };
    const char *const shapes[] = {"wide", "chain", "wave", "stencil", "three", "anywhere", "cholesky"};
    uint32_t n = task_count, width = shape_width(shape), edges = 0, kind = WIDE;
    uint64_t seed = 7;
    while (kind < SHAPES && strcmp(shape, shapes[kind])) kind++;
    offsets = (uint32_t *)malloc(((size_t)n + 1) * sizeof *offsets);
    inputs = (uint32_t *)malloc(((size_t)n * MOST_INPUTS_OF_A_TASK + 1) * sizeof *inputs);
    has_ended = (char *)malloc((size_t)n + 1);
    if (kind == SHAPES || !offsets || !inputs || !has_ended) return 0;
    for (uint32_t t = 0; t < n; t++) {
        uint32_t row = t / width, column = t % width;
        offsets[t] = edges;
        if (kind == CHAIN && t) inputs[edges++] = t - 1;
        if (kind == WAVE && column) inputs[edges++] = t - 1;
        if (kind == WAVE && row) inputs[edges++] = t - width;
        if (kind == STENCIL && row && column) inputs[edges++] = t - width - 1;
        if (kind == STENCIL && row) inputs[edges++] = t - width;
        if (kind == STENCIL && row && column < width - 1) inputs[edges++] = t - width + 1;
        for (int k = 0; (kind == THREE || kind == ANYWHERE) && k < MOST_INPUTS_OF_A_TASK; k++) {
            seed = seed * 6364136223846793005u + 1442695040888963407u;
            uint32_t back = 1 + (uint32_t)(seed >> 33) % (kind == ANYWHERE && t ? t : 100);
            if (back <= t) inputs[edges++] = t - back;
        }
    }
    offsets[n] = edges;
    return kind != CHOLESKY || draw_cholesky();
}

static inline void clear_shape(void) { memset(has_ended, 0, task_count); }

/* The body of a task: a chain of multiplications, which no compiler can shorten. Exits the program if an input is missing. */
static inline void run_shape_task(uint32_t task) {
    uint64_t x = task;
    for (long i = 0; i < iterations; i++) {
        x = x * 6364136223846793005u + 1;
#if defined(__GNUC__)
        __asm__ volatile("" : "+r"(x));
#endif
    }
    for (uint32_t k = offsets[task]; k < offsets[task + 1]; k++)
        if (!has_ended[inputs[k]]) {
            fprintf(stderr, "task %u began before its input %u was done\n", (unsigned)task, (unsigned)inputs[k]);
            exit(4);
        }
    if (has_ended[task]) {
        fprintf(stderr, "task %u ran twice\n", (unsigned)task);
        exit(4);
    }
    has_ended[task] = 1;
}
#endif
