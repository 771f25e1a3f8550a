/* recursion.c: merge sort as a tree of tasks: leaves sort a part of an array of doubles, and each task above merges two parts.
 * The result is compared with the C library's qsort.
 *
 *   recursion LENGTH LEAF ROUNDS WAY..     a WAY is T (threads of a team), loop, or omp:T (OpenMP's tasks; built with -fopenmp)
 */
#define _POSIX_C_SOURCE 200809L
#include <gerfmuod/team.h>
#include "timing.h"
#include <stdbool.h>
#include <string.h>

typedef struct {
    size_t from, end;
    uint32_t left, right; /* the tasks of its halves; GERFMUOD_GRAPH_NONE for a leaf */
} part;

static size_t length, leaf;
static double *start, *values, *merged;
static part *parts;
static size_t count;

static int compare(const void *a, const void *b) {
    double x = *(const double *)a, y = *(const double *)b;
    return (x > y) - (x < y);
}

static void merge(size_t from, size_t middle, size_t end) {
    for (size_t i = from, j = middle, k = from; k < end; k++)
        merged[k] = j == end || (i < middle && values[i] <= values[j]) ? values[i++] : values[j++];
    memcpy(values + from, merged + from, (end - from) * sizeof *values);
}

static int body(void *context, uint32_t task) {
    const part *p = &parts[task];
    (void)context;
    if (p->left == GERFMUOD_GRAPH_NONE) qsort(values + p->from, p->end - p->from, sizeof *values, compare);
    else merge(p->from, parts[p->left].end, p->end);
    return 0;
}

/* The tasks of a part of the array, those of its halves first. Returns the last one. */
static uint32_t describe(gerfmuod_team *team, size_t from, size_t end) {
    uint32_t inputs[2] = {GERFMUOD_GRAPH_NONE, GERFMUOD_GRAPH_NONE}, number = GERFMUOD_GRAPH_NONE;
    bool is_leaf = end - from <= leaf;
    if (!is_leaf) {
        inputs[0] = describe(team, from, from + (end - from) / 2);
        inputs[1] = describe(team, from + (end - from) / 2, end);
    }
    if (team) need(gerfmuod_team_task(team, 0, inputs, is_leaf ? 0 : 2, &number), "task");
    else number = (uint32_t)count;
    parts[number] = (part){from, end, inputs[0], inputs[1]};
    return count = number + 1, number;
}

static void by_team(uint32_t threads) {
    gerfmuod_team *team;
    need(gerfmuod_team_open(&team), "open");
    describe(team, 0, length);
    need(gerfmuod_team_run(team, threads, body, NULL), "run");
    gerfmuod_team_close(team);
}

static void by_loop(void) {
    count = 0;
    describe(NULL, 0, length);
    for (uint32_t t = 0; t < count; t++) body(NULL, t);
}

#ifdef _OPENMP
static void sort(size_t from, size_t end) {
    size_t middle = from + (end - from) / 2;
    if (end - from <= leaf) {
        qsort(values + from, end - from, sizeof *values, compare);
        return;
    }
#pragma omp task
    sort(from, middle);
#pragma omp task
    sort(middle, end);
#pragma omp taskwait
    merge(from, middle, end);
}

static void by_openmp(int threads) {
#pragma omp parallel num_threads(threads)
#pragma omp single
    sort(0, length);
}
#endif

static void go(const char *way) {
    if (!strcmp(way, "loop")) by_loop();
    else if (atoi(way) > 0) by_team((uint32_t)atoi(way));
#ifdef _OPENMP
    else if (!strncmp(way, "omp:", 4)) by_openmp(atoi(way + 4));
#endif
    else need(1, way);
}

static double *wanted;
static void prepare(void) { memcpy(values, start, length * sizeof *values); }
static int is_sorted(void) { return !memcmp(values, wanted, length * sizeof *values); }

int main(int argc, char **argv) {
    if (argc < 5) return 1;
    length = (size_t)atol(argv[1]), leaf = (size_t)atol(argv[2]);
    if (!length || !leaf) return 1;
    size_t bytes = length * sizeof(double);
    wanted = malloc(bytes), start = malloc(bytes), values = malloc(bytes), merged = malloc(bytes);
    parts = malloc((4 * (length / leaf + 1)) * sizeof *parts);
    if (!wanted || !start || !values || !merged || !parts) return 1;
    uint64_t seed = 1;
    for (size_t i = 0; i < length; i++) {
        seed = seed * 6364136223846793005u + 1442695040888963407u;
        start[i] = (double)(seed >> 11) * 0x1p-53;
    }
    memcpy(wanted, start, bytes);
    qsort(wanted, length, sizeof *wanted, compare);
    measure((struct measured){prepare, go, is_sorted, &count}, argv[3], argv + 4, argc - 4);
    free(wanted), free(start), free(values), free(merged), free(parts);
    return 0;
}
