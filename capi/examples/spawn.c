/* spawn.c: quicksort whose tasks make further tasks. The body of a task partitions its part of an array, makes a task of the
 * smaller half, and goes on with the other one. The graph begins with one task. The result is compared with the C library's
 * qsort, and the number of bodies with the number of tasks.
 *
 *   spawn LENGTH LEAF THREADS..     a part of at most LEAF elements is not made a task */
#define _POSIX_C_SOURCE 200809L
#include <gerfmuod/team.h>
#include "timing.h"
#include <stdint.h>
#include <string.h>

typedef struct {
    size_t from, end;
} part;

static gerfmuod_team *team;
static double *values;
static part *parts; /* of each task; made tasks have parts of their own with more than LEAF elements: there is room for all */
static size_t leaf;
static uint32_t made, run, inline_parts;

/* The task is new: no thread can run it yet, and no other call of this function runs. */
static void attach(void *data, uint32_t task) {
    parts[task] = *(const part *)data;
    made++;
}

static int compare(const void *a, const void *b) {
    double x = *(const double *)a, y = *(const double *)b;
    return (x > y) - (x < y);
}

static void swap(size_t i, size_t j) {
    double value = values[i];
    values[i] = values[j], values[j] = value;
}

/* Returns the place of a value: no value before it is greater, and none after it is less. */
static size_t partition(part p) {
    size_t last = p.end - 1, place = p.from;
    swap(p.from + (p.end - p.from) / 2, last);
    for (size_t i = p.from; i < last; i++)
        if (values[i] < values[last]) swap(i, place++);
    swap(place, last);
    return place;
}

static void sort(part p) {
    while (p.end - p.from > leaf) {
        size_t place = partition(p);
        part less = {p.from, place}, more = {place + 1, p.end};
        part smaller = place - p.from < p.end - place - 1 ? less : more;
        p = smaller.from == less.from ? more : less;
        if (smaller.end - smaller.from <= leaf) {
            qsort(values + smaller.from, smaller.end - smaller.from, sizeof *values, compare);
        } else if (gerfmuod_team_spawn(team, 0, NULL, 0, 0, attach, &smaller, NULL)) {
            __atomic_fetch_add(&inline_parts, 1, __ATOMIC_RELAXED); /* refused: there is no room for one more task */
            sort(smaller);
        }
    }
    qsort(values + p.from, p.end - p.from, sizeof *values, compare);
}

static int body(void *context, uint32_t task) {
    (void)context;
    __atomic_fetch_add(&run, 1, __ATOMIC_RELAXED);
    sort(parts[task]);
    return 0;
}

static void by_pool(size_t length, uint32_t threads) {
    part whole = {0, length};
    made = run = inline_parts = 0;
    need(gerfmuod_team_open_traced(&team), "open"); /* of a trace there is a limit */
    need(gerfmuod_team_spawn(team, 0, NULL, 0, 0, attach, &whole, NULL), "the first task");
    need(gerfmuod_team_run(team, threads, body, NULL), "run");
    gerfmuod_team_close(team);
}

int main(int argc, char **argv) {
    if (argc < 4) return 1;
    size_t length = (size_t)atol(argv[1]), bytes = length * sizeof(double);
    leaf = (size_t)atol(argv[2]);
    if (!length || !leaf) return 1;
    double *start = malloc(bytes), *wanted = malloc(bytes);
    values = malloc(bytes), parts = malloc((length / leaf + 1) * sizeof *parts);
    if (!start || !wanted || !values || !parts) return 1;
    uint64_t seed = 1;
    for (size_t i = 0; i < length; i++) {
        seed = seed * 6364136223846793005u + 1442695040888963407u;
        start[i] = (double)(seed >> 11) * 0x1p-53;
    }
    memcpy(wanted, start, bytes);
    qsort(wanted, length, sizeof *wanted, compare);
    for (int w = 3; w < argc; w++) {
        memcpy(values, start, bytes);
        double from = seconds_now();
        by_pool(length, (uint32_t)atoi(argv[w]));
        double seconds = seconds_now() - from;
        if (memcmp(values, wanted, bytes) || made != run) {
            printf("%s threads: not sorted as by qsort, or %u tasks and %u bodies\n", argv[w], (unsigned)made, (unsigned)run);
            return 2;
        }
        printf("%s threads: %u tasks in %.1f ms, %u parts without one; sorted as by qsort\n", argv[w], (unsigned)made, seconds * 1e3,
               (unsigned)inline_parts);
    }
    free(start), free(wanted), free(values), free(parts);
    return 0;
}
