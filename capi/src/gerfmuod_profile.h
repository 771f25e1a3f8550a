/* gerfmuod_profile.h: the times of a team's run, a part of gerfmuod_team.c: what its threads record, and the texts about it.
 *
 * Each thread writes into a ring of its own, and every call is made while the team's lock is held, except those that read a
 * clock. A turn reads a clock before it takes the lock, which ends the body before it; when it has to wait; and when it
 * ends. If the kernel derives CLOCK_MONOTONIC from the time stamp counter of x86-64, that clock is the counter itself, which is
 * faster to read. Two readings of both, at the start of the run and when its texts are written, convert ticks to nanoseconds. */
#ifndef GERFMUOD_PROFILE_H
#define GERFMUOD_PROFILE_H
#include <gerfmuod/graph.h>
#include "gerfmuod_lock.h"

#include <inttypes.h>
#include <stdio.h>
#include <stdlib.h>
#include <string.h>
#include <time.h>

/* What ticks are; NO_CLOCK of a team that does not record. */
enum clock { NO_CLOCK, NANOSECONDS, COUNTER };

/* What a thread did from one time to another: it ran a task, or waited (GERFMUOD_GRAPH_NONE). The times are ticks. */
struct slice {
    uint64_t begin, end;
    uint32_t task;
};

/* What one thread did. */
struct ring {
    pthread_t owner;
    struct slice *kept;     /* the newest slices */
    uint64_t slices;        /* the number of all */
    uint64_t first, last;   /* when its first turn began, or 0; its newest time */
    uint64_t begun;         /* when its body began, if one runs */
    uint64_t bodies, waits; /* sums of ticks, also of slices that are lost */
    uint32_t next;          /* the place of the next slice */
    uint32_t running;       /* the task whose body runs, or GERFMUOD_GRAPH_NONE */
    uint32_t tasks;         /* the number of bodies that ended */
    uint32_t backwards;     /* how often the clock was before the last time, which was taken instead */
    bool has_left;          /* a turn returned no task */
    char apart[40];         /* the rings of two threads share no line of the cache */
};

/* A task and an input, as they were described; and the same time by both clocks. */
struct described { uint8_t class_; bool is_done; };
struct edge { uint32_t source, target; };
struct instant { uint64_t ticks, nanoseconds; };

/* Of a team that records. */
struct profile {
    enum clock clock;
    bool has_run;     /* a run was started, and gerfmuod_team_again was not called since */
    bool lacks_inputs; /* those of a task were inferred, and are not among the edges */
    uint32_t most;    /* the number of slices that a ring keeps */
    uint32_t threads; /* the number of rings */
    uint32_t claimed; /* the number of those that a thread has claimed in this run, the first ones */
    struct ring *rings;
    struct slice *slices;
    struct described *tasks;
    struct edge *edges; /* in the order of their targets */
    size_t task_count, task_room, edge_count, edge_room;
    struct instant start;
    /* what profile_times computes, in nanoseconds */
    double rate; /* nanoseconds of a tick */
    uint64_t elapsed, critical; /* the time of the run, and of the longest chain of bodies that wait for each other */
    uint64_t lost, backwards;
    bool has_all; /* the length of the body of each task that is done is known, and all inputs are */
};

/* ---- clocks */

static uint64_t nanoseconds_now(void) {
    struct timespec time;
    clock_gettime(CLOCK_MONOTONIC, &time);
    return (uint64_t)time.tv_sec * 1000000000u + (uint64_t)time.tv_nsec;
}

#if defined(GERFMUOD_PROFILE_TICKS) /* a clock of a test */
uint64_t GERFMUOD_PROFILE_TICKS(void);
#endif

static inline uint64_t ticks_now(enum clock clock) {
    if (clock == NO_CLOCK) return 0;
#if defined(GERFMUOD_PROFILE_TICKS)
    return GERFMUOD_PROFILE_TICKS();
#elif defined(__x86_64__)
    if (clock == COUNTER) return __builtin_ia32_rdtsc();
#endif
    return nanoseconds_now();
}

/* If the kernel relies on the time stamp counter, it has one rate, and is the same on all processors. */
static enum clock find_clock(void) {
    char name[8] = "";
#if defined(__x86_64__) && defined(__linux__) && !defined(GERFMUOD_PROFILE_TICKS)
    FILE *file = fopen("/sys/devices/system/clocksource/clocksource0/current_clocksource", "r");
    if (file && !fgets(name, sizeof name, file)) name[0] = 0;
    if (file) fclose(file);
#endif
    return strcmp(name, "tsc\n") ? NANOSECONDS : COUNTER;
}

/* Reads both clocks at the same time: the attempt that took the least time counts. */
static struct instant instant_now(enum clock clock) {
    struct instant found = {0, 0};
    uint64_t least = UINT64_MAX;
    for (int attempt = 0; attempt < 4; attempt++) {
        uint64_t before = ticks_now(clock), now = nanoseconds_now(), took = ticks_now(clock) - before;
        if (took < least || !attempt) least = took, found = (struct instant){before + took / 2, now};
    }
    return found;
}

/* Returns an array with room for `needed` elements, or NULL; the old one is then as it was. */
static void *with_room(void *array, size_t *room, size_t needed, size_t size) {
    if (needed <= *room && array) return array;
    size_t more = 2 * *room > needed ? 2 * *room : needed + 256;
    void *moved = realloc(array, more * size);
    if (moved) *room = more;
    return moved;
}

/* Makes room for tasks and their inputs. Returns whether there was memory for it. */
static NOINLINE bool profile_reserve(struct profile *profile, size_t tasks, size_t inputs) {
    void *array = with_room(profile->tasks, &profile->task_room, profile->task_count + tasks, sizeof *profile->tasks);
    if (!array) return false;
    profile->tasks = array;
    array = with_room(profile->edges, &profile->edge_room, profile->edge_count + inputs, sizeof *profile->edges);
    if (array) profile->edges = array;
    return array;
}

/* A task was described, for which there is room. */
static NOINLINE void profile_describe(struct profile *profile, uint32_t class_, const uint32_t *inputs, size_t count) {
    uint32_t task = (uint32_t)profile->task_count++;
    profile->tasks[task] = (struct described){(uint8_t)class_, false};
    for (size_t k = 0; k < count; k++) profile->edges[profile->edge_count++] = (struct edge){inputs[k], task};
}

/* ---- opening and closing */

static void profile_close(struct profile *profile) {
    if (!profile) return;
    free(profile->rings), free(profile->slices), free(profile->tasks), free(profile->edges), free(profile);
}

/* Returns NULL if there is no memory. */
static struct profile *profile_open(uint32_t most) {
    struct profile *profile = calloc(1, sizeof *profile);
    if (profile) profile->most = most, profile->clock = find_clock();
    return profile;
}

/* Allocates a ring for each thread. Returns whether there was memory for them. */
static bool profile_open_rings(struct profile *profile, uint32_t threads) {
    if (profile->threads == threads) return true;
    struct ring *rings = calloc(threads, sizeof *rings);
    struct slice *slices = calloc((size_t)threads * profile->most, sizeof *slices);
    if (!rings || !slices) return free(rings), free(slices), false;
    free(profile->rings), free(profile->slices);
    profile->rings = rings, profile->slices = slices, profile->threads = threads;
    return true;
}

/* A run begins: its threads claim the rings anew. */
static void profile_start(struct profile *profile) {
    for (size_t t = 0; t < profile->task_count; t++) profile->tasks[t].is_done = false;
    profile->start = instant_now(profile->clock);
    for (uint32_t w = 0; w < profile->threads; w++) {
        struct slice *kept = profile->slices + (size_t)w * profile->most;
        profile->rings[w] = (struct ring){.kept = kept, .last = profile->start.ticks, .running = GERFMUOD_GRAPH_NONE};
    }
    profile->claimed = 0;
    profile->has_run = true;
}

/* ---- recording */

/* Returns the ring of this thread, which claims one if it may and has none in this run. Returns NULL if it has none, as if there
 * are more threads than the start announced. */
static struct ring *ring_of_caller(struct profile *profile, bool may_claim) {
    uint32_t w = 0;
    while (w < profile->claimed && !pthread_equal(profile->rings[w].owner, pthread_self())) w++;
    if (w == profile->claimed) {
        if (!may_claim || w == profile->threads) return NULL;
        profile->rings[profile->claimed++].owner = pthread_self();
    }
    return &profile->rings[w];
}

/* Returns the time, but not one before the last of this thread. */
static uint64_t ring_time(struct ring *ring, uint64_t now) {
    if (now < ring->last) now = ring->last, ring->backwards++;
    return ring->last = now;
}

static void ring_keep(const struct profile *profile, struct ring *ring, struct slice slice) {
    ring->kept[ring->next] = slice;
    if (++ring->next == profile->most) ring->next = 0;
    ring->slices++;
}

/* The body of a task has ended in this thread at this time. */
static NOINLINE void profile_end_body(struct profile *profile, uint32_t task, uint64_t now) {
    struct ring *ring = ring_of_caller(profile, false);
    if (!ring || ring->running != task || task == GERFMUOD_GRAPH_NONE) return;
    now = ring_time(ring, now);
    ring->bodies += now - ring->begun;
    ring->tasks++;
    ring->running = GERFMUOD_GRAPH_NONE;
    ring_keep(profile, ring, (struct slice){ring->begun, now, task});
}

/* A turn ends that began and, unless that is 0, waited since these times, and returns a task or GERFMUOD_GRAPH_NONE. */
static NOINLINE void profile_end_turn(struct profile *profile, uint32_t task, uint64_t begun, uint64_t waited) {
    struct ring *ring = ring_of_caller(profile, true);
    if (!ring || ring->has_left) return;
    bool is_first = !ring->first; /* it may have begun before the start */
    if (is_first) ring->first = ring->last = begun > ring->last ? begun : ring->last;
    uint64_t before = ring->last, now = ring_time(ring, ticks_now(profile->clock));
    if (waited) {
        if (waited < before) waited = before, ring->backwards += !is_first;
        if (waited > now) waited = now, ring->backwards++;
        ring->waits += now - waited;
        ring_keep(profile, ring, (struct slice){waited, now, GERFMUOD_GRAPH_NONE});
    }
    ring->begun = now;
    ring->running = task;
    ring->has_left = task == GERFMUOD_GRAPH_NONE;
}

/* ---- the run as a whole, after it */

static uint64_t since_start(const struct profile *profile, uint64_t ticks) {
    return ticks <= profile->start.ticks ? 0 : (uint64_t)((double)(ticks - profile->start.ticks) * profile->rate);
}

static uint64_t lost_of(const struct profile *profile, const struct ring *ring) {
    return ring->slices > profile->most ? ring->slices - profile->most : 0;
}

/* Writes the length of each body whose slice is kept. */
static void find_bodies(struct profile *profile, uint64_t *lengths) {
    for (uint32_t w = 0; w < profile->threads; w++) {
        const struct ring *ring = &profile->rings[w];
        uint64_t last = since_start(profile, ring->last), lost = lost_of(profile, ring);
        if (last > profile->elapsed) profile->elapsed = last;
        profile->lost += lost;
        profile->backwards += ring->backwards;
        for (uint64_t number = lost; number < ring->slices; number++) {
            const struct slice *slice = &ring->kept[number % profile->most];
            if (slice->task != GERFMUOD_GRAPH_NONE)
                lengths[slice->task] = since_start(profile, slice->end) - since_start(profile, slice->begin);
        }
    }
}

/* Computes the times of the run. Returns whether there was memory for that. */
static bool profile_times(struct profile *profile) {
    struct instant now = instant_now(profile->clock);
    uint64_t *chains = malloc((profile->task_count + 1) * sizeof *chains); /* of each task, the chain that ends with it */
    if (!chains) return false;
    memset(chains, 255, profile->task_count * sizeof *chains); /* UINT64_MAX: not known */
    profile->rate = 1, profile->has_all = !profile->lacks_inputs;
    profile->elapsed = profile->critical = profile->lost = profile->backwards = 0;
    if (profile->clock == COUNTER && now.ticks > profile->start.ticks && now.nanoseconds > profile->start.nanoseconds)
        profile->rate = (double)(now.nanoseconds - profile->start.nanoseconds) / (double)(now.ticks - profile->start.ticks);
    find_bodies(profile, chains);
    for (size_t t = 0, k = 0; t < profile->task_count; t++) {
        uint64_t before = 0;
        for (; k < profile->edge_count && profile->edges[k].target == t; k++)
            if (chains[profile->edges[k].source] > before) before = chains[profile->edges[k].source];
        bool is_known = chains[t] != UINT64_MAX;
        profile->has_all &= is_known || !profile->tasks[t].is_done;
        chains[t] = before + (is_known ? chains[t] : 0);
        if (chains[t] > profile->critical) profile->critical = chains[t];
    }
    free(chains);
    return true;
}

/* The time of a thread in the run, and what of it was neither bodies nor waiting: taking and reporting tasks, and waiting for
 * the lock. */
static uint64_t time_of(const struct ring *ring) { return ring->first ? ring->last - ring->first : 0; }
static uint64_t runtime_of(const struct ring *ring) { return time_of(ring) - ring->bodies - ring->waits; }

/* ---- Chrome's trace events. Each thread is a track, and its number there counts from 1 */

/* Writes a time as microseconds. */
static void write_time(FILE *file, const char *key, uint64_t nanoseconds) {
    fprintf(file, ",\"%s\":%" PRIu64 ".%03u", key, nanoseconds / 1000, (unsigned)(nanoseconds % 1000));
}

static void write_thread(FILE *file, const struct profile *profile, uint32_t thread) {
    const struct ring *ring = &profile->rings[thread];
    fprintf(file, ",\n{\"ph\":\"M\",\"pid\":1,\"tid\":%u,\"name\":\"thread_name\",\"args\":{\"name\":\"thread %u\"}}", thread + 1, thread);
    for (uint64_t number = lost_of(profile, ring); number < ring->slices; number++) {
        struct slice slice = ring->kept[number % profile->most];
        uint64_t begin = since_start(profile, slice.begin);
        bool is_task = slice.task != GERFMUOD_GRAPH_NONE;
        fprintf(file, ",\n{\"ph\":\"X\",\"cat\":\"%s\",\"pid\":1,\"tid\":%u", is_task ? "task" : "wait", thread + 1);
        write_time(file, "ts", begin);
        write_time(file, "dur", since_start(profile, slice.end) - begin);
        if (!is_task) fprintf(file, ",\"name\":\"wait\",\"args\":{}}");
        else
            fprintf(file, ",\"name\":\"task %u\",\"args\":{\"task\":%u,\"class\":%u}}", slice.task, slice.task,
                    (unsigned)profile->tasks[slice.task].class_);
    }
}

static void write_worker(FILE *file, const struct profile *profile, uint32_t thread) {
    const struct ring *ring = &profile->rings[thread];
    fprintf(file, "%s\n{\"thread\":%u,\"tasks\":%u", thread ? "," : "", thread, ring->tasks);
    write_time(file, "first_turn_us", since_start(profile, ring->first));
    write_time(file, "bodies_us", (uint64_t)((double)ring->bodies * profile->rate));
    write_time(file, "waiting_us", (uint64_t)((double)ring->waits * profile->rate));
    write_time(file, "runtime_us", (uint64_t)((double)runtime_of(ring) * profile->rate));
    fprintf(file, ",\"lost_slices\":%" PRIu64 "}", lost_of(profile, ring));
}

static void profile_write(FILE *file, const struct profile *profile) {
    fprintf(file, "{\"displayTimeUnit\":\"ns\",\"otherData\":{\"clock\":\"CLOCK_MONOTONIC\",\"start_ns\":\"%" PRIu64 "\",\"tasks\":%zu",
            profile->start.nanoseconds, profile->task_count);
    write_time(file, "elapsed_us", profile->elapsed);
    if (profile->has_all) write_time(file, "critical_path_us", profile->critical);
    fprintf(file, ",\"lost_slices\":%" PRIu64 ",\"clock_went_back\":%" PRIu64 ",\"workers\":[", profile->lost, profile->backwards);
    for (uint32_t w = 0; w < profile->threads; w++) write_worker(file, profile, w);
    fprintf(file, "]},\n\"traceEvents\":[\n{\"ph\":\"M\",\"pid\":1,\"name\":\"process_name\",\"args\":{\"name\":\"team\"}}");
    for (uint32_t w = 0; w < profile->threads; w++) write_thread(file, profile, w);
    fprintf(file, "\n]}\n");
}

/* ---- the summary */

static void profile_summarize(FILE *file, const struct profile *profile) {
    fprintf(file, "thread    tasks    bodies   waiting   runtime\n");
    for (uint32_t w = 0; w < profile->threads; w++) {
        const struct ring *ring = &profile->rings[w];
        const double parts[] = {(double)ring->bodies, (double)ring->waits, (double)runtime_of(ring)}, all = (double)time_of(ring);
        fprintf(file, "%6u %8u", w, ring->tasks);
        for (int k = 0; k < 3; k++) fprintf(file, " %8.1f%%", all > 0 ? 100 * parts[k] / all : 0.0);
        fprintf(file, "\n");
    }
    fprintf(file, "%.3f ms", (double)profile->elapsed * 1e-6);
    if (profile->has_all) fprintf(file, ", of which the critical path takes %.3f ms", (double)profile->critical * 1e-6);
    fprintf(file, "\n");
}
#endif
