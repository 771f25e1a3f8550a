/* steps.c: the cost of a step. `steps time N` prints nanoseconds: for a counter that is incremented under a mutex, for a
 * step under the same mutex, and for each kind of steps without a mutex. `steps count KIND N` takes N steps of a kind and
 * prints the resident memory in bytes: a tool that counts instructions runs it with two values of N. `steps locks N` prints
 * nanoseconds of N steps of several threads, under a mutex and under a spin lock. `steps stack` prints the stack that the
 * calls use. */
#define _XOPEN_SOURCE 700
#include <gerfmuod/core.h>

#include <pthread.h>
#include <stdio.h>
#include <stdlib.h>
#include <string.h>
#include <time.h>
#include <unistd.h>

static pthread_mutex_t lock = PTHREAD_MUTEX_INITIALIZER;
static volatile long left = 0;

static double now(void) {
    struct timespec t;
    clock_gettime(CLOCK_MONOTONIC, &t);
    return (double)t.tv_sec * 1e9 + (double)t.tv_nsec;
}

/* Returns the resident memory in bytes, as Linux reports it; 0 if it does not. */
static long resident(void) {
    long all = 0, here = 0;
    FILE *file = fopen("/proc/self/statm", "r");
    if (!file) return 0;
    if (fscanf(file, "%ld %ld", &all, &here) != 2) here = 0;
    fclose(file);
    return here * sysconf(_SC_PAGESIZE);
}

/* Tasks of three steps each, at eight nodes, with numbers that are `factor` apart. */
static inline unsigned long numbered(gerfmuod_core *core, uint32_t steps, uint32_t factor, uint32_t first) {
    unsigned long refused = 0;
    for (uint32_t t = 0; t < steps / 3; t++) {
        refused += gerfmuod_core_insert(core, t & 7, t * factor + first, 0).refused != 0;
        refused += gerfmuod_core_begin(core, t * factor + first).refused != 0;
        refused += gerfmuod_core_done(core, t * factor + first).refused != 0;
    }
    return refused;
}

static unsigned long tasks(gerfmuod_core *core, uint32_t steps) { return numbered(core, steps, 1, 0); }
static unsigned long sparse_tasks(gerfmuod_core *core, uint32_t steps) { return numbered(core, steps, 3, 0); }
static unsigned long large_tasks(gerfmuod_core *core, uint32_t steps) { return numbered(core, steps, 1, 3000000000u); }
static unsigned long hashed_tasks(gerfmuod_core *core, uint32_t steps) { return numbered(core, steps, 2654435761u, 0); }

/* Messages of three steps each, from node to node. */
static unsigned long messages(gerfmuod_core *core, uint32_t steps) {
    unsigned long refused = 0;
    for (uint32_t m = 0; m < steps / 3; m++) {
        uint32_t to = (m + 1) & 7;
        refused += gerfmuod_core_send(core, m & 7, to, m, GERFMUOD_FIRST_GENERATION).refused != 0;
        refused += gerfmuod_core_receive(core, to, m, GERFMUOD_FIRST_GENERATION).refused != 0;
        refused += gerfmuod_core_message_end(core, to, m, GERFMUOD_FIRST_GENERATION).refused != 0;
    }
    return refused;
}

/* The tasks again, with what makes each step. */
static unsigned long made_tasks(gerfmuod_core *core, uint32_t steps) {
    unsigned long refused = 0;
    for (uint32_t t = 0; t < steps / 3; t++) {
        refused += gerfmuod_core_insert_by(core, GERFMUOD_BY_OPENING, 0, t & 7, t, 0).refused != 0;
        refused += gerfmuod_core_begin_at(core, t & 7, t).refused != 0;
        refused += gerfmuod_core_done_at(core, t & 7, t).refused != 0;
    }
    return refused;
}

typedef struct {
    const char *name;
    unsigned long (*run)(gerfmuod_core *, uint32_t);
    const char *meaning;
} kind;

static const kind kinds[] = {
    {"tasks", tasks, "step of a task"},
    {"messages", messages, "step of a message"},
    {"makers", made_tasks, "step of a task with its maker"},
    {"sparse", sparse_tasks, "step of a task, numbers 3 apart"},
    {"large", large_tasks, "step of a task, numbers from 3,000,000,000 on"},
    {"hashed", hashed_tasks, "step of a task, numbers spread over 32 bits"},
};
enum { KINDS = sizeof kinds / sizeof *kinds };

typedef struct {
    pthread_t thread;
    gerfmuod_core *core;
    uint32_t from, to;
    bool spins;
} reporter;

static pthread_spinlock_t spin;

static gerfmuod_step_result step_of(const reporter *r, uint32_t kind, uint32_t first, uint32_t second) {
    if (r->spins) pthread_spin_lock(&spin);
    else pthread_mutex_lock(&lock);
    gerfmuod_step_result answer = gerfmuod_core_step(r->core, kind, first, second, 0, 0);
    if (r->spins) pthread_spin_unlock(&spin);
    else pthread_mutex_unlock(&lock);
    return answer;
}

static void *report(void *argument) {
    const reporter *r = argument;
    for (uint32_t t = r->from; t < r->to; t++) {
        if (step_of(r, GERFMUOD_STEP_INSERT, t & 7, t).refused) exit(1);
        if (step_of(r, GERFMUOD_STEP_BEGIN, t, 0).refused) exit(1);
        if (step_of(r, GERFMUOD_STEP_DONE, t, 0).refused) exit(1);
    }
    return NULL;
}

static unsigned long locked_tasks(gerfmuod_core *core, uint32_t steps) {
    reporter all = {.core = core, .to = steps / 3};
    return report(&all) != NULL;
}

static unsigned long counted(gerfmuod_core *core, uint32_t steps) {
    (void)core;
    for (uint32_t k = 0; k < steps; k++) {
        pthread_mutex_lock(&lock);
        left += 1;
        pthread_mutex_unlock(&lock);
    }
    return 0;
}

/* The best of five runs, in nanoseconds per step. */
static double best(unsigned long (*run)(gerfmuod_core *, uint32_t), uint32_t steps) {
    double least = 1e300;
    for (int round = 0; round < 5; round++) {
        gerfmuod_core core;
        if (gerfmuod_core_open(&core, 8)) exit(1);
        double from = now();
        if (run(&core, steps)) exit(1);
        double took = (now() - from) / steps;
        if (took < least) least = took;
        gerfmuod_core_close(&core);
    }
    return least;
}

/* ---- stacks */
static gerfmuod_core deep;
static char *trace;
static size_t trace_length;

static void *nothing(void *unused) { return unused; }

static void *take_steps(void *unused) {
    if (gerfmuod_core_reserve(&deep, 3000, 500, 500)) exit(1);
    if (tasks(&deep, 3000) || messages(&deep, 3000)) exit(1);
    for (uint32_t node = 0; node < 8; node++)
        if (gerfmuod_core_ready(&deep, node).refused) exit(1);
    if (gerfmuod_core_settle(&deep).refused || gerfmuod_core_reopen(&deep).refused) exit(1);
    if (!gerfmuod_core_status(&deep).steps || gerfmuod_core_counters(&deep, 7).refused) exit(1);
    return unused;
}

/* Numbers that are far apart are stored in a tree. */
static void *take_far_steps(void *unused) {
    gerfmuod_core far;
    if (gerfmuod_core_open(&far, 8)) exit(1);
    for (uint32_t t = 0; t < 20000; t++) {
        if (gerfmuod_core_insert(&far, t & 7, 4000000000u - t * 7919u, 0).refused) exit(1);
    }
    gerfmuod_core_close(&far);
    return unused;
}

static void *write_trace(void *unused) {
    trace_length = gerfmuod_core_trace(&deep, NULL, 0).length;
    trace = malloc(trace_length);
    if (!trace || gerfmuod_core_trace(&deep, trace, trace_length).outcome) exit(1);
    return unused;
}

static void *judge_trace(void *unused) {
    char room[256];
    if (gerfmuod_audit(trace, trace_length, room, sizeof room).outcome) exit(1);
    return unused;
}

static void *close_core(void *unused) {
    gerfmuod_core_close(&deep);
    return unused;
}

/* Returns the number of bytes of a painted stack that a call has written to, less those that an empty thread writes to. */
static size_t depth_of(void *(*job)(void *)) {
    const size_t size = 1 << 20;
    unsigned char *stack = NULL;
    pthread_attr_t attributes;
    pthread_t thread;
    if (posix_memalign((void **)&stack, 4096, size)) exit(1);
    memset(stack, 165, size);
    if (pthread_attr_init(&attributes) || pthread_attr_setstack(&attributes, stack, size)) exit(1);
    if (pthread_create(&thread, &attributes, job, NULL) || pthread_join(thread, NULL)) exit(1);
    size_t untouched = 0;
    while (untouched < size && stack[untouched] == 165) untouched++;
    free(stack);
    return job == nothing ? size - untouched : size - untouched - depth_of(nothing);
}

static int stacks(void) {
    if (gerfmuod_core_open(&deep, 8)) return 1;
    printf("stack of reserve, steps, questions and settle %zu bytes\n", depth_of(take_steps));
    printf("stack of steps with large numbers, and close %zu bytes\n", depth_of(take_far_steps));
    printf("stack of trace %zu bytes\n", depth_of(write_trace));
    printf("stack of audit %zu bytes\n", depth_of(judge_trace));
    printf("stack of close %zu bytes\n", depth_of(close_core));
    free(trace);
    return 0;
}

/* ---- locks */

/* The best of three runs, in nanoseconds per step of all threads together. */
static double contended(uint32_t threads, bool spins, uint32_t steps) {
    double least = 1e300;
    for (int round = 0; round < 3; round++) {
        gerfmuod_core core;
        reporter reporters[64];
        uint32_t each = steps / 3 / threads;
        if (gerfmuod_core_open(&core, 8)) exit(1);
        double from = now();
        for (uint32_t i = 0; i < threads; i++) {
            reporters[i] = (reporter){.core = &core, .from = i * each, .to = (i + 1) * each, .spins = spins};
            if (pthread_create(&reporters[i].thread, NULL, report, &reporters[i])) exit(1);
        }
        for (uint32_t i = 0; i < threads; i++) pthread_join(reporters[i].thread, NULL);
        double took = (now() - from) / (3.0 * each * threads);
        if (took < least) least = took;
        gerfmuod_core_close(&core);
    }
    return least;
}

static int locks(uint32_t steps) {
    if (pthread_spin_init(&spin, PTHREAD_PROCESS_PRIVATE)) return 1;
    for (uint32_t threads = 1; threads <= 16; threads *= 2)
        printf("step of one of %u threads: mutex %.1f ns, spin lock %.1f ns\n", (unsigned)threads, contended(threads, false, steps),
               contended(threads, true, steps));
    return 0;
}

static int times(uint32_t steps) {
    printf("counter under a mutex %.1f ns\n", best(counted, steps));
    printf("step under a mutex %.1f ns\n", best(locked_tasks, steps));
    for (int k = 0; k < KINDS; k++) printf("%s %.1f ns\n", kinds[k].meaning, best(kinds[k].run, steps));
    return 0;
}

static int count(const char *name, uint32_t steps) {
    gerfmuod_core core;
    int k = 0;
    while (k < KINDS && strcmp(kinds[k].name, name)) k++;
    if (k == KINDS || gerfmuod_core_open(&core, 8)) return 2;
    unsigned long refused = kinds[k].run(&core, steps);
    printf("%ld\n", resident());
    gerfmuod_core_close(&core);
    return refused != 0;
}

int main(int argc, char **argv) {
    uint32_t steps = argc > 2 ? (uint32_t)strtoul(argv[argc - 1], NULL, 10) : 0;
    if (argc == 3 && strcmp(argv[1], "time") == 0) return times(steps);
    if (argc == 3 && strcmp(argv[1], "locks") == 0) return locks(steps);
    if (argc == 4 && strcmp(argv[1], "count") == 0) return count(argv[2], steps);
    if (argc == 2 && strcmp(argv[1], "stack") == 0) return stacks();
    fputs("steps time N | steps locks N | steps count KIND N | steps stack\n", stderr);
    return 2;
}
