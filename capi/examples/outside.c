/* outside.c: tasks that wait for a device and for a timer, by inputs from outside. The device is a thread that runs no tasks.
 *
 *   outside BLOCKS BUFFERS THREADS [early]     early: the device reports a block before it is there, which has to be found out
 *
 * The device reads blocks of numbers into buffers, of which there are fewer than blocks. Task 2k hands block k to the device and
 * is done at once; task 2k + 1 waits for it and for the device, and adds up the block. Every third block is cached, and needs no
 * device. Then one task waits for a timer, while the threads have to sleep. The exit status is 1 if something is wrong. */
#define _POSIX_C_SOURCE 200809L
#include <gerfmuod/team.h>
#include "timing.h"
#include <inttypes.h>
#include <pthread.h>
#include <stdbool.h>
#include <string.h>

enum { WORDS = 512, MILLISECOND = 1000000, TIMER = 200 * MILLISECOND };

static gerfmuod_team *team;
static uint32_t blocks, buffers;
static uint64_t (*buffer)[WORDS], *sum; /* sum: of each block */
static bool is_early;

static void sleep_for(long nanoseconds) { nanosleep(&(struct timespec){.tv_nsec = nanoseconds}, NULL); }

/* ---- the device */
static struct {
    pthread_mutex_t lock;
    pthread_cond_t news;
    uint32_t *requests, taken, made; /* made: of them, the first ones are taken */
    bool has_ended;
} device = {.lock = PTHREAD_MUTEX_INITIALIZER, .news = PTHREAD_COND_INITIALIZER};

static void request(uint32_t block) {
    pthread_mutex_lock(&device.lock);
    device.requests[device.made++] = block;
    pthread_cond_signal(&device.news);
    pthread_mutex_unlock(&device.lock);
}

/* Writes the next request to *block; returns false if there will be none. */
static bool take_request(uint32_t *block) {
    pthread_mutex_lock(&device.lock);
    while (device.taken == device.made && !device.has_ended) pthread_cond_wait(&device.news, &device.lock);
    bool is_there = device.taken < device.made;
    if (is_there) *block = device.requests[device.taken++];
    pthread_mutex_unlock(&device.lock);
    return is_there;
}

static void end_device(void) {
    pthread_mutex_lock(&device.lock);
    device.has_ended = true;
    pthread_cond_signal(&device.news);
    pthread_mutex_unlock(&device.lock);
}

static void read_block(uint32_t block) {
    for (uint32_t i = 0; i < WORDS; i++) buffer[block % buffers][i] = (uint64_t)block * WORDS + i;
}

static void *run_device(void *argument) {
    uint32_t block;
    while (take_request(&block)) {
        if (!is_early) read_block(block);
        need(gerfmuod_team_release(team, 2 * block + 1), "release");
        if (is_early) sleep_for(MILLISECOND), read_block(block);
    }
    return argument;
}

/* ---- the tasks */
static int ask(uint32_t block) {
    if (block % 3 == 0) {
        read_block(block); /* it is in a cache */
        return 0;
    }
    if (gerfmuod_team_outside(team, 2 * block + 1)) return 1;
    request(block);
    return 0;
}

static int body(void *context, uint32_t task) {
    (void)context;
    uint32_t block = task / 2;
    if (task % 2 == 0) return ask(block);
    for (uint32_t i = 0; i < WORDS; i++) sum[block] += buffer[block % buffers][i];
    return 0;
}

static void describe(void) {
    for (uint32_t k = 0; k < blocks; k++) { /* a buffer is free when its last block was added up */
        uint32_t before = k >= buffers ? 2 * (k - buffers) + 1 : 0, own = 2 * k;
        need(gerfmuod_team_task(team, 1, &before, k >= buffers, NULL), "task");
        need(gerfmuod_team_task(team, 0, &own, 1, NULL), "task");
    }
}

/* Runs all tasks; returns how many blocks have a wrong sum. */
static uint32_t count_wrong(uint32_t threads) {
    pthread_t thread;
    uint32_t wrong = 0;
    need(gerfmuod_team_open(&team), "open");
    describe();
    need(pthread_create(&thread, NULL, run_device, NULL) != 0, "pthread_create");
    need(gerfmuod_team_run(team, threads, body, NULL), "run");
    end_device();
    pthread_join(thread, NULL);
    gerfmuod_team_close(team);
    for (uint64_t k = 0; k < blocks; k++) wrong += sum[k] != k * WORDS * WORDS + WORDS * (WORDS - 1) / 2;
    return wrong;
}

/* ---- the timer */
static void *run_timer(void *argument) {
    sleep_for(TIMER);
    *(int *)argument = 1; /* what the task reads */
    need(gerfmuod_team_release(team, 0), "release");
    return NULL;
}

static int read_timer(void *context, uint32_t task) {
    (void)task;
    return *(int *)context != 1;
}

/* Whether the threads sleep until the timer: then the process takes little processor time. */
static bool is_asleep(uint32_t threads) {
    pthread_t thread;
    int is_over = 0;
    need(gerfmuod_team_open(&team), "open");
    need(gerfmuod_team_spawn(team, 0, NULL, 0, 1, NULL, NULL, NULL), "spawn");
    clock_t from = clock();
    need(pthread_create(&thread, NULL, run_timer, &is_over) != 0, "pthread_create");
    need(gerfmuod_team_run(team, threads, read_timer, &is_over), "run");
    double seconds = (double)(clock() - from) / CLOCKS_PER_SEC;
    pthread_join(thread, NULL);
    gerfmuod_team_close(team);
    if (seconds >= 0.5e-9 * TIMER) printf("%.3f s of processor time in a wait\n", seconds);
    return seconds < 0.5e-9 * TIMER;
}

int main(int argc, char **argv) {
    if (argc < 4) return 2;
    blocks = (uint32_t)atoi(argv[1]), buffers = (uint32_t)atoi(argv[2]);
    uint32_t threads = (uint32_t)atoi(argv[3]);
    is_early = argc > 4 && !strcmp(argv[4], "early");
    buffer = calloc(buffers, sizeof *buffer), sum = calloc(blocks, sizeof *sum);
    device.requests = calloc(blocks, sizeof *device.requests);
    if (!buffer || !sum || !device.requests) return 2;
    uint32_t wrong = count_wrong(threads);
    bool is_well = is_asleep(threads) && !wrong;
    printf("%u blocks, %u of them read by the device, %u wrong\n", blocks, device.made, wrong);
    free(buffer), free(sum), free(device.requests);
    return !is_well;
}
