/* tool.c: a tool of OMPT, OpenMP's tool interface: it checks the tasks of a program by the proved core of Gerfmuod.
 *
 * This file has the options, the lock, and the start and the end. The program is not changed:
 *
 *     OMP_TOOL_LIBRARIES=$PWD/libgerfmuod_ompt.so GERFMUOD_OMP=report ./program
 *
 * GERFMUOD_OMP has words with commas between them: report; hang=SECONDS; status=N, the exit status if there was a fault, or if
 * every thread waits for that long; stop, to abort at the first of these; trace=FILE; times=FILE. */
#include "tool.h"
#include <pthread.h>
#include <stdio.h>
#include <stdlib.h>
#include <string.h>
#include <time.h>
#include <unistd.h>

totals total;
options option;
static pthread_mutex_t lock = PTHREAD_ADAPTIVE_MUTEX_INITIALIZER_NP;
static __thread worker self;
static uint64_t started;

uint64_t clock_now(void) {
    struct timespec time;
    clock_gettime(CLOCK_MONOTONIC, &time);
    return (uint64_t)time.tv_sec * 1000000000u + (uint64_t)time.tv_nsec;
}
void lock_tool(void) { pthread_mutex_lock(&lock); }
void unlock_tool(void) { pthread_mutex_unlock(&lock); }

/* Adds the time since the thread's last event to the task that it ran, or to the wait. */
static void count_time(worker *w, uint64_t now) {
    task *t = w->now;
    if (!t || t->id != w->id || t->life >= DONE) return;
    if (t->region->is_ended) now = t->region->ended; /* the runtime reports the end of the last barrier later */
    if (now <= w->since) return;
    uint64_t ns = now - w->since;
    if (*option.times) note_bar(w, now);
    if (t->wait) total.waiting += ns;
    else {
        t->path += ns, t->ns += ns;
        if (!t->is_implicit) total.in_tasks += ns;
        else *(t->region->is_outer ? &total.serial : &total.outside) += ns;
        if (total.span < t->path) total.span = t->path;
    }
}
worker *enter(void) {
    uint64_t now = clock_now();
    lock_tool();
    if (!self.number) self.number = ++total.threads;
    total.events++;
    count_time(&self, now);
    return &self;
}
void leave(worker *w) {
    unlock_tool();
    w->since = clock_now();
}

static int initialize(ompt_function_lookup_t lookup, int device, ompt_data_t *data) {
    (void)device, (void)data;
    started = clock_now();
    set_callbacks((ompt_set_callback_t)lookup("ompt_set_callback"));
    if (option.hang) start_watch();
    return 1;
}
static void finalize(ompt_data_t *data) {
    (void)data;
    enter();
    uint64_t elapsed = clock_now() - started;
    print_report(elapsed);
    write_times(started, elapsed);
    bool has_failed = total.faults && option.status;
    unlock_tool();
    if (!has_failed) return;
    fflush(NULL);
    _exit(option.status);
}

static void take_word(const char *word) {
    if (!strcmp(word, "report")) option.has_report = true;
    else if (!strcmp(word, "stop")) option.has_stop = true;
    else if (!strncmp(word, "hang=", 5)) option.hang = (uint32_t)strtoul(word + 5, NULL, 10);
    else if (!strncmp(word, "status=", 7)) option.status = atoi(word + 7);
    else if (!strncmp(word, "trace=", 6)) snprintf(option.trace, sizeof option.trace, "%s", word + 6);
    else if (!strncmp(word, "times=", 6)) snprintf(option.times, sizeof option.times, "%s", word + 6);
    else say("GERFMUOD_OMP has a word that is not known: %s", word);
}
__attribute__((visibility("default"))) ompt_start_tool_result_t *ompt_start_tool(unsigned version, const char *runtime) {
    (void)version, (void)runtime;
    static ompt_start_tool_result_t result = {initialize, finalize, {0}};
    const char *words = getenv("GERFMUOD_OMP");
    char copy[1280], *rest;
    snprintf(copy, sizeof copy, "%s", words ? words : "");
    for (char *word = strtok_r(copy, ",", &rest); word; word = strtok_r(NULL, ",", &rest)) take_word(word);
    return &result;
}
