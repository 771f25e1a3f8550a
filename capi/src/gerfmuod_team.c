/* gerfmuod_team.c: a graph of gerfmuod/graph.h with a lock and threads that wait. C over pthreads, not proved.
 *
 * What a thread does next, and how many sleeping threads it signals, the graph decides. This file locks, waits for the one
 * condition variable, pauses and signals. One mutex protects the graph, every field and what the threads record of a run
 * (gerfmuod_profile.h); no atomic operation is used. */
#ifndef _GNU_SOURCE
#define _GNU_SOURCE /* sched_getaffinity */
#endif
#include <gerfmuod/team.h>
#include "gerfmuod_crew.h"
#include "gerfmuod_lock.h"
#include "gerfmuod_profile.h"

struct gerfmuod_team {
    gerfmuod_graph graph;
    pthread_mutex_t lock;
    pthread_cond_t news; /* threads whose turn returned SLEEP wait for it */
    uint32_t threads, processors;
    bool is_traced;
    struct crew crew; /* the threads of gerfmuod_team_run, beside the caller; they stay until the team is closed */
    gerfmuod_team_body body;
    void *context; /* of the body. Both are written before the crew is called */
    enum clock clock;        /* NO_CLOCK unless the team records. A turn reads it without the lock: it changes in none */
    struct profile *profile; /* NULL unless the team records */
};

/* A thread remembers whether there were more threads than processors when it last waited for a lock. */
static NOINLINE void acquire_contended(gerfmuod_team *team) {
    static __thread bool is_crowded;
    acquire_after_pauses(&team->lock, is_crowded);
    is_crowded = team->threads > team->processors;
}

static inline void acquire(gerfmuod_team *team) {
    if (pthread_mutex_trylock(&team->lock)) acquire_contended(team);
}
static inline void release(gerfmuod_team *team) { pthread_mutex_unlock(&team->lock); }

/* If several threads have to be signalled, it is all that sleep; the turn of one that wakes up unasked returns SLEEP again. */
static inline void signal_sleepers(gerfmuod_team *team, uint32_t signals) {
    if (signals == 1) pthread_cond_signal(&team->news);
    else if (signals) pthread_cond_broadcast(&team->news);
}

/* Makes a call while the lock is held, and signals as it says. */
static inline gerfmuod_graph_result ask(gerfmuod_team *team, uint32_t call, uint32_t first, uint32_t second) {
    gerfmuod_graph_result answer = gerfmuod_graph_call(&team->graph, call, first, second);
    signal_sleepers(team, answer.signals);
    return answer;
}

/* The same with the lock. */
static gerfmuod_graph_result ask_alone(gerfmuod_team *team, uint32_t call, uint32_t first) {
    acquire(team);
    gerfmuod_graph_result answer = ask(team, call, first, 0);
    release(team);
    return answer;
}

static uint32_t open_team(gerfmuod_team **opened, bool is_traced) {
    gerfmuod_team *team = *opened = calloc(1, sizeof *team);
    bool has_lock = team && !pthread_mutex_init(&team->lock, NULL);
    bool has_news = has_lock && !pthread_cond_init(&team->news, NULL);
    if (!has_news || !crew_open(&team->crew)) {
        if (has_news) pthread_cond_destroy(&team->news);
        if (has_lock) pthread_mutex_destroy(&team->lock);
        free(team), *opened = NULL;
        return GERFMUOD_REFUSED_NO_MEMORY;
    }
    team->processors = processors(), team->is_traced = is_traced;
    gerfmuod_graph_open(&team->graph, is_traced, team->processors);
    return GERFMUOD_OK;
}

uint32_t gerfmuod_team_open(gerfmuod_team **team) { return open_team(team, false); }
uint32_t gerfmuod_team_open_traced(gerfmuod_team **team) { return open_team(team, true); }

void gerfmuod_team_close(gerfmuod_team *team) {
    if (!team) return;
    gerfmuod_team_stop(team, GERFMUOD_GRAPH_NONE); /* a run of gerfmuod_team_run_async, if there is one */
    crew_wait(&team->crew, -1), crew_close(&team->crew);
    ask(team, GERFMUOD_GRAPH_CLOSE, 0, 0);
    profile_close(team->profile);
    pthread_cond_destroy(&team->news), pthread_mutex_destroy(&team->lock);
    free(team);
}

uint32_t gerfmuod_team_task(gerfmuod_team *team, uint32_t class_, const uint32_t *inputs, size_t count, uint32_t *number) {
    return gerfmuod_team_spawn(team, class_, inputs, count, 0, NULL, NULL, number);
}

uint32_t gerfmuod_team_describe(gerfmuod_team *team, uint32_t tasks, const uint8_t *classes, const uint32_t *offsets,
                                const uint32_t *inputs, uint32_t *at) {
    gerfmuod_graph_result answer = {GERFMUOD_REFUSED_NO_MEMORY, 0, 0, 0};
    size_t count = inputs ? offsets[tasks] : 0;
    acquire(team);
    struct profile *profile = team->profile;
    if (!profile || profile_reserve(profile, tasks, count))
        answer = gerfmuod_graph_describe(&team->graph, classes, classes ? tasks : 0, offsets, (size_t)tasks + 1, inputs, count);
    for (uint32_t t = 0; profile && t < tasks && !answer.refused; t++)
        profile_describe(profile, classes ? classes[t] : 0, inputs ? inputs + offsets[t] : NULL, offsets[t + 1] - offsets[t]);
    release(team);
    if (at) *at = answer.number;
    return answer.refused;
}

/* Gives the caller the number of a task that was added, unless it was refused, and releases the lock. */
static uint32_t spawned(gerfmuod_team *team, gerfmuod_graph_result answer, gerfmuod_team_attach attach, void *data, uint32_t *number) {
    if (!answer.refused) {
        if (number) *number = answer.number;
        if (attach) attach(data, answer.number);
        signal_sleepers(team, answer.signals);
    }
    release(team);
    return answer.refused;
}

uint32_t gerfmuod_team_spawn(gerfmuod_team *team, uint32_t class_, const uint32_t *inputs, size_t count, uint32_t outside,
                             gerfmuod_team_attach attach, void *data, uint32_t *number) {
    gerfmuod_graph_result answer = {GERFMUOD_REFUSED_NO_MEMORY, 0, 0, 0};
    acquire(team);
    struct profile *profile = team->profile;
    if (!profile || profile_reserve(profile, 1, count)) answer = gerfmuod_graph_spawn(&team->graph, class_, inputs, count, outside);
    if (!answer.refused && profile) profile_describe(profile, class_, inputs, count);
    return spawned(team, answer, attach, data, number);
}

uint32_t gerfmuod_team_task_on(gerfmuod_team *team, uint32_t class_, const gerfmuod_access *accesses, size_t count, uint32_t outside,
                               gerfmuod_team_attach attach, void *data, uint32_t *number) {
    gerfmuod_graph_result answer = {GERFMUOD_REFUSED_NO_MEMORY, 0, 0, 0};
    acquire(team);
    struct profile *profile = team->profile;
    if (!profile || profile_reserve(profile, 1, 0)) answer = gerfmuod_graph_task(&team->graph, class_, accesses, count, outside);
    if (!answer.refused && profile) profile_describe(profile, class_, NULL, 0), profile->lacks_inputs = true;
    return spawned(team, answer, attach, data, number);
}

uint32_t gerfmuod_team_handle(gerfmuod_team *team, uint32_t *handle) {
    gerfmuod_graph_result answer = ask_alone(team, GERFMUOD_GRAPH_HANDLE, 0);
    if (!answer.refused) *handle = answer.number;
    return answer.refused;
}
uint32_t gerfmuod_team_outside(gerfmuod_team *team, uint32_t task) { return ask_alone(team, GERFMUOD_GRAPH_OUTSIDE, task).refused; }
uint32_t gerfmuod_team_release(gerfmuod_team *team, uint32_t task) { return ask_alone(team, GERFMUOD_GRAPH_RELEASE, task).refused; }

/* Releases the lock, pauses, and takes it when it is free, or when no pauses are left. Returns how many are. */
static uint32_t spin(gerfmuod_team *team, uint32_t polls) {
    release(team);
    polls = poll_lock(&team->lock, polls);
    if (!polls) acquire(team);
    return polls;
}

/* Reports a task, and asks for the next one, while the lock is held. */
static inline gerfmuod_graph_result begin_turn(gerfmuod_team *team, uint32_t done, uint32_t polls, uint64_t begun) {
    struct profile *profile = team->profile;
    if (profile) profile_end_body(profile, done, begun);
    gerfmuod_graph_result answer = ask(team, GERFMUOD_GRAPH_TURN, done, polls);
    if (profile && !answer.refused && done != GERFMUOD_GRAPH_NONE) profile->tasks[done].is_done = true;
    return answer;
}

/* Waits while the graph says so, and releases the lock. */
static inline gerfmuod_graph_result end_turn(gerfmuod_team *team, gerfmuod_graph_result answer, uint64_t begun) {
    struct profile *profile = team->profile; /* the same until the turn returns */
    uint64_t waited = 0;
    uint32_t polls = SPINS;
    while (answer.next == GERFMUOD_GRAPH_SPIN || answer.next == GERFMUOD_GRAPH_SLEEP) {
        bool is_spin = answer.next == GERFMUOD_GRAPH_SPIN;
        if (!waited) waited = ticks_now(team->clock);
        if (is_spin) polls = spin(team, polls);
        else pthread_cond_wait(&team->news, &team->lock);
        answer = ask(team, is_spin ? GERFMUOD_GRAPH_TURN_SPUN : GERFMUOD_GRAPH_TURN_WOKEN, GERFMUOD_GRAPH_NONE, polls);
    }
    if (profile) profile_end_turn(profile, answer.next == GERFMUOD_GRAPH_RUN ? answer.number : GERFMUOD_GRAPH_NONE, begun, waited);
    release(team);
    return answer;
}

gerfmuod_graph_result gerfmuod_team_turn(gerfmuod_team *team, uint32_t done) {
    uint64_t begun = ticks_now(team->clock);
    acquire(team);
    return end_turn(team, begin_turn(team, done, SPINS, begun), begun);
}

/* For the graph the thread sleeps until it comes back. A signal in between may wake no thread, but this one then asks by itself. */
gerfmuod_graph_result gerfmuod_team_try_turn(gerfmuod_team *team, uint32_t done) {
    uint64_t begun = ticks_now(team->clock);
    acquire(team);
    gerfmuod_graph_result answer = begin_turn(team, done, 0, begun);
    if (answer.next != GERFMUOD_GRAPH_SLEEP) return end_turn(team, answer, begun);
    release(team);
    return answer;
}

gerfmuod_graph_result gerfmuod_team_await_turn(gerfmuod_team *team) {
    uint64_t begun = ticks_now(team->clock);
    acquire(team);
    return end_turn(team, ask(team, GERFMUOD_GRAPH_TURN_WOKEN, GERFMUOD_GRAPH_NONE, SPINS), begun);
}

void gerfmuod_team_stop(gerfmuod_team *team, uint32_t task) {
    uint64_t now = ticks_now(team->clock);
    acquire(team);
    if (team->profile) profile_end_body(team->profile, task, now);
    ask(team, GERFMUOD_GRAPH_STOP, task, 0);
    release(team);
}

uint32_t gerfmuod_team_left(gerfmuod_team *team) { return ask_alone(team, GERFMUOD_GRAPH_LEFT, 0).number; }
uint32_t gerfmuod_team_fault(gerfmuod_team *team) { return ask_alone(team, GERFMUOD_GRAPH_FAULT, 0).refused; }
uint32_t gerfmuod_team_failed(gerfmuod_team *team) {
    gerfmuod_graph_result fault = ask_alone(team, GERFMUOD_GRAPH_FAULT, 0);
    return fault.refused ? fault.number : GERFMUOD_GRAPH_NONE;
}

/* Returns why no run may be started, while the lock is held. A start without a thread is always refused, for that as the last reason. */
static uint32_t start_refusal(gerfmuod_team *team, uint32_t threads) {
    uint32_t refused = ask(team, GERFMUOD_GRAPH_START, 0, 0).refused;
    return threads && refused == GERFMUOD_REFUSED_NO_THREAD ? GERFMUOD_OK : refused;
}

/* Starts a run, while the lock is held. */
static uint32_t start(gerfmuod_team *team, uint32_t threads) {
    struct profile *profile = team->profile;
    uint32_t refused = start_refusal(team, threads);
    if (!refused && profile && !profile_open_rings(profile, threads)) refused = GERFMUOD_REFUSED_NO_MEMORY;
    if (!refused) refused = ask(team, GERFMUOD_GRAPH_START, threads, 0).refused;
    if (!refused) team->threads = threads;
    if (!refused && profile) profile_start(profile);
    return refused;
}

uint32_t gerfmuod_team_start(gerfmuod_team *team, uint32_t threads) {
    acquire(team);
    uint32_t refused = start(team, threads);
    release(team);
    return refused;
}

static void run_tasks(void *argument) {
    gerfmuod_team *team = argument;
    uint32_t done = GERFMUOD_GRAPH_NONE;
    for (;;) {
        gerfmuod_graph_result answer = gerfmuod_team_turn(team, done);
        if (answer.next != GERFMUOD_GRAPH_RUN) return;
        done = answer.number;
        if (team->body(team->context, done)) break;
    }
    gerfmuod_team_stop(team, done);
}

/* Starts a run on `threads` threads, of which the crew has some. No body runs before it is known whether there are enough. */
static uint32_t start_with_crew(gerfmuod_team *team, uint32_t threads, uint32_t members, gerfmuod_team_body body, void *context) {
    bool is_free = crew_wait(&team->crew, 0);
    acquire(team);
    uint32_t refused = is_free ? start_refusal(team, threads) : GERFMUOD_REFUSED_RUNNING;
    release(team);
    if (!refused) refused = crew_grow(&team->crew, members);
    if (!refused) team->body = body, team->context = context, refused = gerfmuod_team_start(team, threads);
    if (!refused) crew_call(&team->crew, members, threads <= team->processors, run_tasks, team);
    return refused;
}

uint32_t gerfmuod_team_run(gerfmuod_team *team, uint32_t threads, gerfmuod_team_body body, void *context) {
    uint32_t refused = start_with_crew(team, threads, threads - 1, body, context);
    if (refused) return refused;
    run_tasks(team);
    crew_recall(&team->crew);
    return gerfmuod_team_wait(team, GERFMUOD_TEAM_NO_LIMIT);
}

uint32_t gerfmuod_team_run_async(gerfmuod_team *team, uint32_t threads, gerfmuod_team_body body, void *context) {
    return start_with_crew(team, threads, threads, body, context);
}

uint32_t gerfmuod_team_wait(gerfmuod_team *team, uint32_t milliseconds) {
    bool have_left = crew_wait(&team->crew, milliseconds == GERFMUOD_TEAM_NO_LIMIT ? -1 : (int64_t)milliseconds);
    return have_left ? gerfmuod_team_fault(team) : GERFMUOD_REFUSED_RUNNING;
}

/* Prepares the next run by a call of the graph. */
static uint32_t prepare(gerfmuod_team *team, uint32_t call) {
    bool is_free = crew_wait(&team->crew, 0);
    acquire(team);
    uint32_t refused = is_free ? ask(team, call, 0, 0).refused : GERFMUOD_REFUSED_RUNNING;
    if (!refused && team->profile) team->profile->has_run = false;
    release(team);
    return refused;
}

uint32_t gerfmuod_team_again(gerfmuod_team *team) { return prepare(team, GERFMUOD_GRAPH_AGAIN); }
uint32_t gerfmuod_team_reset(gerfmuod_team *team) { return prepare(team, GERFMUOD_GRAPH_RESET); }

/* Which call finds a turn that has not returned depends on a fault: MAY_RECORD would be refused as that, and RESET visits each task. */
uint32_t gerfmuod_team_clear(gerfmuod_team *team) {
    bool is_free = crew_wait(&team->crew, 0);
    acquire(team);
    uint32_t call = ask(team, GERFMUOD_GRAPH_FAULT, 0, 0).refused ? GERFMUOD_GRAPH_RESET : GERFMUOD_GRAPH_MAY_RECORD;
    is_free = is_free && ask(team, call, 0, 0).refused != GERFMUOD_REFUSED_RUNNING;
    if (is_free) {
        struct profile *profile = team->profile;
        ask(team, GERFMUOD_GRAPH_CLOSE, 0, 0);
        gerfmuod_graph_open(&team->graph, team->is_traced, team->processors);
        if (profile) profile->has_run = profile->lacks_inputs = false, profile->task_count = profile->edge_count = 0;
    }
    release(team);
    return is_free ? GERFMUOD_OK : GERFMUOD_REFUSED_RUNNING;
}

uint32_t gerfmuod_team_record(gerfmuod_team *team, uint32_t slices) {
    struct profile *profile = NULL;
    bool is_free = crew_wait(&team->crew, 0);
    acquire(team);
    uint32_t refused = is_free ? ask(team, GERFMUOD_GRAPH_MAY_RECORD, 0, 0).refused : GERFMUOD_REFUSED_RUNNING;
    if (!refused && ask(team, GERFMUOD_GRAPH_COUNT, 0, 0).number) refused = GERFMUOD_REFUSED_WRONG_LIFE;
    if (!refused && slices && !(profile = profile_open(slices))) refused = GERFMUOD_REFUSED_NO_MEMORY;
    if (!refused) profile_close(team->profile), team->profile = profile, team->clock = profile ? profile->clock : NO_CLOCK;
    release(team);
    return refused;
}

/* Writes a text about a run that ended, or was ended by a fault, and was recorded. */
static uint32_t write_recorded(gerfmuod_team *team, FILE *file, void (*write)(FILE *, const struct profile *)) {
    acquire(team);
    uint32_t refused = ask(team, GERFMUOD_GRAPH_FAULT, 0, 0).refused ? GERFMUOD_OK : start_refusal(team, 1);
    if (refused == GERFMUOD_REFUSED_RUNNING || refused == GERFMUOD_REFUSED_WRONG_LIFE) refused = GERFMUOD_REFUSED_RUNNING;
    else if (!team->profile || !team->profile->has_run) refused = GERFMUOD_REFUSED_WRONG_LIFE;
    else refused = profile_times(team->profile) ? GERFMUOD_OK : GERFMUOD_REFUSED_NO_MEMORY;
    if (!refused) {
        write(file, team->profile);
        if (fflush(file) || ferror(file)) refused = GERFMUOD_REFUSED_NOT_WRITTEN;
    }
    release(team);
    return refused;
}

uint32_t gerfmuod_team_profile(gerfmuod_team *team, FILE *file) { return write_recorded(team, file, profile_write); }
uint32_t gerfmuod_team_summary(gerfmuod_team *team, FILE *file) { return write_recorded(team, file, profile_summarize); }

/* Writes lines, which may have a task's number, at a place of a buffer, as far as there is room. Returns the place after them. */
static size_t print(char *buffer, size_t length, size_t at, const char *lines, uint32_t task) {
    size_t left = at < length ? length - at : 0;
    return at + (size_t)snprintf(left ? buffer + at : NULL, left, lines, task);
}

size_t gerfmuod_team_trace(gerfmuod_team *team, char *buffer, size_t length) {
    gerfmuod_graph_result event;
    if (length) *buffer = 0;
    if (!team->is_traced) return 0;
    acquire(team);
    uint32_t tasks = ask(team, GERFMUOD_GRAPH_COUNT, 0, 0).number;
    size_t at = print(buffer, length, 0, "trace 1\nnodes 1\n", 0);
    for (uint32_t t = 0; t < tasks; t++) at = print(buffer, length, at, "insert 0 %u 0\n", t);
    at = print(buffer, length, at, "ready 0\n", 0);
    for (uint32_t k = 0; (event = ask(team, GERFMUOD_GRAPH_EVENT, k, 0)).next; k++)
        at = print(buffer, length, at, event.next == 1 ? "begin %u\n" : "done %u\n", event.number);
    if (start_refusal(team, 0) == GERFMUOD_REFUSED_ENDED) /* two waves detect it: their sums are equal, as no message was sent */
        at = print(buffer, length, at, "start\ngive 0\njudge not\nstart\ngive 0\njudge ended 1\n", 0);
    release(team);
    return at;
}
