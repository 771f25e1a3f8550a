/* gerfmuod_crew.h: threads that stay between the runs of a team, a part of gerfmuod_team.c. C over pthreads, not proved.
 *
 * A crew has members, which wait until all of the first ones are called to do the same: one run of a team. A lock of its own
 * protects its fields; it is never held while a member acts, nor while the team's lock is taken. */
#ifndef GERFMUOD_CREW_H
#define GERFMUOD_CREW_H

#include "gerfmuod_lock.h"

#include <stdlib.h>
#include <time.h>

/* How often a member, or the thread that waits for all of them, polls for a change before it sleeps, and the pauses of the
 * processor in between: some 50 microseconds in all. To wake a thread that sleeps takes as long. */
enum { CREW_POLLS = 100, CREW_PAUSES = 16 };

struct crew;

struct member {
    struct member *next;
    struct crew *crew;
    pthread_t thread;
    uint32_t number; /* from 0, in the order of creation */
    uint32_t seen;   /* the newest call that it knows */
};

struct crew {
    pthread_mutex_t lock;
    pthread_cond_t called, left; /* members wait for a call, and the caller until all have left it */
    struct member *members;      /* the newest first */
    uint32_t count;              /* of the members */
    uint32_t calls;              /* how often they were called */
    uint32_t wanted;             /* by the last call: members of lower numbers act */
    uint32_t come;               /* how many of these have begun to act */
    uint32_t inside;             /* how many are awaited: they have not left it */
    uint32_t polls;              /* CREW_POLLS, or 0 if there are more threads than processors */
    bool is_closing;
    void (*act)(void *argument);
    void *argument;
};

/* Releases and acquires the lock, if there is a poll left. Returns whether there was. */
static bool crew_poll(struct crew *crew, uint32_t *polls) {
    if (*polls == 0) return false;
    --*polls;
    pthread_mutex_unlock(&crew->lock);
    pause_for(CREW_PAUSES);
    pthread_mutex_lock(&crew->lock);
    return true;
}

static void *be_member(void *argument) {
    struct member *member = argument;
    struct crew *crew = member->crew;
    pthread_mutex_lock(&crew->lock);
    for (;;) {
        uint32_t polls = crew->polls;
        while (member->seen == crew->calls && !crew->is_closing)
            if (!crew_poll(crew, &polls)) pthread_cond_wait(&crew->called, &crew->lock);
        if (crew->is_closing) break;
        member->seen = crew->calls;
        if (member->number >= crew->wanted) continue;
        crew->come++;
        pthread_mutex_unlock(&crew->lock);
        crew->act(crew->argument); /* both stay until this member has left */
        pthread_mutex_lock(&crew->lock);
        if (--crew->inside == 0) pthread_cond_signal(&crew->left);
    }
    pthread_mutex_unlock(&crew->lock);
    return NULL;
}

/* Opens a crew without members. Returns whether the system could. */
static bool crew_open(struct crew *crew) {
    pthread_condattr_t monotonic;
    if (pthread_mutex_init(&crew->lock, NULL)) return false;
    bool has_called = !pthread_cond_init(&crew->called, NULL), has_left = false;
    if (has_called && !pthread_condattr_init(&monotonic)) {
        has_left = !pthread_condattr_setclock(&monotonic, CLOCK_MONOTONIC) && !pthread_cond_init(&crew->left, &monotonic);
        pthread_condattr_destroy(&monotonic);
    }
    if (has_left) return true;
    if (has_called) pthread_cond_destroy(&crew->called);
    pthread_mutex_destroy(&crew->lock);
    return false;
}

/* Creates members until there are `wanted`. Returns GERFMUOD_OK, or why there are fewer. */
static uint32_t crew_grow(struct crew *crew, uint32_t wanted) {
    uint32_t refused = GERFMUOD_OK;
    pthread_mutex_lock(&crew->lock);
    while (!refused && crew->count < wanted) {
        struct member *member = malloc(sizeof *member);
        if (member) *member = (struct member){.next = crew->members, .crew = crew, .number = crew->count, .seen = crew->calls};
        if (!member) refused = GERFMUOD_REFUSED_NO_MEMORY;
        else if (pthread_create(&member->thread, NULL, be_member, member)) free(member), refused = GERFMUOD_REFUSED_NOT_STARTED;
        else crew->members = member, crew->count++;
    }
    pthread_mutex_unlock(&crew->lock);
    return refused;
}

/* Calls the first members, as many as are wanted and are there, to act. No earlier call may have members in it. */
static void crew_call(struct crew *crew, uint32_t wanted, bool may_poll, void (*act)(void *), void *argument) {
    pthread_mutex_lock(&crew->lock);
    crew->wanted = crew->inside = wanted, crew->come = 0;
    crew->polls = may_poll ? CREW_POLLS : 0;
    crew->act = act, crew->argument = argument;
    crew->calls++;
    if (wanted) pthread_cond_broadcast(&crew->called);
    pthread_mutex_unlock(&crew->lock);
}

/* What members were called for is over: those that have not come yet need not, as a thread that sleeps may take 50 microseconds. */
static inline void crew_recall(struct crew *crew) {
    pthread_mutex_lock(&crew->lock);
    crew->inside -= crew->wanted - crew->come;
    crew->wanted = crew->come = 0;
    pthread_mutex_unlock(&crew->lock);
}

/* Waits until all members have left the last call, or, unless it is negative, that many milliseconds. Returns whether they have. */
static bool crew_wait(struct crew *crew, int64_t milliseconds) {
    struct timespec until;
    clock_gettime(CLOCK_MONOTONIC, &until);
    until.tv_sec += milliseconds < 0 ? 0 : (time_t)(milliseconds / 1000);
    until.tv_nsec += milliseconds < 0 ? 0 : (long)(milliseconds % 1000) * 1000000;
    if (until.tv_nsec >= 1000000000) until.tv_nsec -= 1000000000, until.tv_sec++;
    pthread_mutex_lock(&crew->lock);
    uint32_t polls = milliseconds ? crew->polls : 0;
    while (crew->inside && crew_poll(crew, &polls)) {}
    if (milliseconds < 0) while (crew->inside) pthread_cond_wait(&crew->left, &crew->lock);
    else while (crew->inside && !pthread_cond_timedwait(&crew->left, &crew->lock, &until)) {}
    bool have_left = crew->inside == 0;
    pthread_mutex_unlock(&crew->lock);
    return have_left;
}

/* Ends all members, which have left the last call. */
static void crew_close(struct crew *crew) {
    pthread_mutex_lock(&crew->lock);
    crew->is_closing = true;
    pthread_cond_broadcast(&crew->called);
    pthread_mutex_unlock(&crew->lock);
    for (struct member *member = crew->members, *next; member; member = next) {
        next = member->next;
        pthread_join(member->thread, NULL);
        free(member);
    }
    pthread_cond_destroy(&crew->left), pthread_cond_destroy(&crew->called), pthread_mutex_destroy(&crew->lock);
}
#endif
