/* gerfmuod_lock.h: how the parts of the library in C wait for a lock that is held, and for news: pauses of the processor that grow. */
#ifndef GERFMUOD_LOCK_H
#define GERFMUOD_LOCK_H

#include <pthread.h>
#include <sched.h>
#include <stdbool.h>
#include <stdint.h>
#include <unistd.h>

/* What is rare is not inlined: a team that does not record has to be as fast as without its profile. */
#define NOINLINE __attribute__((noinline))

/* The pauses of the processor between the polls of a thread in one turn before it sleeps: 10 to 100 microseconds. They grow. */
enum { SPINS = 2000, FIRST_POLL = 16, MOST_POLL = 128 };

/* How often a contended lock is retried before the thread blocks, and the pauses of the processor before the first retry and,
 * doubled each time, at most: 8 to 80 microseconds in all. A turn mostly holds the lock for less than half a microsecond; blocking
 * and being woken costs more. */
enum { TRIES = 60, FIRST_PAUSES = 4, MOST_PAUSES = 32 };

static inline void pause_for(uint32_t pauses) {
    for (; pauses > 0; pauses--) {
#if defined(__x86_64__) || defined(__i386__)
        __builtin_ia32_pause();
#elif defined(__aarch64__)
        __asm__ volatile("yield");
#endif
    }
}

/* Acquires a lock that is held: retries it, and blocks in the end. With more threads than processors the one that holds it may not be
 * running, and a thread that retries would keep it from that: then it does not retry. */
static inline void acquire_after_pauses(pthread_mutex_t *lock, bool is_crowded) {
    bool has_lock = false;
    for (uint32_t tries = is_crowded ? 0 : TRIES, pauses = FIRST_PAUSES; tries > 0 && !has_lock; tries--) {
        pause_for(pauses);
        has_lock = !pthread_mutex_trylock(lock);
        if (pauses < MOST_PAUSES) pauses *= 2;
    }
    if (!has_lock) pthread_mutex_lock(lock);
}

/* Pauses, and takes a lock when it is free, or says that no pauses are left: then it is not taken. Returns how many are left. */
static inline uint32_t poll_lock(pthread_mutex_t *lock, uint32_t polls) {
    while (polls > 0) {
        uint32_t pauses = SPINS - polls + FIRST_POLL; /* as many as there were, and the first ones */
        if (pauses > MOST_POLL) pauses = MOST_POLL;
        if (pauses > polls) pauses = polls;
        pause_for(pauses);
        polls -= pauses;
        if (polls && !pthread_mutex_trylock(lock)) break;
    }
    return polls;
}

/* The number of processors that this process may use. */
static inline uint32_t processors(void) {
#ifdef __linux__
    cpu_set_t set;
    if (sched_getaffinity(0, sizeof set, &set) == 0) return (uint32_t)CPU_COUNT(&set);
#endif
    long online = sysconf(_SC_NPROCESSORS_ONLN);
    return online > 0 ? (uint32_t)online : 1;
}
#endif
