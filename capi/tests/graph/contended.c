/* contended.c: how often a team retries a lock that another thread holds, before it blocks: not at all with more threads than processors.
 *
 * The linker's --wrap lets this file say whether a lock is held, and how many processors there are. */
#ifndef _GNU_SOURCE
#define _GNU_SOURCE /* cpu_set_t */
#endif
#include <gerfmuod/team.h>
#include <pthread.h>
#include <sched.h>
#include "../cases.h"

enum { PROCESSORS = 3, RETRIES = 60 };

static bool is_held;
static int tries;

int __real_pthread_mutex_trylock(pthread_mutex_t *lock);
int __wrap_pthread_mutex_trylock(pthread_mutex_t *lock);
int __wrap_pthread_mutex_trylock(pthread_mutex_t *lock) { return tries++, is_held ? 1 : __real_pthread_mutex_trylock(lock); }

int __wrap_sched_getaffinity(pid_t process, size_t size, cpu_set_t *set);
int __wrap_sched_getaffinity(pid_t process, size_t size, cpu_set_t *set) {
    (void)process;
    CPU_ZERO_S(size, set);
    for (int k = 0; k < PROCESSORS; k++) CPU_SET_S(k, size, set);
    return 0;
}

/* Returns how often a call on a team tries the lock while it is held. */
static int tries_of_a_call(gerfmuod_team *team) {
    tries = 0, is_held = true;
    uint32_t left = gerfmuod_team_left(team);
    is_held = false;
    assert_int_equal(left, 1);
    return tries;
}

/* Checks the second call of a team with these threads: a thread remembers how it was when it last met a lock that was held. */
static void check_tries(uint32_t threads, int expected) {
    gerfmuod_team *team;
    assert_int_equal(gerfmuod_team_open(&team), 0);
    assert_int_equal(gerfmuod_team_task(team, 0, NULL, 0, NULL), 0);
    assert_int_equal(gerfmuod_team_start(team, threads), 0);
    (void)tries_of_a_call(team);
    assert_int_equal(tries_of_a_call(team), expected);
    gerfmuod_team_close(team);
}

CASE(a_lock_is_retried_by_as_many_threads_as_processors) {
    check_tries(PROCESSORS, 1 + RETRIES);
    check_tries(PROCESSORS + 1, 1);
    check_tries(1, 1 + RETRIES);
}

int main(void) {
    const struct CMUnitTest cases[] = {cmocka_unit_test(a_lock_is_retried_by_as_many_threads_as_processors)};
    return RUN(cases);
}
