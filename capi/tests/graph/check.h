/* check.h: the checks of the tests of task graphs, with cmocka: each says what it is about. */
#ifndef CHECK_H
#define CHECK_H
#include "../cases.h"
#include <gerfmuod/team.h>
#include <time.h>

#define check(what, holds) check_that(holds, "%s", what)

/* Compares a refusal with the expected one. */
#define check_refusal(what, got, wanted) compare_refusals(__FILE__, __LINE__, what, got, wanted)
static inline void compare_refusals(const char *file, int line, const char *what, uint32_t got, uint32_t wanted) {
    const char *text = gerfmuod_refusal_text(got), *wanted_text = gerfmuod_refusal_text(wanted);
    check_text(file, line, got == wanted, "%s: %u (%s), expected %u (%s)", what, got, text, wanted, wanted_text);
}
#define check_ok(what, got) check_refusal(what, got, GERFMUOD_OK)

static inline gerfmuod_team *new_team(void) {
    gerfmuod_team *team;
    check_ok("open", gerfmuod_team_open(&team));
    return team;
}

/* A body. */
static inline int nothing(void *context, uint32_t task) {
    (void)context, (void)task;
    return 0;
}

static inline void sleep_for(long nanoseconds) { nanosleep(&(struct timespec){.tv_nsec = nanoseconds}, NULL); }

/* A thread of the program that takes turns until it has to leave, and does nothing else; returns why it was refused. */
static inline uint32_t take_turns(gerfmuod_team *team) {
    gerfmuod_graph_result answer = gerfmuod_team_turn(team, GERFMUOD_GRAPH_NONE);
    while (answer.next == GERFMUOD_GRAPH_RUN) answer = gerfmuod_team_turn(team, answer.number);
    return answer.refused;
}
#endif
