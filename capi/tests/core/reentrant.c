/* reentrant.c: calls on a core from inside of a call on it, as a malloc that reports to the core would make them. Each of them has
 * to be refused as Busy, and the call that runs has to return what it returns without them. */
#include "../cases.h"
#include "../wrap.h"
#include <gerfmuod/core.h>

static gerfmuod_core core;
static uint32_t expected;   /* the refusal of calls from inside; 0: no call is made */
static unsigned from_inside; /* how often all calls were made */

WRAP(void *, malloc, (size_t bytes));
WRAP(void *, realloc, (void *old, size_t bytes));
WRAP(void, free, (void *old));

/* Makes each call on the core that a call may run on, unless this is a call of malloc from inside of such a call. */
static void call_all(void) {
    const gerfmuod_step events[2] = {{GERFMUOD_STEP_READY, 0, 0, 0, 0}, {GERFMUOD_STEP_READY, 0, 0, 0, 0}};
    gerfmuod_step_result answers[2] = {{0, 0, 0, 0, 0}, {9, 9, 9, 9, 9}};
    const uint32_t why = expected;
    char room[8];
    if (!why) return;
    expected = 0;
    from_inside++;
    assert_int_equal(gerfmuod_core_step(&core, GERFMUOD_STEP_READY, 0, 0, 0, 0).refused, why);
    assert_int_equal(gerfmuod_core_insert(&core, 0, 1, 99).refused, why);
    assert_true(gerfmuod_core_step_by(&core, 9, 0, 99, 0, 0, 0, 0).refused == why && gerfmuod_core_done_at(&core, 0, 1).refused == why);
    assert_true(gerfmuod_core_steps(&core, events, 2, answers, 2) == 0 && answers[0].refused == why && answers[1].refused == 9);
    assert_true(gerfmuod_core_steps(&core, NULL, 0, NULL, 0) == 0 && gerfmuod_core_steps(&core, events, 2, NULL, 0) == 0);
    assert_true(gerfmuod_core_settle(&core).refused == why && gerfmuod_core_restart(&core) == why && gerfmuod_core_close(&core) == why);
    assert_int_equal(gerfmuod_core_reserve(&core, 5000, 500, 50), why);
    assert_true(gerfmuod_core_counters(&core, 0).refused == why && gerfmuod_core_counters(&core, 9).refused == why);
    assert_true(gerfmuod_core_left(&core, 0, 9).refused == why && gerfmuod_core_left(&core, 0, 9).state == GERFMUOD_LEFT_NONE);
    gerfmuod_status all = gerfmuod_core_status(&core);
    assert_true(!all.is_quiet && all.steps == 0 && all.steps_left == 0 && all.in_flight == 0);
    assert_int_equal(gerfmuod_core_trace(&core, room, sizeof room).outcome, GERFMUOD_NO_TEXT);
    expected = why;
}

void *__wrap_malloc(size_t bytes) {
    call_all();
    return __real_malloc(bytes);
}

void *__wrap_realloc(void *old, size_t bytes) {
    call_all();
    return __real_realloc(old, bytes);
}

void __wrap_free(void *old) {
    call_all();
    __real_free(old);
}

/* A call that allocates or frees: calls from inside of it were refused, and it left the core open, or closed it. */
#define INSIDE(call, why)                                                                                              \
    do {                                                                                                               \
        unsigned before = from_inside;                                                                                 \
        expected = (why);                                                                                              \
        assert_true(call);                                                                                             \
        expected = 0;                                                                                                  \
        assert_true(from_inside > before);                                                                             \
    } while (0)

/* Inserts tasks and sends a message, in single calls and in one. */
CASE(steps_that_allocate) {
    const gerfmuod_step events[3] = {{GERFMUOD_STEP_INSERT, 1, 4000, 0, 0},
                                      {GERFMUOD_STEP_INSERT, 1, 40000, 0, 0},
                                      {GERFMUOD_STEP_INSERT, 9, 400000, 0, 0}};
    gerfmuod_step_result answers[3];
    INSIDE(gerfmuod_core_insert(&core, 0, 7, 0).refused == 0, GERFMUOD_REFUSED_BUSY);
    INSIDE(gerfmuod_core_insert_by(&core, GERFMUOD_BY_OPENING, 0, 0, 70000, 0).refused == 0, GERFMUOD_REFUSED_BUSY);
    INSIDE(gerfmuod_core_send(&core, 0, 1, 5, GERFMUOD_FIRST_GENERATION).refused == 0, GERFMUOD_REFUSED_BUSY);
    INSIDE(gerfmuod_core_steps(&core, events, 3, answers, 3) == 2, GERFMUOD_REFUSED_BUSY);
    INSIDE(gerfmuod_core_reserve(&core, 10, 500, 0) == 0, GERFMUOD_REFUSED_BUSY);
    assert_true(answers[0].refused == 0 && answers[1].refused == 0 && answers[2].refused == GERFMUOD_REFUSED_NO_NODE);
    assert_int_equal(gerfmuod_core_status(&core).steps, 5);
    assert_true(gerfmuod_core_counters(&core, 0).pending == 3 && gerfmuod_core_counters(&core, 1).pending == 3);
}

/* Ends all that is left. Settling needs more than the first 1,024 steps, for which there is memory. */
CASE(steps_up_to_the_end) {
    const uint32_t tasks[] = {7, 70000, 4000, 40000};
    for (uint32_t k = 0; k < 4; k++) {
        assert_int_equal(gerfmuod_core_begin(&core, tasks[k]).refused, 0);
        assert_int_equal(gerfmuod_core_done(&core, tasks[k]).refused, 0);
    }
    assert_int_equal(gerfmuod_core_receive(&core, 1, 5, GERFMUOD_FIRST_GENERATION).refused, 0);
    assert_int_equal(gerfmuod_core_message_end(&core, 1, 5, GERFMUOD_FIRST_GENERATION).refused, 0);
    while (gerfmuod_core_status(&core).steps < 1021)
        assert_true(gerfmuod_core_action_open(&core, 0, 3).refused == 0 && gerfmuod_core_action_close(&core, 0, 3).refused == 0);
    assert_true(gerfmuod_core_ready(&core, 0).refused == 0 && gerfmuod_core_ready(&core, 1).event == GERFMUOD_EVENT_QUIET);
}

CASE(settling) { INSIDE(gerfmuod_core_settle(&core).refused == 0, GERFMUOD_REFUSED_BUSY); }

CASE(restart) {
    INSIDE(gerfmuod_core_restart(&core) == 0, GERFMUOD_REFUSED_BUSY);
    assert_true(gerfmuod_core_status(&core).steps == 0 && gerfmuod_core_insert(&core, 0, 7, 0).refused == 0);
}

CASE(closing) {
    INSIDE(gerfmuod_core_close(&core) == 0, GERFMUOD_REFUSED_NO_POOL);
    assert_int_equal(gerfmuod_core_close(&core), GERFMUOD_REFUSED_NO_POOL);
}

/* Each case goes on with the core of the one before. */
int main(void) {
    const struct CMUnitTest cases[] = {cmocka_unit_test(steps_that_allocate), cmocka_unit_test(steps_up_to_the_end),
                                       cmocka_unit_test(settling), cmocka_unit_test(restart), cmocka_unit_test(closing)};
    if (gerfmuod_core_open(&core, 2)) return 1;
    return RUN(cases);
}
