/* limits.c: cores at their limits, with a list of steps and without. A core that is full still detects termination and has a
 * trace, which is sound. Memory is reserved for all steps that it can have, and once more when it is full. The calls that take a
 * const core do not write to it: here its memory is read-only. The others write to its first bytes alone. What is left is listed, up
 * to the highest number. */
#define _DEFAULT_SOURCE
#include "../cases.h"
#include <gerfmuod/core.h>
#include <sys/mman.h>

/* Takes steps until there is room for one more. */
static void fill(gerfmuod_core *core) {
    if (gerfmuod_core_status(core).steps_left % 2 == 0) { /* three steps */
        assert_int_equal(gerfmuod_core_insert(core, 0, 1, 0).refused, 0);
        assert_int_equal(gerfmuod_core_begin(core, 1).refused, 0);
        assert_int_equal(gerfmuod_core_done(core, 1).event, GERFMUOD_EVENT_NONE);
    }
    for (uint32_t left = gerfmuod_core_status(core).steps_left; left > 1; left -= 2) {
        assert_int_equal(gerfmuod_core_status(core).steps_left, left);
        assert_int_equal(gerfmuod_core_action_open(core, 0, 2).refused, 0);
        assert_int_equal(gerfmuod_core_action_close(core, 0, 2).event, GERFMUOD_EVENT_NONE);
    }
}

/* Writes the trace of a core that was settled after a number of steps, and judges it. */
static void traced(const gerfmuod_core *core, uint32_t steps) {
    char audit[256], wanted[32];
    gerfmuod_written asked = gerfmuod_core_trace(core, NULL, 0);
    assert_true(asked.outcome == GERFMUOD_NO_ROOM && asked.length <= 16 + 24 * (size_t)steps);
    char *trace = malloc(asked.length);
    assert_true(trace && gerfmuod_core_trace(core, trace, asked.length).outcome == GERFMUOD_WRITTEN);
    gerfmuod_written judged = gerfmuod_audit(trace, asked.length, audit, sizeof audit);
    int length = snprintf(wanted, sizeof wanted, "steps %u\n", steps);
    assert_true(judged.outcome == GERFMUOD_WRITTEN && length > 0 && !memcmp(audit, wanted, (size_t)length));
    assert_memory_equal(audit + judged.length - 8, "ended ", 6); /* and the number of a wave */
    free(trace);
}

/* Fills a core, if `has_wave` while a wave is open, and settles it. */
static void full(uint32_t nodes, bool has_wave) {
    const uint32_t limit = GERFMUOD_MAX_STEPS - GERFMUOD_SETTLE_STEPS * nodes;
    gerfmuod_core core;
    assert_true(gerfmuod_core_open(&core, nodes) == 0 && gerfmuod_core_status(&core).steps_left == limit);
    assert_int_equal(gerfmuod_core_reserve(&core, UINT32_MAX, UINT32_MAX, UINT32_MAX), 0);
    for (uint32_t node = 1; node < nodes; node++) assert_int_equal(gerfmuod_core_ready(&core, node).refused, 0);
    if (has_wave) assert_int_equal(gerfmuod_core_start(&core).refused, 0);
    fill(&core);
    assert_true(gerfmuod_core_status(&core).steps == limit - 1 && gerfmuod_core_ready(&core, 0).event == GERFMUOD_EVENT_QUIET);
    gerfmuod_step_result more = gerfmuod_core_ready(&core, 9); /* before the checks of the kind */
    assert_true(more.refused == GERFMUOD_REFUSED_HISTORY_FULL && more.number == limit && gerfmuod_core_status(&core).steps_left == 0);
    assert_int_equal(gerfmuod_core_insert(&core, 0, 1, 17).refused, GERFMUOD_REFUSED_BAD_SPEC);
    assert_true(gerfmuod_core_reserve(&core, UINT32_MAX, 0, 0) == 0 && gerfmuod_core_status(&core).steps == limit);
    gerfmuod_settled settled = gerfmuod_core_settle(&core);
    assert_true(settled.refused == 0 && settled.steps > 0 && settled.steps <= GERFMUOD_SETTLE_STEPS * nodes);
    assert_int_equal(gerfmuod_core_settle(&core).refused, GERFMUOD_REFUSED_ENDED);
    assert_int_equal(gerfmuod_core_status(&core).steps, limit + settled.steps);
    traced(&core, limit + settled.steps);
    assert_true(gerfmuod_core_reopen(&core).refused == GERFMUOD_REFUSED_HISTORY_FULL && gerfmuod_core_restart(&core) == 0);
    assert_true(gerfmuod_core_status(&core).steps == 0 && gerfmuod_core_status(&core).steps_left == limit);
    gerfmuod_core_close(&core);
}

/* The next task that is left has these fields. */
static void is_left(const gerfmuod_core *core, uint32_t from, uint32_t end, uint32_t state, uint32_t number, uint32_t node,
                    uint32_t missing) {
    gerfmuod_left_task left = gerfmuod_core_left(core, from, end);
    assert_true(left.refused == 0 && left.state == state);
    assert_true(left.number == number && left.node == node && left.missing == missing);
}

CASE(tasks_that_are_left) {
    const uint32_t last = UINT32_MAX - 1;
    gerfmuod_core core;
    assert_int_equal(gerfmuod_core_open_unrecorded(&core, 2), 0);
    is_left(&core, 0, 100, GERFMUOD_LEFT_NONE, 0, 0, 0);
    assert_int_equal(gerfmuod_core_insert(&core, 1, 3, 2).refused, 0);
    assert_int_equal(gerfmuod_core_insert(&core, 0, 8, 0).refused, 0);
    assert_int_equal(gerfmuod_core_insert(&core, 1, last, 0).refused, 0);
    is_left(&core, 0, 100, GERFMUOD_LEFT_WAITING, 3, 1, 2);
    assert_true(gerfmuod_core_supply(&core, 3).refused == 0 && gerfmuod_core_begin(&core, 8).refused == 0);
    is_left(&core, 3, 4, GERFMUOD_LEFT_WAITING, 3, 1, 1);
    is_left(&core, 0, 3, GERFMUOD_LEFT_NONE, 0, 0, 0);
    is_left(&core, 4, 3, GERFMUOD_LEFT_NONE, 0, 0, 0);
    is_left(&core, 4, 100, GERFMUOD_LEFT_RUNNING, 8, 0, 0);
    is_left(&core, last - 9, UINT32_MAX, GERFMUOD_LEFT_READY, last, 1, 0);
    assert_true(gerfmuod_core_supply(&core, 3).refused == 0 && gerfmuod_core_done(&core, 8).refused == 0);
    is_left(&core, 0, 100, GERFMUOD_LEFT_READY, 3, 1, 0);
    is_left(&core, 4, 100, GERFMUOD_LEFT_NONE, 0, 0, 0);
    gerfmuod_core_close(&core);
}

CASE(calls_that_only_read) {
    size_t size = 65536;
    gerfmuod_core *core = mmap(NULL, size, PROT_READ | PROT_WRITE, MAP_PRIVATE | MAP_ANONYMOUS, -1, 0);
    static char room[256];
    assert_true(core != MAP_FAILED && gerfmuod_core_open(core, 3) == 0);
    for (uint32_t task = 0; task < 5; task++) assert_int_equal(gerfmuod_core_insert(core, task % 3, task, 0).refused, 0);
    assert_int_equal(mprotect(core, size, PROT_READ), 0);
    assert_true(gerfmuod_core_status(core).steps == 5 && gerfmuod_core_status(core).steps_left > 0 && !gerfmuod_core_status(core).is_quiet);
    assert_true(gerfmuod_core_counters(core, 0).pending == 3 && gerfmuod_core_counters(core, 3).refused == GERFMUOD_REFUSED_NO_NODE);
    assert_int_equal(gerfmuod_core_trace(core, room, sizeof room).outcome, GERFMUOD_WRITTEN);
    is_left(core, 1, 9, GERFMUOD_LEFT_READY, 1, 1, 0);
    assert_int_equal(mprotect(core, size, PROT_READ | PROT_WRITE), 0);
    gerfmuod_core_close(core);
    assert_int_equal(mprotect(core, size, PROT_READ), 0); /* and if it is closed */
    assert_true(gerfmuod_core_status(core).steps == 0 && gerfmuod_core_counters(core, 0).refused == GERFMUOD_REFUSED_NO_POOL);
    assert_int_equal(gerfmuod_core_trace(core, room, sizeof room).outcome, GERFMUOD_NO_TEXT);
    assert_int_equal(gerfmuod_core_left(core, 0, 9).refused, GERFMUOD_REFUSED_NO_POOL);
    munmap(core, size);
}

/* Takes 1,200,000 steps with a core that keeps no list of them, and settles it. */
static void settle_many(gerfmuod_core *core) {
    const uint32_t room = GERFMUOD_MAX_STEPS - GERFMUOD_SETTLE_STEPS * 2;
    char byte = 'x';
    for (uint32_t task = 0; task < 400000; task++) {
        assert_int_equal(gerfmuod_core_insert(core, task % 2, task, 0).refused, 0);
        assert_int_equal(gerfmuod_core_begin(core, task).refused, 0);
        assert_int_equal(gerfmuod_core_done(core, task).event, GERFMUOD_EVENT_NONE);
    }
    assert_int_equal(gerfmuod_core_insert(core, 0, 399999, 0).refused, GERFMUOD_REFUSED_TASK_KNOWN);
    assert_true(gerfmuod_core_status(core).steps == 0 && gerfmuod_core_status(core).steps_left == room);
    assert_true(gerfmuod_core_trace(core, &byte, 1).outcome == GERFMUOD_NO_TEXT && byte == 'x');
    assert_int_equal(gerfmuod_core_settle(core).refused, GERFMUOD_REFUSED_NOT_IDLE);
    assert_true(gerfmuod_core_ready(core, 1).refused == 0 && gerfmuod_core_ready(core, 0).event == GERFMUOD_EVENT_QUIET);
    gerfmuod_settled settled = gerfmuod_core_settle(core);
    assert_true(settled.refused == 0 && settled.wave == 1 && settled.steps == 12);
}

CASE(steps_without_a_list) {
    gerfmuod_core core;
    assert_int_equal(gerfmuod_core_open_unrecorded(&core, 9), GERFMUOD_REFUSED_BAD_SPEC);
    assert_int_equal(gerfmuod_core_open_unrecorded(&core, 2), 0);
    settle_many(&core);
    assert_int_equal(gerfmuod_core_restart(&core), 0);
    settle_many(&core);
    assert_true(gerfmuod_core_reopen(&core).number == 2 && gerfmuod_core_close(&core) == 0);
}

/* One wave after the other while a message is in flight, until there is no room for another one. */
CASE(waves_without_a_list) {
    gerfmuod_core core;
    uint32_t waves = 0;
    assert_int_equal(gerfmuod_core_open_unrecorded(&core, 2), 0);
    assert_int_equal(gerfmuod_core_send(&core, 0, 1, 7, GERFMUOD_FIRST_GENERATION).refused, 0);
    assert_true(gerfmuod_core_ready(&core, 0).refused == 0 && gerfmuod_core_ready(&core, 1).refused == 0);
    gerfmuod_step_result start = gerfmuod_core_start(&core);
    for (; !start.refused; start = gerfmuod_core_start(&core), waves++) {
        assert_true(gerfmuod_core_down(&core, 1).refused == 0 && gerfmuod_core_give(&core, 1).refused == 0);
        assert_true(gerfmuod_core_up(&core, 1).refused == 0 && gerfmuod_core_give(&core, 0).number == waves + 1);
        assert_int_equal(gerfmuod_core_judge(&core).event, GERFMUOD_EVENT_NOT_ENDED);
    }
    assert_true(start.refused == GERFMUOD_REFUSED_STORE_FULL && waves == GERFMUOD_MAX_STEPS + 1);
    assert_int_equal(gerfmuod_core_receive(&core, 1, 7, GERFMUOD_FIRST_GENERATION).refused, 0);
    assert_int_equal(gerfmuod_core_message_end(&core, 1, 7, GERFMUOD_FIRST_GENERATION).event, GERFMUOD_EVENT_QUIET);
    assert_int_equal(gerfmuod_core_settle(&core).refused, GERFMUOD_REFUSED_STORE_FULL);
    gerfmuod_core_close(&core);
}

/* The library uses the first gerfmuod_core_size() bytes of a core. */
CASE(bytes_that_are_used) {
    gerfmuod_core core;
    const unsigned char *bytes = (const unsigned char *)&core;
    size_t last = sizeof core;
    memset(&core, 0xa5, sizeof core);
    assert_true(gerfmuod_core_open(&core, 8) == 0 && gerfmuod_core_insert(&core, 7, 1, 0).refused == 0);
    assert_true(gerfmuod_core_send(&core, 0, 7, 1, 1).refused == 0 && gerfmuod_core_action_open(&core, 7, 1).refused == 0);
    while (last > 0 && bytes[last - 1] == 0xa5) last--;
    assert_int_equal(last, gerfmuod_core_size());
    gerfmuod_core_close(&core);
}

CASE(full_at_one_node) { full(1, false); }
CASE(full_in_a_wave) { full(1, true); }
CASE(full_at_seven_nodes) { full(7, false); }
CASE(full_at_eight_nodes_in_a_wave) { full(8, true); }

int main(void) {
    const struct CMUnitTest cases[] = {
        cmocka_unit_test(full_at_one_node),    cmocka_unit_test(full_in_a_wave),
        cmocka_unit_test(full_at_seven_nodes), cmocka_unit_test(full_at_eight_nodes_in_a_wave),
        cmocka_unit_test(calls_that_only_read), cmocka_unit_test(bytes_that_are_used),
        cmocka_unit_test(steps_without_a_list), cmocka_unit_test(waves_without_a_list),
        cmocka_unit_test(tasks_that_are_left),
    };
    return RUN(cases);
}
