/* two_waves.c: a pool of two nodes from its opening to its end, reported event by event: one task, one message, two waves.
 * Wrong events are refused where they happen, also those of makers that are over or elsewhere. Then the pool is reopened and
 * terminates once more, and at last it begins anew without its steps. */
#include <gerfmuod/core.h>

#include <stdio.h>
#include <stdlib.h>
#include <string.h>

#define CHECK(what)                                                                                                    \
    do {                                                                                                               \
        if (!(what)) {                                                                                                 \
            fprintf(stderr, "line %d: check failed: %s\n", __LINE__, #what);                                           \
            exit(1);                                                                                                   \
        }                                                                                                              \
    } while (0)

/* The step was taken, and showed nothing more. */
static void taken(gerfmuod_step_result it) {
    CHECK(it.refused == 0 && it.event == GERFMUOD_EVENT_NONE && it.number == 0 && it.sent == 0 && it.received == 0);
}

static void refused(gerfmuod_step_result it, unsigned why) {
    if (it.refused != why) fprintf(stderr, "refused %u, %s\n", it.refused, gerfmuod_refusal_text(it.refused));
    CHECK(it.refused == why && it.event == GERFMUOD_EVENT_NONE);
}

/* A wave over both nodes: checks its sums. Returns the judgement. */
static gerfmuod_step_result wave(gerfmuod_core *core, uint32_t number, uint32_t messages) {
    taken(gerfmuod_core_start(core));
    taken(gerfmuod_core_down(core, 1));
    taken(gerfmuod_core_give(core, 1));
    taken(gerfmuod_core_up(core, 1));
    gerfmuod_step_result sums = gerfmuod_core_give(core, 0);
    CHECK(sums.refused == 0 && sums.event == GERFMUOD_EVENT_WAVE_ENDED && sums.number == number);
    CHECK(sums.sent == messages && sums.received == messages);
    gerfmuod_step_result judged = gerfmuod_core_judge(core);
    CHECK(judged.refused == 0);
    return judged;
}

static void one_task_and_a_message(gerfmuod_core *core, uint32_t generation) {
    taken(gerfmuod_core_insert(core, 0, 7, 1));
    refused(gerfmuod_core_begin(core, 7), GERFMUOD_REFUSED_WRONG_LIFE); /* it lacks an input */
    taken(gerfmuod_core_supply(core, 7));
    taken(gerfmuod_core_begin(core, 7));
    refused(gerfmuod_core_receive(core, 1, 1, generation), GERFMUOD_REFUSED_NO_MESSAGE); /* before it was sent */
    refused(gerfmuod_core_send(core, 0, 1, 1, generation + 1), GERFMUOD_REFUSED_STRANGER);
    taken(gerfmuod_core_send(core, 0, 1, 1, generation));
    taken(gerfmuod_core_done(core, 7));
    taken(gerfmuod_core_ready(core, 0));
    taken(gerfmuod_core_ready(core, 1));
    refused(gerfmuod_core_insert(core, 0, 8, 0), GERFMUOD_REFUSED_INACTIVE);
    taken(gerfmuod_core_receive(core, 1, 1, generation));
    refused(gerfmuod_core_receive(core, 1, 1, generation), GERFMUOD_REFUSED_NO_MESSAGE); /* twice */
    CHECK(gerfmuod_core_settle(core).refused == GERFMUOD_REFUSED_NOT_IDLE);
    taken(gerfmuod_core_action_open(core, 1, 3));
    taken(gerfmuod_core_message_end(core, 1, 1, generation));
    gerfmuod_step_result last = gerfmuod_core_action_close(core, 1, 3);
    CHECK(last.refused == 0 && last.event == GERFMUOD_EVENT_QUIET); /* nothing is left */
}

/* The same pool, with what makes each step. */
static void with_makers(gerfmuod_core *core) {
    const uint32_t generation = GERFMUOD_FIRST_GENERATION;
    taken(gerfmuod_core_insert_by(core, GERFMUOD_BY_OPENING, 0, 0, 7, 1));
    taken(gerfmuod_core_supply_by(core, GERFMUOD_BY_OPENING, 0, 7));
    taken(gerfmuod_core_ready(core, 0));
    refused(gerfmuod_core_begin_at(core, 1, 7), GERFMUOD_REFUSED_NO_MAKER); /* its home is node 0 */
    taken(gerfmuod_core_begin_at(core, 0, 7));
    refused(gerfmuod_core_insert_by(core, GERFMUOD_BY_OPENING, 0, 0, 8, 0), GERFMUOD_REFUSED_NO_MAKER); /* that is over */
    refused(gerfmuod_core_insert_by(core, GERFMUOD_BY_TASK, 7, 1, 8, 0), GERFMUOD_REFUSED_NO_MAKER);    /* it is at node 0 */
    taken(gerfmuod_core_action_open_by(core, GERFMUOD_BY_TASK, 7, 0, 3));
    taken(gerfmuod_core_send_by(core, GERFMUOD_BY_ACTION, 3, 0, 1, 1, generation));
    taken(gerfmuod_core_done_at(core, 0, 7));
    refused(gerfmuod_core_insert_by(core, GERFMUOD_BY_TASK, 7, 0, 8, 0), GERFMUOD_REFUSED_NO_MAKER); /* node 0 is busy */
    taken(gerfmuod_core_action_close(core, 0, 3));
    taken(gerfmuod_core_receive(core, 1, 1, generation));
    taken(gerfmuod_core_insert_by(core, GERFMUOD_BY_MESSAGE, 1, 1, 8, 0));
    taken(gerfmuod_core_message_end(core, 1, 1, generation));
    taken(gerfmuod_core_begin_at(core, 1, 8));
    taken(gerfmuod_core_done_at(core, 1, 8));
    CHECK(gerfmuod_core_ready(core, 1).event == GERFMUOD_EVENT_QUIET);
}

static void questions(gerfmuod_core *core) {
    gerfmuod_counters own = gerfmuod_core_counters(core, 1);
    CHECK(own.refused == 0 && own.pending == 0 && own.sent == 0 && own.received == 1);
    own = gerfmuod_core_counters(core, 2);
    CHECK(own.refused == GERFMUOD_REFUSED_NO_NODE && own.pending == 0 && own.sent == 0 && own.received == 0);
    gerfmuod_status all = gerfmuod_core_status(core);
    CHECK(all.in_flight == 0 && all.is_quiet && all.steps + all.steps_left == GERFMUOD_MAX_STEPS - 2 * GERFMUOD_SETTLE_STEPS);
}

static void opened_wrongly(void) {
    gerfmuod_core core;
    CHECK(gerfmuod_core_open(&core, 0) == GERFMUOD_REFUSED_BAD_SPEC);
    CHECK(gerfmuod_core_open(&core, 9) == GERFMUOD_REFUSED_BAD_SPEC);
    refused(gerfmuod_core_ready(&core, 0), GERFMUOD_REFUSED_NO_POOL);
    CHECK(gerfmuod_core_settle(&core).refused == GERFMUOD_REFUSED_NO_POOL && !gerfmuod_core_status(&core).is_quiet);
    CHECK(gerfmuod_core_reserve(&core, 1, 1, 1) == GERFMUOD_REFUSED_NO_POOL);
    gerfmuod_core_close(&core);
    gerfmuod_core_close(&core);
}

int main(void) {
    CHECK(gerfmuod_version() == GERFMUOD_VERSION);
    CHECK(gerfmuod_core_size() <= sizeof(gerfmuod_core));
    opened_wrongly();
    gerfmuod_core core;
    CHECK(gerfmuod_core_open(&core, 2) == 0);
    CHECK(gerfmuod_core_reserve(&core, 32, 8, 2) == 0 && gerfmuod_core_status(&core).steps == 0);
    refused(gerfmuod_core_step(&core, 16, 0, 0, 0, 0), GERFMUOD_REFUSED_BAD_SPEC);
    refused(gerfmuod_core_insert(&core, 0, 7, 17), GERFMUOD_REFUSED_BAD_SPEC);
    refused(gerfmuod_core_reopen(&core), GERFMUOD_REFUSED_WRONG_LIFE);
    one_task_and_a_message(&core, GERFMUOD_FIRST_GENERATION);
    questions(&core);
    CHECK(wave(&core, 1, 1).event == GERFMUOD_EVENT_NOT_ENDED);
    gerfmuod_step_result end = wave(&core, 2, 1);
    CHECK(end.event == GERFMUOD_EVENT_ENDED && end.number == 1);
    refused(gerfmuod_core_start(&core), GERFMUOD_REFUSED_ENDED);
    gerfmuod_step_result next = gerfmuod_core_reopen(&core);
    CHECK(next.refused == 0 && next.event == GERFMUOD_EVENT_REOPENED && next.number == 2);
    gerfmuod_core moved = core; /* between two calls */
    memset(&core, 255, sizeof core);
    one_task_and_a_message(&moved, 2);
    gerfmuod_settled settled = gerfmuod_core_settle(&moved);
    CHECK(settled.refused == 0 && settled.wave == 1 && settled.steps == 12);
    CHECK(gerfmuod_core_settle(&moved).refused == GERFMUOD_REFUSED_ENDED);
    printf("two generations, %u steps: each ended with wave %u\n", gerfmuod_core_status(&moved).steps, settled.wave);
    CHECK(gerfmuod_core_restart(&moved) == 0 && gerfmuod_core_status(&moved).steps == 0);
    CHECK(gerfmuod_core_restart(&moved) == GERFMUOD_REFUSED_WRONG_LIFE);
    with_makers(&moved);
    settled = gerfmuod_core_settle(&moved);
    CHECK(settled.refused == 0 && settled.wave == 1);
    gerfmuod_core_close(&moved);
    refused(gerfmuod_core_start(&moved), GERFMUOD_REFUSED_NO_POOL);
    return 0;
}
