/* out_of_memory.c: allocations that fail in calls on a core. A fixed list of calls, in which each list and table of the core
 * grows, is made once with all memory. Then it is made again and again: with the first allocation failing, then with the
 * second, until there are no more; and the same with all further allocations of that call. The call that is out of memory has
 * to say so and to change nothing; repeated, it and all later calls have to reply as in the first run. No call may be out of
 * memory if no allocation failed in it, and gerfmuod_core_open may not allocate. One list reserves memory first: its steps, and the
 * settling, may not allocate.
 *
 *   out_of_memory [takes|changes|lies|forgets]   takes: opening allocates; changes: a call that is out of memory takes a step;
 *                                                lies: one says so although it has memory; forgets: nothing is reserved. Each
 *                                                has to be detected */
#include "../cases.h"
#include "../wrap.h"
#include <gerfmuod/core.h>

#define CHECK(what) check_that(what, "call %u, allocation %u: check failed: %s", place, failing, #what)

enum { NODES = 3, GENERATIONS = 2, MOST_CALLS = 16384, LARGE = 400, FEWER = 148, SMALL = 60, MOST_BYTES = 1 << 19 };
/* the calls of a list that are no steps; the last two have the index of a generation */
enum { SETTLE = 100, RESERVE, TRACE, AUDIT };

/* A call, and what it replied and showed in the first run. */
typedef struct {
    uint32_t kind, a, b, c, generation;
    gerfmuod_step_result answer;
    gerfmuod_settled settled;
    uint32_t reserved;
    gerfmuod_written written;
    gerfmuod_status pool;
    gerfmuod_counters numbers[NODES];
} call;

static call calls[MOST_CALLS];
static uint32_t count, place;
static gerfmuod_core core;
/* the texts of the first run, and those of the present one */
static char traces[GENERATIONS][MOST_BYTES], audits[GENERATIONS][256], trace[MOST_BYTES], audit[256];
static const char *fault = "";

/* The allocations of a run; the one that fails, 0 if none, and whether the further ones of its call do; and whether one
 * failed in the present call. */
static uint32_t allocations, failing;
static bool is_lasting, has_failed;
/* Whether memory was reserved for all further steps. */
static bool is_reserved;

WRAP(void *, malloc, (size_t bytes));
WRAP(void *, realloc, (void *old, size_t bytes));

static bool fails(void) {
    allocations++;
    if (allocations == failing || (has_failed && is_lasting)) has_failed = true;
    return allocations == failing || (has_failed && is_lasting);
}

void *__wrap_malloc(size_t bytes) { return fails() ? NULL : __real_malloc(bytes); }

void *__wrap_realloc(void *old, size_t bytes) { return fails() ? NULL : __real_realloc(old, bytes); }

static void add(uint32_t kind, uint32_t a, uint32_t b, uint32_t c, uint32_t generation) {
    CHECK(count < MOST_CALLS);
    calls[count++] = (call){.kind = kind, .a = a, .b = b, .c = c, .generation = generation};
}

/* A generation of tasks, actions and messages, all of which are there at the same time. Each `factor`th number is used. */
static void add_generation(uint32_t tasks, uint32_t actions, uint32_t messages, uint32_t factor, uint32_t generation) {
    for (uint32_t k = 0; k < tasks; k++) add(GERFMUOD_STEP_INSERT, k % NODES, k * factor, k % 3, 0);
    for (uint32_t k = 0; k < tasks; k++) {
        for (uint32_t input = 0; input < k % 3; input++) add(GERFMUOD_STEP_SUPPLY, k * factor, 0, 0, 0);
        add(GERFMUOD_STEP_BEGIN, k * factor, 0, 0, 0);
    }
    for (uint32_t k = 0; k < actions; k++) add(GERFMUOD_STEP_ACTION_OPEN, k % NODES, k * factor, 0, 0);
    for (uint32_t k = 0; k < messages; k++) add(GERFMUOD_STEP_SEND, 0, 1 + k % 2, k * factor, generation);
    for (uint32_t k = 0; k < messages; k++) add(GERFMUOD_STEP_RECEIVE, 1 + k % 2, k * factor, 0, generation);
    for (uint32_t k = 0; k < messages; k++) add(GERFMUOD_STEP_MESSAGE_END, 1 + k % 2, k * factor, 0, generation);
    for (uint32_t k = 0; k < actions; k++) add(GERFMUOD_STEP_ACTION_CLOSE, k % NODES, k * factor, 0, 0);
    for (uint32_t k = 0; k < tasks; k++) add(GERFMUOD_STEP_DONE, k * factor, 0, 0, 0);
    for (uint32_t node = 0; node < NODES; node++) add(GERFMUOD_STEP_READY, node, 0, 0, 0);
    add(SETTLE, 0, 0, 0, 0);
}

static void make_calls(uint32_t many, uint32_t factor) {
    count = 0;
    for (uint32_t generation = 1; generation <= GENERATIONS; generation++) {
        if (generation > 1) add(GERFMUOD_STEP_REOPEN, 0, 0, 0, 0);
        add_generation(many, many, many, factor, generation);
        add(TRACE, generation - 1, 0, 0, 0);
        add(AUDIT, generation - 1, 0, 0, 0);
    }
}

/* Memory is reserved for the steps of all generations, and after each reopening anew for tasks and messages. The core reserves
 * pieces of 1,024 steps: without the steps of the settlings, one piece less would be enough. */
static void make_reserved_calls(void) {
    const uint32_t inputs = LARGE / 3 * 3; /* 0, 1 and 2 in turn, and one more task without any */
    const uint32_t steps = 3 * LARGE + inputs + 3 * FEWER + NODES + GERFMUOD_SETTLE_STEPS * NODES;
    count = 0;
    add(GERFMUOD_STEP_ACTION_OPEN, 0, 7, 0, 0);
    add(GERFMUOD_STEP_ACTION_CLOSE, 0, 7, 0, 0);
    for (uint32_t generation = 1; generation <= GENERATIONS; generation++) {
        if (generation > 1) add(GERFMUOD_STEP_REOPEN, 0, 0, 0, 0);
        add(RESERVE, generation == 1 ? GENERATIONS * (steps + 1) - 1 : 0, LARGE, FEWER, 0);
        add_generation(LARGE, 0, FEWER, 1, generation);
    }
}

/* Makes a call, and returns whether it was out of memory. If memory was reserved, a call that takes steps may not allocate. */
static bool make(call *it) {
    const uint32_t before = allocations;
    has_failed = false;
    switch (it->kind) {
    case SETTLE: it->settled = gerfmuod_core_settle(&core); break;
    case RESERVE: it->reserved = fault[0] == 'f' ? 0 : gerfmuod_core_reserve(&core, it->a, it->b, it->c); break;
    case TRACE: it->written = gerfmuod_core_trace(&core, trace, sizeof trace); break;
    case AUDIT: it->written = gerfmuod_audit(traces[it->a], calls[place - 1].written.length, audit, sizeof audit); break;
    default: it->answer = gerfmuod_core_step(&core, it->kind, it->a, it->b, it->c, it->generation);
    }
    bool is_out = it->answer.refused == GERFMUOD_REFUSED_NO_MEMORY || it->settled.refused == GERFMUOD_REFUSED_NO_MEMORY ||
                  it->reserved == GERFMUOD_REFUSED_NO_MEMORY || it->written.outcome == GERFMUOD_OUT_OF_MEMORY;
    CHECK(!is_reserved || it->kind > SETTLE || allocations == before);
    is_reserved |= it->kind == RESERVE && it->reserved == 0;
    if (fault[0] == 'l' && place == 17) return true;
    if (fault[0] == 'c' && is_out && it->kind < SETTLE) CHECK(gerfmuod_core_start(&core).refused == 0);
    return is_out;
}

static bool is_same_pool(gerfmuod_status x, gerfmuod_status y) {
    return x.steps == y.steps && x.steps_left == y.steps_left && x.in_flight == y.in_flight && x.is_quiet == y.is_quiet;
}

/* Keeps what the core shows after a call. */
static void look(call *it) {
    it->pool = gerfmuod_core_status(&core);
    for (uint32_t node = 0; node < NODES; node++) it->numbers[node] = gerfmuod_core_counters(&core, node);
}

static bool is_as_after(const call *earlier) {
    call now;
    look(&now);
    return is_same_pool(now.pool, earlier->pool) && !memcmp(now.numbers, earlier->numbers, sizeof now.numbers);
}

/* Checks that a call that was out of memory left the core and its texts as they were after the call before it. */
static void check_unchanged(const call *it) {
    CHECK(has_failed && (place > 0 ? is_as_after(&calls[place - 1]) : gerfmuod_core_status(&core).steps == 0));
    if (it->kind == TRACE) CHECK(it->written.length == 0 && trace[0] == 0);
    if (it->kind == AUDIT) CHECK(it->written.length == 0 && audit[0] == 0);
}

/* Makes the call at `place` as the first run did. */
static void make_again(uint32_t *out) {
    const call *wanted = &calls[place];
    call it = {.kind = wanted->kind, .a = wanted->a, .b = wanted->b, .c = wanted->c, .generation = wanted->generation};
    if (it.kind == TRACE) trace[0] = 0;
    if (it.kind == AUDIT) audit[0] = 0;
    if (make(&it)) {
        check_unchanged(&it);
        ++*out;
        memset(&it.answer, 0, sizeof it.answer);
        CHECK(!make(&it));
    }
    CHECK(!memcmp(&it.answer, &wanted->answer, sizeof it.answer) && !memcmp(&it.settled, &wanted->settled, sizeof it.settled));
    CHECK(it.written.outcome == wanted->written.outcome && it.written.length == wanted->written.length);
    CHECK(it.reserved == wanted->reserved);
    if (it.kind == TRACE) CHECK(!memcmp(trace, traces[it.a], it.written.length));
    if (it.kind == AUDIT) CHECK(!memcmp(audit, audits[it.a], it.written.length));
    CHECK(is_as_after(wanted));
}

static void open_core(void) {
    place = 0, allocations = 0, is_reserved = false;
    CHECK(gerfmuod_core_open(&core, NODES) == 0);
    if (fault[0] == 't') free(__wrap_malloc(1));
    CHECK(allocations == 0);
}

/* Makes all calls with all memory, and keeps their replies. */
static void first_run(void) {
    failing = 0, is_lasting = has_failed = false;
    open_core();
    for (; place < count; place++) {
        call *it = &calls[place];
        CHECK(!make(it) && it->answer.refused == 0 && it->settled.refused == 0 && it->reserved == 0);
        if (it->kind == TRACE) memcpy(traces[it->a], trace, sizeof trace);
        if (it->kind == AUDIT) memcpy(audits[it->a], audit, sizeof audit);
        look(it);
    }
    gerfmuod_core_close(&core);
}

/* Makes all calls once for each allocation, which fails; prints how many calls were out of memory. */
static void refuse_each(const char *name) {
    first_run();
    uint32_t most = allocations, out = 0;
    for (uint32_t mode = 0; mode < 2; mode++) {
        is_lasting = mode == 1;
        for (uint32_t k = 1; k <= most; k++) {
            failing = 0;
            open_core();
            for (failing = k; place < count; place++) make_again(&out);
            CHECK(allocations >= failing);
            gerfmuod_core_close(&core);
        }
    }
    printf("%s: %u calls, %u allocations, %u calls out of memory\n", name, count, most, out);
    CHECK(out > 0);
}

CASE(a_core_that_is_opened_refused_or_closed_allocates_nothing) {
    for (uint32_t nodes = 0; nodes <= GERFMUOD_MAX_NODES + 1; nodes++) {
        allocations = 0;
        CHECK(gerfmuod_core_open(&core, nodes) == (nodes >= 1 && nodes <= GERFMUOD_MAX_NODES ? 0u : GERFMUOD_REFUSED_BAD_SPEC));
        CHECK(gerfmuod_core_counters(&core, 0).pending == (nodes >= 1 && nodes <= GERFMUOD_MAX_NODES));
        gerfmuod_core_close(&core);
        CHECK(allocations == 0);
    }
}

CASE(a_call_that_is_out_of_memory_changes_nothing_and_succeeds_again) {
    make_calls(LARGE, 1);
    refuse_each("small numbers");
}

/* Most numbers are above those that are in pages, and have more than six digits. */
CASE(a_call_of_large_numbers_that_is_out_of_memory_changes_nothing) {
    make_calls(SMALL, 1299709);
    refuse_each("large numbers");
}

CASE(steps_for_which_memory_is_reserved_allocate_nothing) {
    make_reserved_calls();
    refuse_each("reserved");
}

int main(int argc, char **argv) {
    const struct CMUnitTest cases[] = {
        cmocka_unit_test(a_core_that_is_opened_refused_or_closed_allocates_nothing),
        cmocka_unit_test(a_call_that_is_out_of_memory_changes_nothing_and_succeeds_again),
        cmocka_unit_test(a_call_of_large_numbers_that_is_out_of_memory_changes_nothing),
        cmocka_unit_test(steps_for_which_memory_is_reserved_allocate_nothing),
    };
    if (argc > 1) fault = argv[1];
    return RUN(cases);
}
