/* fuzz.c: random calls on cores, lawful and unlawful ones, compared with the plain model of model.h; and traces, sound and damaged
 * ones, whose audits are compared with traces.h. Of some calls an allocation is refused: they have to change nothing, and to
 * succeed when they are repeated.
 *
 *   fuzz CALLS [SEED [forgets|early]]    forgets: the model sometimes loses a message; early: it sometimes finishes a task. Both
 *                                        have to be detected
 *
 * Each core has up to 100 random steps in a generation. Then it is mostly run to its end, and reopened, restarted or closed. Half of
 * the cores keep no list of their steps. In half of the cores the numbers of tasks, actions and messages are spread over 32 bits. The
 * calls end at the first difference, and the case of that call fails. */
#include "../random.h"
#include "../violations.h"
#include "../wrap.h"
#include "traces.h"

enum { STEPS = 100, FEW = 24, SEVERAL = 4, MANY = 3000 };
enum count { REFUSED, TAKEN, QUIET, ENDED, REOPENED, RESTARTED, RESERVED, LEFT, NO_MEMORY, SOUND, UNSOUND, COUNTS };

static uint64_t most, cores, calls, counts[COUNTS];
static const char *given_seed = "by default";
static violations single, several, reading, memory, settling, restarting, reserving, ends, tracing, auditing, lives, closed;
static gerfmuod_core core;
static model m;
static bool is_far, forgets, is_early;
static uint32_t refuse_in; /* the allocation that is refused, counted from 1; 0: none */

WRAP(void *, malloc, (size_t bytes));
WRAP(void *, realloc, (void *old, size_t bytes));

static bool is_refused(void) { return refuse_in != 0 && --refuse_in == 0; }

void *__wrap_malloc(size_t bytes) { return is_refused() ? NULL : __real_malloc(bytes); }

void *__wrap_realloc(void *old, size_t bytes) { return is_refused() ? NULL : __real_realloc(old, bytes); }

/* A step, with what makes it if `is_by`. */
typedef struct {
    bool is_by;
    uint32_t maker_kind, maker, kind, a, b, c, generation;
} call;

/* Ends the calls at one that differs from the model. */
static void end_calls(violations *of, const char *what, const char *step, const char *maker) {
    end_runs(of, "in call %" PRIu64 ", seed %s, %s%s%s: not as the model says", calls, given_seed, what, step, maker);
}

/* The same, after a step or none, of a core that may not be open. */
static void differs(violations *of, const char *what, const call *c) {
    char step[100] = "", maker[40] = "";
    if (c) snprintf(step, sizeof step, ": kind %u (%u, %u, %u), generation %u", c->kind, c->a, c->b, c->c, c->generation);
    if (c && c->is_by) snprintf(maker, sizeof maker, ", maker %u %u", c->maker_kind, c->maker);
    end_calls(m.is_open ? of : &closed, what, step, maker);
}

static bool is_same(gerfmuod_step_result x, gerfmuod_step_result y) {
    return x.refused == y.refused && x.event == y.event && x.number == y.number && x.sent == y.sent && x.received == y.received;
}

static bool is_same_pool(gerfmuod_status x, gerfmuod_status y) {
    return x.steps == y.steps && x.steps_left == y.steps_left && x.in_flight == y.in_flight && x.is_quiet == y.is_quiet;
}

/* Compares the tasks that are left of up to 48 numbers, about half of them below one that is mostly a task's. */
static void compare_left(violations *of, const model *as, const call *c) {
    uint32_t near = as->tasks && below(8) ? as->task[below(as->tasks)].number : UINT32_MAX - below(2);
    uint32_t from = near - (near < FEW ? near : below(FEW)), end = from + below(2 * FEW);
    for (bool is_left = true; is_left;) {
        gerfmuod_left_task got = gerfmuod_core_left(&core, from, end), want = model_left(as, from, end);
        if (memcmp(&got, &want, sizeof got)) differs(of, "what is left", c);
        is_left = got.state != GERFMUOD_LEFT_NONE;
        counts[LEFT] += is_left;
        from = got.number + 1;
    }
}

/* Compares what the calls that read return. */
static void compare(violations *of, const model *as, const call *c) {
    if (!is_same_pool(gerfmuod_core_status(&core), model_status(as))) differs(of, "status", c);
    for (uint32_t node = 0; node <= as->nodes; node++) {
        gerfmuod_counters got = gerfmuod_core_counters(&core, node), want = model_counters(as, node);
        if (memcmp(&got, &want, sizeof got)) differs(of, "counters", c);
    }
    compare_left(of, as, c);
}

static gerfmuod_step_result take(const call *c) {
    if (c->is_by) return gerfmuod_core_step_by(&core, c->maker_kind, c->maker, c->kind, c->a, c->b, c->c, c->generation);
    return gerfmuod_core_step(&core, c->kind, c->a, c->b, c->c, c->generation);
}

static gerfmuod_step_result model_take(const call *c) {
    if (c->is_by) return model_step_by(&m, c->maker_kind, c->maker, c->kind, c->a, c->b, c->c, c->generation);
    return model_step(&m, c->kind, c->a, c->b, c->c, c->generation);
}

static gerfmuod_step_result check(const call *c) {
    static model before;
    bool refuses = below(8) == 0, is_repeated = false;
    calls++;
    if (refuses) before = m, refuse_in = 1 + below(2);
    gerfmuod_step_result want = model_take(c), got = take(c);
    refuse_in = 0;
    if (refuses && got.refused == GERFMUOD_REFUSED_NO_MEMORY) {
        if (want.refused || got.event || got.number) differs(&memory, "out of memory", c);
        compare(&memory, &before, c);
        counts[NO_MEMORY]++;
        is_repeated = true;
        got = take(c);
    }
    if (!is_same(got, want)) {
        printf("refused %u event %u number %u sent %u received %u\n", got.refused, got.event, got.number, got.sent, got.received);
        printf("refused %u event %u number %u sent %u received %u\n", want.refused, want.event, want.number, want.sent, want.received);
        differs(is_repeated ? &memory : &single, "a step", c);
    }
    counts[got.refused ? REFUSED : TAKEN]++;
    counts[QUIET] += got.event == GERFMUOD_EVENT_QUIET;
    counts[ENDED] += got.event == GERFMUOD_EVENT_ENDED;
    if (refuses || below(16) == 0) compare(is_repeated ? &memory : &reading, &m, c);
    if (forgets && m.in_flight && below(200) == 0) m.in_flight--;
    if (is_early && m.tasks && below(200) == 0) m.task[below(m.tasks)].life = DONE;
    return got;
}

static gerfmuod_step_result step(uint32_t kind, uint32_t a, uint32_t b, uint32_t c, uint32_t generation) {
    call it = {false, 0, 0, kind, a, b, c, generation};
    return check(&it);
}

/* ---- random arguments */

static uint32_t any_node(void) { return below(16) ? below(m.nodes + 1 - (m.nodes && below(8))) : UINT32_MAX - below(2); }

static uint32_t any_number(void) {
    uint32_t k = below(FEW);
    return is_far ? k * 2654435761u : k;
}

/* Mostly the number of a task of this generation. */
static uint32_t any_task(void) { return m.tasks && below(8) ? m.task[below(m.tasks)].number : any_number(); }

/* Sets the node and the number to those of an open action, if there is one, mostly. */
static void any_action(call *c, enum action_kind kind) {
    uint32_t from = below(m.actions + 1);
    c->a = any_node();
    c->b = any_number();
    for (uint32_t k = 0; below(16) && k < m.actions; k++) {
        uint32_t place = (from + k) % m.actions;
        if (m.action[place].kind != kind) continue;
        c->a = m.action[place].node;
        c->b = m.action[place].number;
        return;
    }
}

static void any_message(call *c) {
    c->a = any_node();
    c->b = any_number();
    if (!m.in_flight || !below(8)) return;
    uint32_t place = below(m.in_flight);
    c->a = m.message[place].to;
    c->b = m.message[place].number;
}

static void any_maker(call *c) {
    call other = *c;
    c->is_by = true;
    c->maker_kind = below(32) ? below(5) : 5 + below(3);
    if (c->maker_kind == GERFMUOD_BY_TASK) c->maker = any_task();
    else if (c->maker_kind == GERFMUOD_BY_THREAD) c->maker = any_node();
    else if (c->maker_kind == GERFMUOD_BY_ACTION) any_action(&other, NAMED), c->maker = other.b;
    else any_action(&other, OF_MESSAGE), c->maker = other.b;
}

/* A step without a maker. */
static call any_step(void) {
    static const uint32_t kinds[] = {0, 0, 0, 0, 1, 1, 2, 2, 2, 3, 3,  3,  4,  4,  5,  5, 6,
                                     7, 7, 7, 8, 8, 8, 9, 9, 9, 10, 11, 12, 12, 13, 14, 15};
    call c = {false, 0, 0, 0, 0, 0, 0, m.generation};
    c.kind = kinds[below(sizeof kinds / sizeof *kinds)];
    c.a = any_node();
    c.b = any_number();
    c.c = below(4) ? below(3) : below(18);
    if (c.kind >= GERFMUOD_STEP_SUPPLY && c.kind <= GERFMUOD_STEP_DONE) c.a = any_task();
    else if (c.kind == GERFMUOD_STEP_ACTION_CLOSE) any_action(&c, NAMED);
    else if (c.kind == GERFMUOD_STEP_MESSAGE_END) any_action(&c, OF_MESSAGE);
    else if (c.kind == GERFMUOD_STEP_RECEIVE) any_message(&c);
    else if (c.kind == GERFMUOD_STEP_SEND) c.b = any_node(), c.c = any_number();
    if (below(64) == 0) c.kind = 16 + below(3);
    if (below(64) == 0) c.generation += 1 - below(3);
    return c;
}

static void random_step(void) {
    call c = any_step();
    if (below(3) == 0) any_maker(&c);
    check(&c);
}

/* Compares the results of several steps with the model, which takes them one by one. Returns how many were taken. */
static uint32_t check_results(const gerfmuod_step *events, uint32_t tried, const gerfmuod_step_result *answers, bool refuses) {
    static model before;
    for (uint32_t k = 0; k < tried; k++) {
        const gerfmuod_step *e = &events[k];
        before = m;
        gerfmuod_step_result want = model_step(&m, e->kind, e->first, e->second, e->third, e->generation);
        if (refuses && !want.refused && answers[k].refused == GERFMUOD_REFUSED_NO_MEMORY) {
            m = before;
            counts[NO_MEMORY]++;
            return k;
        }
        if (!is_same(answers[k], want)) differs(&several, "the result of one of several steps", NULL);
        counts[want.refused ? REFUSED : TAKEN]++;
        counts[QUIET] += want.event == GERFMUOD_EVENT_QUIET;
        counts[ENDED] += want.event == GERFMUOD_EVENT_ENDED;
        if (want.refused) return k;
    }
    return tried;
}

/* Several steps in one call; the places for their results may be more or fewer. */
static void random_steps(void) {
    gerfmuod_step events[SEVERAL];
    gerfmuod_step_result answers[SEVERAL], none;
    uint32_t length = below(SEVERAL + 1), places = below(SEVERAL + 1), tried = length < places ? length : places;
    bool refuses = below(8) == 0;
    for (uint32_t k = 0; k < length; k++) {
        call c = any_step();
        events[k] = (gerfmuod_step){c.kind, c.a, c.b, c.c, c.generation};
    }
    memset(&none, 171, sizeof none);
    for (uint32_t k = 0; k < SEVERAL; k++) answers[k] = none;
    calls++;
    refuse_in = refuses ? 1 + below(3) : 0;
    size_t taken = gerfmuod_core_steps(&core, length ? events : NULL, length, places ? answers : NULL, places);
    refuse_in = 0;
    if (taken != check_results(events, tried, answers, refuses)) differs(&several, "the number of steps that were taken", NULL);
    for (size_t k = taken + (taken < tried); k < SEVERAL; k++)
        if (!is_same(answers[k], none)) differs(&several, "the results of steps that were not taken", NULL);
    compare(&several, &m, NULL);
}

/* ---- to the end */

static void finish_task(uint32_t k) {
    uint32_t task = m.task[k].number;
    while (m.task[k].life == WAITING) step(GERFMUOD_STEP_SUPPLY, task, 0, 0, 0);
    if (m.task[k].life == READY) step(GERFMUOD_STEP_BEGIN, task, 0, 0, 0);
    if (m.task[k].life == RUNNING) step(GERFMUOD_STEP_DONE, task, 0, 0, 0);
}

/* Ends everything that is left. */
static void finish(void) {
    static const uint32_t kinds[] = {GERFMUOD_STEP_READY, GERFMUOD_STEP_ACTION_CLOSE, GERFMUOD_STEP_MESSAGE_END};
    while (m.in_flight) step(GERFMUOD_STEP_RECEIVE, m.message[0].to, m.message[0].number, 0, m.generation);
    for (uint32_t k = 0; k < m.tasks; k++) finish_task(k);
    while (m.actions) step(kinds[m.action[0].kind], m.action[0].node, m.action[0].number, 0, m.generation);
    if (!m.has_ended && !gerfmuod_core_status(&core).is_quiet) differs(&ends, "not quiet at the end", NULL);
}

static void settle(void) {
    bool refuses = below(4) == 0;
    calls++;
    if (refuses) refuse_in = 1;
    gerfmuod_settled got = gerfmuod_core_settle(&core);
    refuse_in = 0;
    if (refuses && got.refused == GERFMUOD_REFUSED_NO_MEMORY) {
        compare(&memory, &m, NULL);
        counts[NO_MEMORY]++;
        got = gerfmuod_core_settle(&core);
    }
    gerfmuod_settled want = model_settle(&m);
    if (memcmp(&got, &want, sizeof got)) differs(&settling, "settle", NULL);
    counts[ENDED] += got.refused == 0;
    compare(&settling, &m, NULL);
}

/* Waves by the steps of the nodes, in a random order. */
static void waves(void) {
    while (!m.has_ended) step(GERFMUOD_STEP_START + below(5), below(m.nodes), 0, 0, 0);
}

static void restart(void) {
    uint32_t want = model_restart(&m);
    calls++;
    if (gerfmuod_core_restart(&core) != want) differs(&restarting, "restart", NULL);
    counts[RESTARTED] += want == 0;
    compare(&restarting, &m, NULL);
}

/* How many steps, tasks or messages to reserve memory for: mostly more than there are, seldom more than there can be. */
static uint32_t any_count(void) { return below(1000) ? below(below(2) ? FEW : MANY) : UINT32_MAX - below(MANY); }

static void reserve(void) {
    const uint32_t steps = any_count(), tasks = any_count(), messages = any_count();
    bool refuses = below(4) == 0;
    calls++;
    if (refuses) refuse_in = 1 + below(4);
    uint32_t got = gerfmuod_core_reserve(&core, steps, tasks, messages);
    refuse_in = 0;
    if (refuses && got == GERFMUOD_REFUSED_NO_MEMORY) {
        compare(&memory, &m, NULL);
        counts[NO_MEMORY]++;
        got = gerfmuod_core_reserve(&core, steps, tasks, messages);
    }
    if (got != model_reserve(&m)) differs(&reserving, "reserve", NULL);
    counts[RESERVED] += got == 0;
    compare(&reserving, &m, NULL);
}

/* ---- traces */

/* Compares the audit of a trace with the model's. */
static void audit(const char *text, size_t length) {
    char got[256], want[256];
    bool is_sound = model_audit(text, length, want, sizeof want);
    calls++;
    refuse_in = below(16) ? 0 : 1 + below(3);
    gerfmuod_written written = gerfmuod_audit(text, length, got, sizeof got);
    if (written.outcome == GERFMUOD_OUT_OF_MEMORY) {
        counts[NO_MEMORY]++;
        written = gerfmuod_audit(text, length, got, sizeof got);
    }
    refuse_in = 0;
    counts[is_sound ? SOUND : UNSOUND]++;
    bool is_same_text = written.length == strlen(want) && !memcmp(got, want, written.length);
    if (is_same_text && written.outcome == (is_sound ? GERFMUOD_WRITTEN : GERFMUOD_COMPLAINT)) return;
    printf("%.*s\naudited as %.*snot as %s", (int)length, text, (int)written.length, got, want);
    differs(&auditing, "audit", NULL);
}

/* Returns the place behind the line that has the byte at a place. */
static size_t line_end(const char *text, size_t length, size_t place) {
    while (place < length && text[place] != '\n') place++;
    return place < length ? place + 1 : length;
}

/* Damages a text: drops, doubles or moves a line, or changes, inserts or cuts off bytes. Returns its new length. */
static size_t damaged(char *text, size_t length) {
    static const char bytes[] = "0123456789 \nabdeginprstu";
    size_t place = below((uint32_t)length), first = line_end(text, length, place), second = line_end(text, length, first);
    char line[64];
    size_t size = second - first;
    switch (below(6)) {
    case 0: memmove(text + first, text + second, length - second); return length - size;
    case 1:
    case 2: /* the line is repeated, here or further down */
        if (size >= sizeof line) return length;
        memcpy(line, text + first, size);
        place = below(2) ? second : line_end(text, length, second + below(40));
        memmove(text + place + size, text + place, length - place);
        memcpy(text + place, line, size);
        return length + size;
    case 3: return place;
    case 4:
        memmove(text + place + 1, text + place, length - place);
        text[place] = bytes[below(sizeof bytes - 1)];
        return length + 1;
    default: text[place] = bytes[below(sizeof bytes - 1)]; return length;
    }
}

static void audit_trace(void) {
    gerfmuod_written size = gerfmuod_core_trace(&core, NULL, 0);
    if (!m.is_recorded && size.outcome != GERFMUOD_NO_TEXT) differs(&tracing, "trace of a core without a list", NULL);
    if (size.outcome == GERFMUOD_NO_TEXT && (is_far || !m.is_recorded)) return;
    char *text = malloc(size.length + 256), *copy = malloc(size.length + 256);
    if (!text || !copy || gerfmuod_core_trace(&core, text, size.length).outcome) differs(&tracing, "trace", NULL);
    audit(text, size.length);
    for (uint32_t k = 0; k < 8 && size.length; k++) {
        size_t length = size.length;
        memcpy(copy, text, length);
        for (uint32_t times = 1 + below(2); times > 0 && length; times--) length = damaged(copy, length);
        audit(copy, length);
    }
    free(text);
    free(copy);
}

/* One generation. Returns whether another one follows. */
static bool generation(void) {
    for (uint32_t k = below(STEPS); k > 0; k--) {
        random_step();
        if (below(8) == 0) random_steps();
        if (below(20) == 0) settle();
        if (below(20) == 0) reserve();
        if (below(50) == 0) restart();
    }
    if (below(8) == 0) return false; /* it is closed in the middle */
    finish();
    if (below(2)) settle();
    if (below(4) == 0) waves();
    settle();
    if (below(4) == 0) return restart(), true;
    if (below(2)) return false;
    step(GERFMUOD_STEP_REOPEN, 0, 0, 0, 0);
    counts[REOPENED]++;
    return true;
}

/* Opens a core, with a list of its steps or without. */
static void open_core(uint32_t nodes, bool is_recorded) {
    uint32_t got = is_recorded ? gerfmuod_core_open(&core, nodes) : gerfmuod_core_open_unrecorded(&core, nodes);
    if (got != model_open(&m, nodes, is_recorded)) end_calls(&lives, "open", "", "");
}

/* Makes every call on a core that is not open. */
static void call_closed(void) {
    char room[8];
    for (uint32_t k = 0; k < 4; k++) random_step(), random_steps();
    settle();
    restart();
    reserve();
    compare(&closed, &m, NULL);
    if (gerfmuod_core_trace(&core, room, sizeof room).outcome != GERFMUOD_NO_TEXT) differs(&closed, "trace of a closed core", NULL);
    if (gerfmuod_core_close(&core) != GERFMUOD_REFUSED_NO_POOL) differs(&closed, "close of a closed core", NULL);
}

static void make_core(void) {
    uint32_t nodes = below(20) ? 1 + below(8) : below(2) ? 0 : 9 + below(3);
    is_far = below(2);
    open_core(nodes, below(2));
    while (m.is_open && generation()) continue;
    if (m.is_open && below(4) == 0) audit_trace();
    if (gerfmuod_core_close(&core) != model_close(&m)) end_calls(&lives, "close", "", "");
    if (below(4) == 0) call_closed();
    if (below(16) == 0) memset(&core, (int)below(256), sizeof core), call_closed();
}

static void make_runs(void) {
    for (; calls < most; cores++) make_core();
}

CASE(single_steps_return_what_the_model_says) { check_none(&single); }
CASE(several_steps_in_one_call_return_what_single_ones_do) { check_none(&several); }
CASE(a_core_shows_what_the_model_says) { check_none(&reading); }
CASE(a_call_that_is_out_of_memory_changes_nothing_and_succeeds_again) { check_none(&memory); }
CASE(reserving_memory_changes_nothing_that_a_call_shows) { check_none(&reserving); }
CASE(a_core_is_quiet_once_nothing_is_left) { check_none(&ends); }
CASE(settling_detects_the_end_as_the_model_does) { check_none(&settling); }
CASE(a_core_restarts_if_the_model_does) { check_none(&restarting); }
CASE(a_core_has_a_trace_if_it_keeps_its_steps) { check_none(&tracing); }
CASE(sound_and_damaged_traces_are_audited_as_the_model_says) { check_none(&auditing); }
CASE(cores_open_and_close_as_the_model_says) { check_none(&lives); }
CASE(a_core_that_is_not_open_refuses_each_call) { check_none(&closed); }

static int run_cases(void) {
    const struct CMUnitTest cases[] = {
        cmocka_unit_test(single_steps_return_what_the_model_says),
        cmocka_unit_test(several_steps_in_one_call_return_what_single_ones_do),
        cmocka_unit_test(a_core_shows_what_the_model_says),
        cmocka_unit_test(a_call_that_is_out_of_memory_changes_nothing_and_succeeds_again),
        cmocka_unit_test(reserving_memory_changes_nothing_that_a_call_shows),
        cmocka_unit_test(a_core_is_quiet_once_nothing_is_left),
        cmocka_unit_test(settling_detects_the_end_as_the_model_does),
        cmocka_unit_test(a_core_restarts_if_the_model_does),
        cmocka_unit_test(a_core_has_a_trace_if_it_keeps_its_steps),
        cmocka_unit_test(sound_and_damaged_traces_are_audited_as_the_model_says),
        cmocka_unit_test(cores_open_and_close_as_the_model_says),
        cmocka_unit_test(a_core_that_is_not_open_refuses_each_call),
    };
    return RUN(cases);
}

int main(int argc, char **argv) {
    most = argc > 1 ? strtoull(argv[1], NULL, 10) : 100000;
    if (argc > 2) given_seed = argv[2], seed = strtoull(given_seed, NULL, 10) * 2 + 1;
    forgets = argc > 3 && argv[3][0] == 'f', is_early = argc > 3 && argv[3][0] == 'e';
    int failed = run_cases();
    if (failed) return failed;
    printf("%" PRIu64 " calls on %" PRIu64 " cores, %" PRIu64 " steps taken and %" PRIu64 " refused, ", calls, cores, counts[TAKEN],
           counts[REFUSED]);
    printf("%" PRIu64 " times quiet, %" PRIu64 " ends, %" PRIu64 " reopened, %" PRIu64 " restarted, %" PRIu64 " reserved, %" PRIu64
           " tasks left, ",
           counts[QUIET], counts[ENDED], counts[REOPENED], counts[RESTARTED], counts[RESERVED], counts[LEFT]);
    printf("%" PRIu64 " sound and %" PRIu64 " damaged traces, %" PRIu64 " allocations refused: as the model says\n", counts[SOUND],
           counts[UNSOUND], counts[NO_MEMORY]);
    return 0;
}
