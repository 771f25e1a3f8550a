/* texts.c: tests of the texts of the library: the trace of a core, the audit of a trace, and the texts of refusals. */
#define GERFMUOD_TRACED
#include "../cases.h"
#include <gerfmuod/core.h>

static void has(const char *buffer, gerfmuod_written it, unsigned outcome, const char *wanted) {
    assert_true(it.outcome == outcome && it.length == strlen(wanted) && memcmp(buffer, wanted, it.length) == 0);
}

/* The trace of a pool of three nodes that terminates, is reopened and terminates again; then its audit. */
CASE(trace_and_audit) {
    gerfmuod_core core;
    assert_int_equal(gerfmuod_core_open(&core, 3), 0);
    for (uint32_t generation = 1; generation <= 2; generation++) {
        if (generation == 2) assert_int_equal(gerfmuod_core_reopen(&core).number, 2);
        assert_int_equal(gerfmuod_core_insert(&core, 2, 5, 0).refused, 0);
        assert_int_equal(gerfmuod_core_begin(&core, 5).refused, 0);
        assert_int_equal(gerfmuod_core_send(&core, 2, 0, 1, generation).refused, 0);
        assert_int_equal(gerfmuod_core_done(&core, 5).refused, 0);
        for (uint32_t node = 0; node < 3; node++) assert_int_equal(gerfmuod_core_ready(&core, node).refused, 0);
        assert_int_equal(gerfmuod_core_receive(&core, 0, 1, generation).refused, 0);
        assert_int_equal(gerfmuod_core_message_end(&core, 0, 1, generation).refused, 0);
        assert_int_equal(gerfmuod_core_settle(&core).refused, 0);
    }
    gerfmuod_written asked = gerfmuod_core_trace(&core, NULL, 0);
    assert_true(asked.outcome == GERFMUOD_NO_ROOM && asked.length > 0);
    char *trace = malloc(asked.length), answer[256];
    assert_non_null(trace);
    gerfmuod_written written = gerfmuod_core_trace(&core, trace, asked.length);
    assert_true(written.outcome == GERFMUOD_WRITTEN && written.length == asked.length);
    assert_memory_equal(trace, "trace 2\nnodes 3\ninsert 2 5 0\n", 29);
    const char *summary = "steps 55\ntasks 2 done 2\nmessages 2 received 2\ngeneration 2\nended 1\n";
    has(answer, gerfmuod_audit(trace, written.length, answer, sizeof answer), GERFMUOD_WRITTEN, summary);
    gerfmuod_written small = gerfmuod_audit(trace, written.length, answer, 3);
    assert_true(small.outcome == GERFMUOD_NO_ROOM && small.length == strlen(summary));
    memcpy(trace + 18, "x", 1); /* inxert */
    has(answer, gerfmuod_audit(trace, written.length, answer, sizeof answer), GERFMUOD_COMPLAINT, "syntax line 3\n");
    free(trace);
    gerfmuod_core_close(&core);
}

/* A trace cannot have a number of seven digits. */
CASE(no_trace_of_large_numbers) {
    gerfmuod_core core;
    assert_int_equal(gerfmuod_core_open(&core, 2), 0);
    assert_int_equal(gerfmuod_core_step(&core, GERFMUOD_STEP_SEND, 0, 1, 1000000, 1).refused, 0);
    gerfmuod_written none = gerfmuod_core_trace(&core, NULL, 0);
    assert_true(none.outcome == GERFMUOD_NO_TEXT && none.length == 0);
    gerfmuod_core_close(&core);
}

/* A step of each kind, with this number for its task, action or message; then the same steps, with what makes them. */
static gerfmuod_step_result step_of_kind(gerfmuod_core *core, uint32_t kind, uint32_t number) {
    switch (kind) {
    case GERFMUOD_STEP_INSERT: return gerfmuod_core_insert(core, 0, number, 0);
    case GERFMUOD_STEP_SUPPLY: return gerfmuod_core_supply(core, number);
    case GERFMUOD_STEP_BEGIN: return gerfmuod_core_begin(core, number);
    case GERFMUOD_STEP_DONE: return gerfmuod_core_done(core, number);
    case GERFMUOD_STEP_ACTION_OPEN: return gerfmuod_core_action_open(core, 0, number);
    case GERFMUOD_STEP_ACTION_CLOSE: return gerfmuod_core_action_close(core, 0, number);
    case GERFMUOD_STEP_SEND: return gerfmuod_core_send(core, 0, 1, number, 1);
    case GERFMUOD_STEP_RECEIVE: return gerfmuod_core_receive(core, 1, number, 1);
    case GERFMUOD_STEP_MESSAGE_END: return gerfmuod_core_message_end(core, 1, number, 1);
    case 100: return gerfmuod_core_insert_by(core, GERFMUOD_BY_OPENING, 0, 0, number, 1);
    case 101: return gerfmuod_core_supply_by(core, GERFMUOD_BY_OPENING, 0, number);
    case 102: return gerfmuod_core_begin_at(core, 0, number);
    case 103: return gerfmuod_core_done_at(core, 0, number);
    case 104: return gerfmuod_core_action_open_by(core, GERFMUOD_BY_OPENING, 0, 0, number);
    default: return gerfmuod_core_send_by(core, GERFMUOD_BY_OPENING, 0, 0, 1, number, 1);
    }
}

/* With GERFMUOD_TRACED a step with a number of seven digits is refused at once, and the trace is there at the end. */
CASE(large_numbers_refused_at_once) {
    const uint32_t kinds[] = {GERFMUOD_STEP_INSERT, GERFMUOD_STEP_BEGIN, GERFMUOD_STEP_DONE, GERFMUOD_STEP_ACTION_OPEN,
                              GERFMUOD_STEP_ACTION_CLOSE, GERFMUOD_STEP_SEND, GERFMUOD_STEP_RECEIVE, GERFMUOD_STEP_MESSAGE_END};
    const size_t many = sizeof kinds / sizeof *kinds;
    gerfmuod_core core;
    assert_int_equal(gerfmuod_core_open(&core, 2), 0);
    for (uint32_t kind = 0; kind <= GERFMUOD_STEP_MESSAGE_END; kind++)
        if (kind != GERFMUOD_STEP_READY) assert_int_equal(step_of_kind(&core, kind, 1000000).refused, GERFMUOD_REFUSED_BAD_SPEC);
    for (uint32_t kind = 100; kind <= 105; kind++)
        assert_int_equal(step_of_kind(&core, kind, 4000000000u).refused, GERFMUOD_REFUSED_BAD_SPEC);
    assert_int_equal(gerfmuod_core_status(&core).steps, 0);
    for (size_t place = 0; place < many; place++) assert_int_equal(step_of_kind(&core, kinds[place], 999999).refused, 0);
    for (uint32_t kind = 100; kind <= 105; kind++) assert_int_equal(step_of_kind(&core, kind, 999998).refused, 0);
    assert_int_equal(gerfmuod_core_status(&core).steps, many + 6);
    assert_true(gerfmuod_core_is_traceable(GERFMUOD_STEP_START, 4000000000u, 4000000000u, 4000000000u));
    assert_true(gerfmuod_core_is_traceable(GERFMUOD_STEP_READY, 1, 4000000000u, 4000000000u));
    assert_int_equal(gerfmuod_core_trace(&core, NULL, 0).outcome, GERFMUOD_NO_ROOM);
    gerfmuod_core_close(&core);
}

CASE(audits) {
    char answer[256];
    const char *twice = "trace 1\nnodes 1\ninsert 0 4 0\nbegin 4\ndone 4\ndone 4\n";
    has(answer, gerfmuod_audit(twice, strlen(twice), answer, sizeof answer), GERFMUOD_COMPLAINT,
        "line 6 refused 5 WrongLife\n");
    const char *early = "trace 1\nnodes 1\nready 0\nstart\ngive 0\njudge ended 1\n";
    has(answer, gerfmuod_audit(early, strlen(early), answer, sizeof answer), GERFMUOD_COMPLAINT,
        "line 6 unjustified\n");
    has(answer, gerfmuod_audit(NULL, 0, answer, sizeof answer), GERFMUOD_COMPLAINT, "syntax line 1\n");
    char *much = calloc(33554433, 1);
    assert_true(much && gerfmuod_audit(much, 33554433, answer, sizeof answer).outcome == GERFMUOD_TOO_LONG);
    free(much);
}

/* Each static text is the name and the meaning of the refusal, as the library writes them, in 12 and 128 bytes at most, and no two
 * are the same. */
CASE(static_texts) {
    char name[12], meaning[128], text[160], seen[256][160];
    uint32_t named = 0;
    for (uint32_t number = 0; number < 256; number++) {
        gerfmuod_written own = gerfmuod_refusal_name(number, name, sizeof name);
        gerfmuod_written why = gerfmuod_refusal_meaning(number, meaning, sizeof meaning);
        assert_true(own.outcome == why.outcome && (own.outcome == GERFMUOD_WRITTEN || own.outcome == GERFMUOD_NO_TEXT));
        snprintf(text, sizeof text, "%.*s: %.*s", (int)own.length, name, (int)why.length, meaning);
        if (own.outcome == GERFMUOD_NO_TEXT) strcpy(text, "Unknown: there is no such refusal");
        assert_string_equal(gerfmuod_refusal_text(number), text);
        for (uint32_t other = 0; own.outcome == GERFMUOD_WRITTEN && other < named; other++) assert_string_not_equal(seen[other], text);
        if (own.outcome == GERFMUOD_WRITTEN) strcpy(seen[named++], text);
    }
    assert_int_equal(named, 1 + 26 + 2 + 6 + 11);
}

CASE(names_of_refusals) {
    char buffer[128];
    has(buffer, gerfmuod_refusal_name(GERFMUOD_REFUSED_NO_MESSAGE, buffer, sizeof buffer), GERFMUOD_WRITTEN, "NoMessage");
    has(buffer, gerfmuod_refusal_name(GERFMUOD_REFUSED_NO_MAKER, buffer, sizeof buffer), GERFMUOD_WRITTEN, "NoMaker");
    has(buffer, gerfmuod_refusal_meaning(GERFMUOD_REFUSED_NO_MESSAGE, buffer, sizeof buffer), GERFMUOD_WRITTEN,
        "no such message is in flight to that node");
    has(buffer, gerfmuod_refusal_name(GERFMUOD_REFUSED_NOT_WRITTEN, buffer, sizeof buffer), GERFMUOD_WRITTEN, "NotWritten");
    has(buffer, gerfmuod_refusal_meaning(GERFMUOD_REFUSED_MISCOUNTED, buffer, sizeof buffer), GERFMUOD_WRITTEN,
        "a message was sent uncounted, or its receipt was counted twice");
    has(buffer, gerfmuod_refusal_name(GERFMUOD_OK, buffer, sizeof buffer), GERFMUOD_WRITTEN, "Ok");
    assert_int_equal(gerfmuod_refusal_name(27, buffer, sizeof buffer).outcome, GERFMUOD_NO_TEXT);
    assert_int_equal(gerfmuod_refusal_meaning(112, buffer, sizeof buffer).outcome, GERFMUOD_NO_TEXT);
    assert_int_equal(gerfmuod_refusal_name(16, buffer, 2).outcome, GERFMUOD_NO_ROOM);
}

int main(void) {
    const struct CMUnitTest cases[] = {
        cmocka_unit_test(trace_and_audit), cmocka_unit_test(no_trace_of_large_numbers), cmocka_unit_test(large_numbers_refused_at_once),
        cmocka_unit_test(audits),          cmocka_unit_test(static_texts),              cmocka_unit_test(names_of_refusals),
    };
    return RUN(cases);
}
