/* layout.c: checks that the library reads and writes a gerfmuod_process and a gerfmuod_tasks as C declares them, field by field, and
 * that bytes which are not a process or not a control message are refused and change nothing.
 *
 * Each check fills a struct in C, calls the library once, and compares the result and each byte except the padding at the end
 * with a struct that C wrote. Each field is read by some call and written by some call. With the argument `swapped` two fields
 * of the expected structs are swapped: then each case that compares them has to fail. */
#include "../cases.h"
#include "../random.h"
#include <gerfmuod/process.h>

enum { BYTES = offsetof(gerfmuod_process, over_right) + 1 };

static int is_swapped;
static uint64_t mark; /* of a process that is open */

static void check_at(int line, uint32_t got, uint32_t wanted, const gerfmuod_process *p, const gerfmuod_process *as) {
    gerfmuod_process expected = *as;
    if (is_swapped) {
        expected.taken_sent = as->taken_received;
        expected.taken_received = as->taken_sent;
    }
    bool is_same = got == wanted && !memcmp(p, &expected, BYTES);
    check_text(__FILE__, line, is_same, "returned %u, not %u, or another struct", (unsigned)got, (unsigned)wanted);
}
#define check(got, wanted, p, as) check_at(__LINE__, got, wanted, p, as)

static gerfmuod_control_message control_of(uint64_t epoch, uint64_t from, uint64_t to, uint64_t wave, uint32_t token, uint64_t sent,
                                           uint64_t received) {
    return (gerfmuod_control_message){epoch, from, to, wave, token, 13, sent, received};
}

static void check_control(const gerfmuod_control_message *got, gerfmuod_control_message wanted) {
    assert_memory_equal(got, &wanted, sizeof wanted);
}

/* Process 5 of 13: its children are 11 and 12, its parent is 2. Each number has bytes of its own. */
static gerfmuod_process known_bytes(uint64_t own_mark) {
    return (gerfmuod_process){.mark = own_mark, .epoch = 0x0102030405060708u, .number = 5, .processes = 13,
                              .pending = 0x010213141516u, .sent = 0x010223242526u, .received = 0x010233343536u,
                              .wave = 0x4142434445464748u, .taken_sent = 0x5152535455565758u,
                              .taken_received = 0x6162636465666768u, .last_received = 0x7172737475767778u};
}

CASE(readers) {
    gerfmuod_process p = known_bytes(mark);
    assert_int_equal(gerfmuod_process_is_open(&p), 1);
    assert_int_equal(gerfmuod_process_knows_end(&p), 0);
    assert_int_equal(gerfmuod_process_epoch(&p), p.epoch);
    assert_int_equal(gerfmuod_process_pending(&p), p.pending);
    assert_int_equal(gerfmuod_process_sent(&p), p.sent);
    assert_int_equal(gerfmuod_process_received(&p), p.received);
    assert_int_equal(gerfmuod_process_wave(&p), p.wave);
    p.over = true;
    assert_int_equal(gerfmuod_process_knows_end(&p), 1);
    p.mark ^= 1;
    assert_int_equal(gerfmuod_process_knows_end(&p), 0);
    assert_int_equal(gerfmuod_process_is_open(&p), 0);
}

CASE(work_and_messages) {
    gerfmuod_process p = known_bytes(mark), as = p;
    as.pending++;
    check(gerfmuod_process_add_work(&p), GERFMUOD_OK, &p, &as);
    as.pending--;
    check(gerfmuod_process_finish_work(&p), GERFMUOD_OK, &p, &as);
    as.sent++;
    check(gerfmuod_process_count_sent(&p), GERFMUOD_OK, &p, &as);
    as.sent++;
    check(gerfmuod_process_outgoing_message_start(&p), GERFMUOD_OK, &p, &as);
    as.pending++;
    as.received++;
    check(gerfmuod_process_count_received(&p, p.epoch), GERFMUOD_OK, &p, &as);
    as.pending++;
    as.received++;
    check(gerfmuod_process_incoming_message_start(&p, p.epoch), GERFMUOD_OK, &p, &as);
    as.pending--;
    check(gerfmuod_process_incoming_message_end(&p), GERFMUOD_OK, &p, &as);
    check(gerfmuod_process_count_received(&p, p.epoch + 1), GERFMUOD_REFUSED_NOT_YET, &p, &as);
    check(gerfmuod_process_count_received(&p, p.epoch - 1), GERFMUOD_REFUSED_LATE, &p, &as);
    check(gerfmuod_process_reopen(&p), GERFMUOD_REFUSED_NOT_ENDED, &p, &as);
    p.sent = as.sent = GERFMUOD_PROCESS_MAX_COUNT;
    check(gerfmuod_process_count_sent(&p), GERFMUOD_REFUSED_COUNT_FULL, &p, &as);
    p.received = as.received = GERFMUOD_PROCESS_MAX_COUNT;
    check(gerfmuod_process_count_received(&p, p.epoch), GERFMUOD_REFUSED_COUNT_FULL, &p, &as);
    p.pending = as.pending = GERFMUOD_PROCESS_MAX_COUNT;
    check(gerfmuod_process_add_work(&p), GERFMUOD_REFUSED_COUNT_FULL, &p, &as);
    p.pending = as.pending = 0;
    check(gerfmuod_process_add_work(&p), GERFMUOD_REFUSED_NO_WORK, &p, &as);
    check(gerfmuod_process_finish_work(&p), GERFMUOD_REFUSED_NO_WORK, &p, &as);
    check(gerfmuod_process_count_sent(&p), GERFMUOD_REFUSED_NO_WORK, &p, &as);
}

/* The wave comes from the parent, goes to both children, comes back from both, and goes up. */
CASE(wave) {
    gerfmuod_process p = known_bytes(mark), as;
    gerfmuod_control_message c;
    c = control_of(p.epoch, 2, 5, p.wave + 1, GERFMUOD_PROCESS_TOKEN_DOWN, 0, 0);
    as = p;
    for (int bit = 0; bit < 32; bit++) {
        c.processes = 13 ^ (uint32_t)1 << bit;
        check(gerfmuod_process_take(&p, &c), GERFMUOD_REFUSED_MISMATCHED, &p, &as);
    }
    p.processes = as.processes = c.processes = 12;
    as.wave++;
    as.here = as.down_left = as.up_left = true;
    as.taken_sent = as.taken_received = 0;
    check(gerfmuod_process_take(&p, &c), GERFMUOD_OK, &p, &as);
    check(gerfmuod_process_take(&p, &c), GERFMUOD_REFUSED_NOT_DUE, &p, &as);
    p = known_bytes(mark);
    as.processes = c.processes = 13;
    as.down_right = as.up_right = true;
    check(gerfmuod_process_take(&p, &c), GERFMUOD_OK, &p, &as);

    as.down_left = false;
    check(gerfmuod_process_next(&p, &c), GERFMUOD_PROCESS_SEND, &p, &as);
    check_control(&c, control_of(p.epoch, 5, 11, p.wave, GERFMUOD_PROCESS_TOKEN_DOWN, 0, 0));
    as.down_right = false;
    check(gerfmuod_process_next(&p, &c), GERFMUOD_PROCESS_SEND, &p, &as);
    check_control(&c, control_of(p.epoch, 5, 12, p.wave, GERFMUOD_PROCESS_TOKEN_DOWN, 0, 0));
    p.pending = as.pending = 0;
    check(gerfmuod_process_next(&p, &c), GERFMUOD_PROCESS_NOTHING, &p, &as);

    p.taken_sent = as.taken_sent = 0x5152535455565758u;
    p.taken_received = as.taken_received = 0x6162636465666768u;
    c = control_of(p.epoch, 12, 5, p.wave, GERFMUOD_PROCESS_TOKEN_UP, 0x91929394, 0xa1a2a3a4);
    as.up_right = false;
    as.taken_sent += c.sent;
    as.taken_received += c.received;
    check(gerfmuod_process_take(&p, &c), GERFMUOD_OK, &p, &as);
    check(gerfmuod_process_take(&p, &c), GERFMUOD_REFUSED_NOT_DUE, &p, &as);
    check(gerfmuod_process_next(&p, &c), GERFMUOD_PROCESS_NOTHING, &p, &as);
    c.from = 11;
    as.up_left = false;
    as.taken_sent += c.sent;
    as.taken_received += c.received;
    check(gerfmuod_process_take(&p, &c), GERFMUOD_OK, &p, &as);
    p.pending = as.pending = 1;
    check(gerfmuod_process_next(&p, &c), GERFMUOD_PROCESS_NOTHING, &p, &as);
    p.pending = as.pending = 0;
    as.here = false;
    check(gerfmuod_process_next(&p, &c), GERFMUOD_PROCESS_SEND, &p, &as);
    check_control(&c, control_of(p.epoch, 5, 2, p.wave, GERFMUOD_PROCESS_TOKEN_UP, p.taken_sent + p.sent, p.taken_received + p.received));
    check(gerfmuod_process_next(&p, &c), GERFMUOD_PROCESS_NOTHING, &p, &as);
}

/* Process 0 judges a wave that does not show the end, and one that does; then it notifies both children of the end. */
CASE(end) {
    gerfmuod_process p = known_bytes(mark), as;
    gerfmuod_control_message c = control_of(0, 0, 0, 0, 0, 0, 0);
    p.number = 0;
    p.pending = 0;
    p.here = true;
    as = p;
    as.here = false;
    as.known = true;
    as.last_received = p.taken_received + p.received;
    check(gerfmuod_process_next(&p, &c), GERFMUOD_PROCESS_AGAIN, &p, &as);
    p.here = true;
    p.last_received = p.taken_sent + p.sent;
    p.known = false;
    as.last_received = p.taken_received + p.received;
    check(gerfmuod_process_next(&p, &c), GERFMUOD_PROCESS_AGAIN, &p, &as);
    p.here = as.here = true;
    p.last_received = as.last_received = p.taken_sent + p.sent;
    as.over = as.over_left = as.over_right = true;
    check(gerfmuod_process_next(&p, &c), GERFMUOD_PROCESS_AGAIN, &p, &as);
    as.over_left = false;
    check(gerfmuod_process_next(&p, &c), GERFMUOD_PROCESS_SEND, &p, &as);
    check_control(&c, control_of(p.epoch, 0, 1, p.wave, GERFMUOD_PROCESS_TOKEN_OVER, 0, 0));
    check(gerfmuod_process_reopen(&p), GERFMUOD_REFUSED_NOT_ENDED, &p, &as);
    as.over_right = false;
    check(gerfmuod_process_next(&p, &c), GERFMUOD_PROCESS_SEND, &p, &as);
    check_control(&c, control_of(p.epoch, 0, 2, p.wave, GERFMUOD_PROCESS_TOKEN_OVER, 0, 0));
    check(gerfmuod_process_next(&p, &c), GERFMUOD_PROCESS_ENDED, &p, &as);

    p.number = as.number = 5;
    p.over = false;
    as.over_left = as.over_right = true;
    c = control_of(p.epoch, 2, 5, 0, GERFMUOD_PROCESS_TOKEN_OVER, 0, 0);
    check(gerfmuod_process_take(&p, &c), GERFMUOD_OK, &p, &as);
    check(gerfmuod_process_take(&p, &c), GERFMUOD_REFUSED_NOT_DUE, &p, &as);
    p.over_left = p.over_right = false;

    as = (gerfmuod_process){.mark = mark, .epoch = p.epoch + 1, .number = 5, .processes = 13, .pending = 1};
    check(gerfmuod_process_reopen(&p), GERFMUOD_OK, &p, &as);
    p.over = as.over = true;
    p.epoch = as.epoch = UINT64_MAX;
    check(gerfmuod_process_reopen(&p), GERFMUOD_REFUSED_COUNT_FULL, &p, &as);
}

/* Every call refuses a struct whose mark has one wrong bit, and does not change it. */
CASE(not_open) {
    for (int bit = 0; bit < 64; bit++) {
        gerfmuod_process p = known_bytes(mark ^ (uint64_t)1 << bit), as = p;
        gerfmuod_control_message c = control_of(p.epoch, 2, 5, p.wave + 1, GERFMUOD_PROCESS_TOKEN_DOWN, 0, 0);
        check(gerfmuod_process_add_work(&p), GERFMUOD_REFUSED_NOT_OPEN, &p, &as);
        check(gerfmuod_process_finish_work(&p), GERFMUOD_REFUSED_NOT_OPEN, &p, &as);
        check(gerfmuod_process_count_sent(&p), GERFMUOD_REFUSED_NOT_OPEN, &p, &as);
        check(gerfmuod_process_count_received(&p, p.epoch), GERFMUOD_REFUSED_NOT_OPEN, &p, &as);
        check(gerfmuod_process_outgoing_message_start(&p), GERFMUOD_REFUSED_NOT_OPEN, &p, &as);
        check(gerfmuod_process_incoming_message_start(&p, 0), GERFMUOD_REFUSED_NOT_OPEN, &p, &as);
        check(gerfmuod_process_incoming_message_end(&p), GERFMUOD_REFUSED_NOT_OPEN, &p, &as);
        check(gerfmuod_process_take(&p, &c), GERFMUOD_REFUSED_NOT_OPEN, &p, &as);
        check(gerfmuod_process_next(&p, &c), GERFMUOD_REFUSED_NOT_OPEN, &p, &as);
        check_control(&c, control_of(p.epoch, 2, 5, p.wave + 1, GERFMUOD_PROCESS_TOKEN_DOWN, 0, 0));
        check(gerfmuod_process_reopen(&p), GERFMUOD_REFUSED_NOT_OPEN, &p, &as);
        c.token = 3;
        check(gerfmuod_process_take(&p, &c), GERFMUOD_REFUSED_NOT_OPEN, &p, &as);
    }
}

static uint8_t *flags_of(gerfmuod_process *p) { return &p->known; }

/* A flag is set if its byte is not 0: other bytes than 1 lead to the same results and states. */
CASE(any_flags) {
    enum { FLAGS = BYTES - offsetof(gerfmuod_process, known) };
    for (uint32_t k = 0; k < 1u << FLAGS; k++) {
        gerfmuod_process p = known_bytes(mark), q;
        gerfmuod_control_message c, d;
        memset(&c, 0, sizeof c);
        p.pending = k % 3 ? 0 : 1;
        q = p;
        for (int f = 0; f < FLAGS; f++) flags_of(&p)[f] = k >> f & 1;
        for (int f = 0; f < FLAGS; f++) flags_of(&q)[f] = (uint8_t)((k >> f & 1) * (2 + (k * 31 + (uint32_t)f * 7) % 254));
        d = c;
        assert_int_equal(gerfmuod_process_knows_end(&q), gerfmuod_process_knows_end(&p));
        uint32_t next = gerfmuod_process_next(&p, &c);
        assert_int_equal(gerfmuod_process_next(&q, &d), next);
        assert_int_equal(memcmp(&c, &d, sizeof c) != 0, 0);
        for (int f = 0; f < FLAGS; f++) flags_of(&q)[f] = flags_of(&q)[f] != 0;
        check(next, next, &q, &p);
    }
}

/* Random bytes as a control message are refused and change nothing. */
CASE(any_bytes) {
    seed = 0x9e3779b97f4a7c15u;
    for (int k = 0; k < 100000; k++) {
        gerfmuod_process p = known_bytes(mark), as = p;
        gerfmuod_control_message c;
        unsigned char *bytes = (unsigned char *)&c;
        for (size_t b = 0; b < sizeof c; b++) {
            bytes[b] = (unsigned char)below(256);
        }
        check(gerfmuod_process_take(&p, &c), GERFMUOD_REFUSED_MALFORMED, &p, &as);
        c.token %= 3;
        check(gerfmuod_process_take(&p, &c), c.epoch > p.epoch ? GERFMUOD_REFUSED_NOT_YET : GERFMUOD_REFUSED_LATE, &p, &as);
        c.epoch = p.epoch;
        check(gerfmuod_process_take(&p, &c), GERFMUOD_REFUSED_MISMATCHED, &p, &as);
        c.processes = 13;
        check(gerfmuod_process_take(&p, &c), GERFMUOD_REFUSED_NOT_DUE, &p, &as);
    }
}

static void check_tasks_at(int line, uint32_t got, uint32_t wanted, const gerfmuod_tasks *t, const gerfmuod_tasks *as) {
    uint64_t running = is_swapped ? as->due : as->running, due = is_swapped ? as->running : as->due;
    bool is_same = got == wanted && t->waiting == as->waiting && t->running == running && t->due == due && t->opening == as->opening;
    check_text(__FILE__, line, is_same, "returned %u, not %u, or another struct", (unsigned)got, (unsigned)wanted);
}
#define check_tasks(got, wanted, t, as) check_tasks_at(__LINE__, got, wanted, t, as)

/* The calls on the tasks alone: each field is read and written, each refusal is returned, and a refused call changes nothing. */
CASE(tasks_alone) {
    const uint64_t most = GERFMUOD_PROCESS_MAX_COUNT;
    gerfmuod_tasks t, as = {.waiting = 0, .running = 0, .due = 0, .opening = 1};
    memset(&t, 0xff, sizeof t);
    gerfmuod_tasks_open(&t);
    check_tasks(0, 0, &t, &as);
    t = as = (gerfmuod_tasks){.waiting = 0x010203040506u, .running = 0x011213141516u, .due = 0x012223242526u, .opening = 0x80};
    assert_int_equal(gerfmuod_tasks_waiting(&t), as.waiting);
    assert_int_equal(gerfmuod_tasks_running(&t), as.running);
    assert_int_equal(gerfmuod_tasks_due(&t), as.due);
    assert_int_equal(gerfmuod_tasks_is_opening(&t) && !gerfmuod_tasks_is_idle(&t), 1);
    as.waiting++, check_tasks(gerfmuod_tasks_add(&t), GERFMUOD_OK, &t, &as);
    as.due++, check_tasks(gerfmuod_tasks_add_due(&t), GERFMUOD_OK, &t, &as);
    as.waiting--, as.running++, check_tasks(gerfmuod_tasks_begin(&t), GERFMUOD_OK, &t, &as);
    as.running--, check_tasks(gerfmuod_tasks_done(&t), GERFMUOD_OK, &t, &as);
    as.waiting--, as.due++, check_tasks(gerfmuod_tasks_give(&t), GERFMUOD_OK, &t, &as);
    as.opening = 0, check_tasks(gerfmuod_tasks_close(&t), GERFMUOD_OK, &t, &as);
    check_tasks(gerfmuod_tasks_close(&t), GERFMUOD_REFUSED_NO_WORK, &t, &as);
    t.waiting = as.waiting = t.running = as.running = t.due = as.due = most;
    check_tasks(gerfmuod_tasks_add(&t), GERFMUOD_REFUSED_COUNT_FULL, &t, &as);
    check_tasks(gerfmuod_tasks_add_due(&t), GERFMUOD_REFUSED_COUNT_FULL, &t, &as);
    check_tasks(gerfmuod_tasks_begin(&t), GERFMUOD_REFUSED_COUNT_FULL, &t, &as);
    check_tasks(gerfmuod_tasks_give(&t), GERFMUOD_REFUSED_COUNT_FULL, &t, &as);
    as.waiting = 0, gerfmuod_tasks_drop_waiting(&t), check_tasks(0, 0, &t, &as);
    check_tasks(gerfmuod_tasks_begin(&t), GERFMUOD_REFUSED_NO_WORK, &t, &as);
    check_tasks(gerfmuod_tasks_give(&t), GERFMUOD_REFUSED_NO_WORK, &t, &as);
    t.running = as.running = 0;
    check_tasks(gerfmuod_tasks_done(&t), GERFMUOD_REFUSED_NO_WORK, &t, &as);
    check_tasks(gerfmuod_tasks_add(&t), GERFMUOD_REFUSED_NO_WORK, &t, &as);
    check_tasks(gerfmuod_tasks_add_due(&t), GERFMUOD_REFUSED_NO_WORK, &t, &as);
}

/* The calls on the tasks and the process. */
CASE(tasks_and_process) {
    gerfmuod_process p = known_bytes(mark), is = p;
    gerfmuod_tasks t = {.waiting = 0x010203040506u, .running = 0, .due = 1, .opening = 0}, as = t;
    as.due--, is.sent++, check_tasks(gerfmuod_tasks_send(&t, &p), GERFMUOD_OK, &t, &as), check(0, 0, &p, &is);
    check_tasks(gerfmuod_tasks_send(&t, &p), GERFMUOD_REFUSED_NO_WORK, &t, &as);
    as.waiting++, is.received++, check_tasks(gerfmuod_tasks_receive(&t, &p, p.epoch), GERFMUOD_OK, &t, &as), check(0, 0, &p, &is);
    check_tasks(gerfmuod_tasks_receive(&t, &p, p.epoch + 1), GERFMUOD_REFUSED_NOT_YET, &t, &as);
    check_tasks(gerfmuod_tasks_receive(&t, &p, p.epoch - 1), GERFMUOD_REFUSED_LATE, &t, &as);
    p.pending = 0, is.pending = 1, as.waiting++, is.received++;
    check_tasks(gerfmuod_tasks_receive(&t, &p, p.epoch), GERFMUOD_OK, &t, &as), check(0, 0, &p, &is);
    check_tasks(gerfmuod_tasks_settle(&t, &p), 0, &t, &as), check(0, 0, &p, &is);
    t.waiting = as.waiting = GERFMUOD_PROCESS_MAX_COUNT;
    check_tasks(gerfmuod_tasks_receive(&t, &p, p.epoch), GERFMUOD_REFUSED_COUNT_FULL, &t, &as);
    t.waiting = as.waiting = 0, is.pending = 0;
    check_tasks(gerfmuod_tasks_settle(&t, &p), 1, &t, &as), check(0, 0, &p, &is);
    check_tasks(gerfmuod_tasks_settle(&t, &p), 0, &t, &as), check(0, 0, &p, &is);
    check_tasks(gerfmuod_tasks_reopen(&t, &p), GERFMUOD_REFUSED_NOT_ENDED, &t, &as), check(0, 0, &p, &is);
    p.over = true, is = (gerfmuod_process){.mark = mark, .epoch = p.epoch + 1, .number = 5, .processes = 13, .pending = 1};
    as.opening = 1, check_tasks(gerfmuod_tasks_reopen(&t, &p), GERFMUOD_OK, &t, &as), check(0, 0, &p, &is);
    t.due = as.due = 1, p.mark = is.mark = mark ^ 1;
    check_tasks(gerfmuod_tasks_send(&t, &p), GERFMUOD_REFUSED_NOT_OPEN, &t, &as);
    check_tasks(gerfmuod_tasks_receive(&t, &p, p.epoch), GERFMUOD_REFUSED_NOT_OPEN, &t, &as);
    check_tasks(gerfmuod_tasks_settle(&t, &p), GERFMUOD_REFUSED_NOT_OPEN, &t, &as);
    check_tasks(gerfmuod_tasks_reopen(&t, &p), GERFMUOD_REFUSED_NOT_OPEN, &t, &as), check(0, 0, &p, &is);
}

CASE(beginnings) {
    gerfmuod_process p, none = {.pending = 1};
    const gerfmuod_process as = {.mark = 0x67657266u, .number = 0x01020304, .processes = 0x81020304u, .pending = 1};
    memset(&p, 0xff, sizeof p);
    check(gerfmuod_process_init(&p, 0, 0), GERFMUOD_REFUSED_NO_PROCESS, &p, &none);
    check(gerfmuod_process_init(&p, 7, 7), GERFMUOD_REFUSED_NO_PROCESS, &p, &none);
    assert_int_equal(gerfmuod_process_is_open(&p), 0);
    memset(&p, 0xff, sizeof p);
    check(gerfmuod_process_init(&p, as.number, as.processes), GERFMUOD_OK, &p, &as);
}

int main(int argc, char **argv) {
    const struct CMUnitTest cases[] = {
        cmocka_unit_test(beginnings), cmocka_unit_test(readers),   cmocka_unit_test(work_and_messages),
        cmocka_unit_test(wave),       cmocka_unit_test(end),       cmocka_unit_test(not_open),
        cmocka_unit_test(any_flags),  cmocka_unit_test(any_bytes), cmocka_unit_test(tasks_alone),
        cmocka_unit_test(tasks_and_process),
    };
    gerfmuod_process first;
    is_swapped = argc > 1 && !strcmp(argv[1], "swapped");
    if (gerfmuod_process_init(&first, 0, 1)) return 99;
    mark = first.mark;
    return RUN(cases);
}
