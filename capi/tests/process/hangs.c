/* hangs.c: programs of six processes that hang, or count wrongly, by one mistake each, and what gerfmuod_process_text says of them. As
 * docs/DISTRIBUTED.md describes, each case goes from process 5 to the process that its line waits for, and so on, and compares the
 * number and the line of the process where that ends: the first that waits for no other one, or that waits for the one before it.
 *
 * A message is a task, which sends two messages if it is above the leaves. The network brings all in the order in which they were sent. */
#include "../cases.h"
#include <gerfmuod/process.h>

enum { N = 6, DEPTH = 6, ROOM = 1 << 12, EVENTS = 1 << 12 };
enum mistake { RIGHT, UNCOUNTED, TWICE, TWICE_AND_FINISHED_ONCE, UNFINISHED, DOWN_NOT_SENT, UP_NOT_SENT, OVER_NOT_SENT, NO_NEXT, LOST };

typedef struct {
    bool is_control;
    int depth; /* of a task */
    gerfmuod_control_message control;
} item;

static enum mistake mistake;
static gerfmuod_process process[N];
static item network[ROOM];
static size_t first, last;

static void must(uint32_t refused) { assert_int_equal(refused, GERFMUOD_OK); }

static void deliver(item it) {
    assert_true(last - first < ROOM);
    network[last++ % ROOM] = it;
}

static bool is_lost(const gerfmuod_control_message *c) {
    return (mistake == DOWN_NOT_SENT && c->token == GERFMUOD_PROCESS_TOKEN_DOWN && c->to == 4 && c->wave == 2) ||
           (mistake == UP_NOT_SENT && c->token == GERFMUOD_PROCESS_TOKEN_UP && c->from == 4) ||
           (mistake == OVER_NOT_SENT && c->token == GERFMUOD_PROCESS_TOKEN_OVER && c->to == 5);
}

/* Calls next as long as there is something to send. */
static uint32_t ask(int i) {
    item it = {true, 0, {0, 0, 0, 0, 0, 0, 0, 0}};
    uint32_t next;
    while ((next = gerfmuod_process_next(&process[i], &it.control)) == GERFMUOD_PROCESS_SEND)
        if (!is_lost(&it.control)) deliver(it);
    return next;
}

/* Process i runs a task, at whose end it has sent messages to the processes after it. */
static void run_task(int i, int depth) {
    for (int k = 1; depth > 0 && k <= 2; k++) {
        item it = {false, depth - 1, {0, 0, (uint64_t)(i + k) % N, 0, 0, 0, 0, 0}};
        if (!(mistake == UNCOUNTED && i == 2)) must(gerfmuod_process_count_sent(&process[i]));
        if (!(mistake == LOST && i == 3 && depth == 1)) deliver(it);
    }
}

static void receive(int i, int depth) {
    bool is_twice = i == 4 && (mistake == TWICE || mistake == TWICE_AND_FINISHED_ONCE);
    must(gerfmuod_process_count_received(&process[i], 0));
    if (is_twice) must(gerfmuod_process_count_received(&process[i], 0));
    run_task(i, depth);
    if (mistake == UNFINISHED && i == 4 && depth == 0) return;
    must(gerfmuod_process_finish_work(&process[i]));
    if (is_twice && mistake == TWICE) must(gerfmuod_process_finish_work(&process[i]));
}

/* Runs the program until nothing happens any more, or for some events. Returns whether all processes know the end. */
static bool run(enum mistake which) {
    uint32_t next = GERFMUOD_PROCESS_AGAIN;
    mistake = which, first = last = 0;
    for (int i = 0; i < N; i++) must(gerfmuod_process_init(&process[i], (uint32_t)i, N));
    run_task(0, DEPTH);
    for (int i = 0; i < N; i++) must(gerfmuod_process_finish_work(&process[i]));
    for (int events = 0; events < EVENTS && (first < last || next == GERFMUOD_PROCESS_AGAIN); events++) {
        int i = 0;
        if (first < last) {
            item it = network[first++ % ROOM];
            i = (int)it.control.to;
            if (it.is_control) must(gerfmuod_process_take(&process[i], &it.control));
            else receive(i, it.depth);
            if (mistake == NO_NEXT && i == 4 && it.is_control) continue;
        }
        uint32_t returned = ask(i);
        if (i == 0) next = returned;
    }
    for (int i = 0; i < N; i++)
        if (!gerfmuod_process_knows_end(&process[i])) return false;
    return true;
}

/* Returns the process that a line waits for; -1 if there is none. */
static int waits_for(const char *line) {
    const char *from = strstr(line, "from process");
    return from ? atoi(from + strcspn(from, "0123456789")) : -1;
}

/* Goes from process 5 to the one that it waits for, and so on, as a reader of the lines does. */
static void leads_to(enum mistake which, int number, const char *reason) {
    int i = N - 1, before = -1, next;
    assert_false(run(which));
    for (int k = 0; k < 2 * N && (next = waits_for(gerfmuod_process_text(&process[i]))) >= 0 && next != before; k++) before = i, i = next;
    assert_int_equal(i, number);
    assert_string_equal(strstr(gerfmuod_process_text(&process[i]), "; ") + 2, reason);
}

CASE(no_mistake) {
    assert_true(run(RIGHT));
    for (int i = 0; i < N; i++) assert_non_null(strstr(gerfmuod_process_text(&process[i]), "; knows the end"));
}
CASE(uncounted_message) { leads_to(UNCOUNTED, 0, "refused: Miscounted: a message was sent uncounted, or its receipt was counted twice"); }
CASE(receipt_counted_twice) { leads_to(TWICE, 0, "refused: Miscounted: a message was sent uncounted, or its receipt was counted twice"); }
CASE(receipt_counted_twice_and_finished_once) { leads_to(TWICE_AND_FINISHED_ONCE, 4, "waits for its open work"); }
CASE(unfinished_work) { leads_to(UNFINISHED, 4, "waits for its open work"); }
CASE(wave_that_was_not_sent) {
    leads_to(DOWN_NOT_SENT, 4, "waits for wave 2, or the end, from process 1");
    assert_non_null(strstr(gerfmuod_process_text(&process[1]), "; waits for the wave to come back from process 4"));
}
CASE(report_that_was_not_sent) {
    leads_to(UP_NOT_SENT, 4, "waits for wave 2, or the end, from process 1");
    assert_non_null(strstr(gerfmuod_process_text(&process[1]), "; waits for the wave to come back from process 4"));
}
CASE(end_that_was_not_sent) { leads_to(OVER_NOT_SENT, 2, "knows the end"); }
CASE(next_that_is_not_called) {
    leads_to(NO_NEXT, 4, "gerfmuod_process_next is due, which has a control message for process 1");
}
CASE(message_that_is_lost) {
    uint64_t sent = 0, received = 0;
    assert_false(run(LOST));
    for (int i = 0; i < N; i++) sent += process[i].sent, received += process[i].received;
    assert_true(sent > received && gerfmuod_process_wave(&process[0]) > 100);
}

CASE(line) {
    gerfmuod_process p;
    gerfmuod_control_message c;
    must(gerfmuod_process_init(&p, 1, 5));
    must(gerfmuod_process_count_received(&p, 0));
    for (int k = 0; k < 3; k++) must(gerfmuod_process_count_sent(&p));
    assert_string_equal(gerfmuod_process_text(&p), "process 1 of 5, epoch 0: 2 pieces of work open, 3 messages sent, 1 received, "
                                                   "wave 0; waits for wave 1, or the end, from process 0");
    must(gerfmuod_process_init(&p, 0, 2));
    assert_non_null(strstr(gerfmuod_process_text(&p), "wave 0; waits for its open work"));
    must(gerfmuod_process_init(&p, 0, 3));
    must(gerfmuod_process_finish_work(&p));
    for (int k = 0; k < 2; k++) assert_int_equal(gerfmuod_process_next(&p, &c), GERFMUOD_PROCESS_SEND);
    p.epoch = 7;
    assert_string_equal(gerfmuod_process_text(&p), "process 0 of 3, epoch 7: 0 pieces of work open, 0 messages sent, 0 received, "
                                                   "wave 1; waits for the wave to come back from processes 1 and 2");
    c = (gerfmuod_control_message){7, 2, 0, 1, GERFMUOD_PROCESS_TOKEN_UP, 3, 0, 0};
    must(gerfmuod_process_take(&p, &c));
    assert_non_null(strstr(gerfmuod_process_text(&p), "; waits for the wave to come back from process 1"));
    must(gerfmuod_process_init(&p, 0, 1));
    must(gerfmuod_process_finish_work(&p));
    assert_non_null(strstr(gerfmuod_process_text(&p), "; gerfmuod_process_next is due, which judges the wave"));
    p.mark = 0;
    assert_string_equal(gerfmuod_process_text(&p), "no process is open");
}

int main(void) {
    const struct CMUnitTest cases[] = {
        cmocka_unit_test(no_mistake), cmocka_unit_test(uncounted_message), cmocka_unit_test(receipt_counted_twice),
        cmocka_unit_test(receipt_counted_twice_and_finished_once), cmocka_unit_test(unfinished_work),
        cmocka_unit_test(wave_that_was_not_sent),
        cmocka_unit_test(report_that_was_not_sent), cmocka_unit_test(end_that_was_not_sent), cmocka_unit_test(next_that_is_not_called),
        cmocka_unit_test(message_that_is_lost), cmocka_unit_test(line),
    };
    return RUN(cases);
}
