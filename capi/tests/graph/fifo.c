/* fifo.c: with one thread, tasks of the lowest class run first, and of one class those first that became ready first. Each of the
 * first tasks has a reader, which becomes ready when it is done, and may wait for an input from outside, too; while every third of
 * them runs, it adds one more task, and releases that input. */
#define _POSIX_C_SOURCE 200809L
#include "check.h"

enum { FIRST = 400, MOST = 3 * FIRST, CLASSES = GERFMUOD_GRAPH_CLASSES };

static gerfmuod_team *team;
static uint32_t tasks = 2 * FIRST;
static uint32_t order[CLASSES][MOST], ready[CLASSES], next[CLASSES]; /* order: of each class, as they become ready */

static uint32_t class_of(uint32_t task) { return (task * 7 + task / 5) % CLASSES; }
static uint32_t reader_of(uint32_t task) { return 2 * FIRST - 1 - task; }
static void become_ready(uint32_t task) { order[class_of(task)][ready[class_of(task)]++] = task; }
static bool awaits(uint32_t reader) { return reader % 3 == 1; }

/* When the body of a task ends, the next call is the turn that reports it: then its reader becomes ready. */
static int body(void *context, uint32_t task) {
    uint32_t class_ = 0, added, *ran = context;
    while (class_ < CLASSES - 1 && next[class_] == ready[class_]) class_++;
    check("the first ready task of the lowest class", next[class_] < ready[class_] && order[class_][next[class_]] == task);
    next[class_]++, ++*ran;
    if (task >= FIRST) return 0;
    if (task % 3 == 0) {
        check_ok("one more task", gerfmuod_team_task(team, class_of(tasks), NULL, 0, &added));
        check("its number", added == tasks);
        become_ready(tasks++);
    }
    if (awaits(reader_of(task))) check_ok("a release", gerfmuod_team_release(team, reader_of(task)));
    become_ready(reader_of(task));
    return 0;
}

CASE(order_of_ready_tasks) {
    uint32_t ran = 0;
    team = new_team();
    for (uint32_t t = 0; t < 2 * FIRST; t++) {
        uint32_t input = reader_of(t), is_reader = t >= FIRST;
        check_ok("a task", gerfmuod_team_spawn(team, class_of(t), &input, is_reader, is_reader && awaits(t), NULL, NULL, NULL));
        if (!is_reader) become_ready(t);
    }
    check_ok("run", gerfmuod_team_run(team, 1, body, &ran));
    check("each task", ran == tasks && tasks == 2 * FIRST + (FIRST + 2) / 3);
    gerfmuod_team_close(team);
}

int main(void) {
    const struct CMUnitTest cases[] = {cmocka_unit_test(order_of_ready_tasks)};
    return RUN(cases);
}
