/* traces.c: the trace of a team's run, which the library's gerfmuod_audit has to find sound, and traces with a damage, which it has
 * to refuse. */
#define _POSIX_C_SOURCE 200809L
#include <gerfmuod/core.h>
#include "check.h"

enum { TASKS = 30, LONGEST = 1 << 14, LINES = 3 * TASKS + 10 };

static gerfmuod_team *team;

/* The first task adds the last five. */
static int body(void *context, uint32_t task) {
    (void)context;
    for (uint32_t k = 0; task == 0 && k < 5; k++)
        if (gerfmuod_team_task(team, k % 4, &task, 1, NULL)) return 1;
    return 0;
}

/* Opens a traced team in which each task reads the one before it, and another one. */
static void open_team(uint32_t tasks) {
    check_ok("open", gerfmuod_team_open_traced(&team));
    for (uint32_t t = 0; t < tasks; t++) {
        const uint32_t inputs[] = {t - 1, t / 2};
        check_ok("task", gerfmuod_team_task(team, t % 4, inputs, t ? 2 : 0, NULL));
    }
}

/* Judges a trace. Returns whether it is sound, and if so, whether it ended. */
static bool is_sound(const char *text, bool *has_ended) {
    char verdict[256] = "";
    gerfmuod_written judged = gerfmuod_audit(text, strlen(text), verdict, sizeof verdict - 1);
    *has_ended = strstr(verdict, "\nended 1\n");
    return judged.outcome == GERFMUOD_WRITTEN;
}

static void check_sound(const char *what, const char *text, bool wants_end) {
    bool has_ended;
    check(what, is_sound(text, &has_ended));
    check("its end", has_ended == wants_end);
}

/* ---- the text */
CASE(text_of_a_run) {
    static const char wanted[] = "trace 1\nnodes 1\ninsert 0 0 0\nready 0\nbegin 0\ndone 0\nstart\ngive 0\njudge not\nstart\ngive 0\n"
                                 "judge ended 1\n";
    char text[LONGEST], part[sizeof wanted + 1];
    open_team(1);
    check_ok("start", gerfmuod_team_start(team, 1));
    check("a task", gerfmuod_team_turn(team, GERFMUOD_GRAPH_NONE).number == 0);
    check("a part of the run", gerfmuod_team_trace(team, text, sizeof text) == strlen(text));
    check_sound("which is sound", text, false);
    check("the end", gerfmuod_team_turn(team, 0).next == GERFMUOD_GRAPH_OVER);
    check("the length", gerfmuod_team_trace(team, NULL, 0) == sizeof wanted - 1);
    for (size_t length = 1; length < sizeof part; length++) {
        memset(part, 'x', sizeof part);
        check("the length of all", gerfmuod_team_trace(team, part, length) == sizeof wanted - 1);
        size_t written = length < sizeof wanted ? length - 1 : sizeof wanted - 1;
        check("what there is room for", !strncmp(part, wanted, written) && part[written] == 0 && part[length] == 'x');
    }
    gerfmuod_team_close(team);
    team = new_team();
    check("no trace", gerfmuod_team_trace(team, part, sizeof part) == 0 && !part[0]);
    gerfmuod_team_close(team);
}

/* ---- damages of the trace of a run with one thread, in which each task is done before the next one begins */
static char lines[LINES][32];
static int count, judged;

static void split(const char *text) {
    for (count = 0; *text; text = strchr(text, '\n') + 1) snprintf(lines[count++], sizeof *lines, "%.*s", (int)strcspn(text, "\n"), text);
}

/* Writes the lines with one of them in another place, or not at all if that is the last one, or twice. */
static void join(char *text, int from, int to, bool is_twice) {
    *text = 0;
    for (int k = 0; k <= count; k++) {
        if (k == to && to < count) strcat(strcat(text, lines[from]), "\n");
        if (k < count && (k != from || is_twice)) strcat(strcat(text, lines[k]), "\n");
    }
}

static bool begins(int line, const char *word) { return line >= 0 && line < count && !strncmp(lines[line], word, strlen(word)); }

static void check_damage(const char *what, int from, int to, bool is_twice) {
    char text[LONGEST];
    bool has_ended;
    join(text, from, to, is_twice);
    bool is_refused = !is_sound(text, &has_ended);
    check_that(is_refused, "%s: line %d: %s", what, from + 1, lines[from]);
    judged++;
}

CASE(damages) {
    char text[LONGEST];
    open_team(TASKS - 5);
    check_ok("run", gerfmuod_team_run(team, 1, body, NULL));
    check("the length", gerfmuod_team_trace(team, text, sizeof text) == strlen(text));
    check_sound("the trace", text, true);
    split(text);
    check("two lines of a head, three of each task, one, and six of waves", count == 3 * TASKS + 9);
    for (int k = 0; k < count; k++) {
        if (k < count - 1) check_damage("a line is not there", k, count, false);
        check_damage("a line comes twice", k, k, true);
        if (begins(k, "begin")) check_damage("a task is done before it begins", k, k + 2, false);
        if (begins(k, "begin")) check_damage("a task begins twice", k, k + 2, true);
        if (begins(k, "done")) check_damage("a task is done after the end", k, count - 1, false);
        if (begins(k, "insert")) check_damage("a task is inserted after it began", k, count - 7, false);
        if (begins(k, "start") || begins(k, "give")) check_damage("two lines of a wave are swapped", k, k + 2, false);
        if (begins(k, "nodes") || begins(k, "trace")) check_damage("a head that is not the first", k, k + 2, false);
    }
    for (int k = 2; k < count - 6; k++) {
        check_damage("an end too early", count - 1, k, false);
        check_damage("a wave too early", count - 5, k, false);
    }
    check("each damage was tried", judged == 505);
    gerfmuod_team_close(team);
}

/* ---- runs on several threads, the second of which a body ends that fails */
static int fail_in_the_middle(void *is_failing, uint32_t task) { return is_failing && task == TASKS / 2; }

CASE(runs_on_several_threads) {
    char text[LONGEST];
    for (uint32_t threads = 1; threads <= 8; threads *= 2) {
        open_team(TASKS);
        for (int run = 0; run < 2; run++) {
            if (run) check_ok("again", gerfmuod_team_again(team));
            check("before a run", gerfmuod_team_trace(team, text, sizeof text) == strlen(text));
            check_sound("is sound", text, false);
            uint32_t refused = gerfmuod_team_run(team, threads, fail_in_the_middle, run ? text : NULL);
            check_refusal("run", refused, run ? GERFMUOD_REFUSED_STOPPED : GERFMUOD_OK);
            check("after it", gerfmuod_team_trace(team, text, sizeof text) == strlen(text));
            check_sound("is sound", text, !run);
        }
        gerfmuod_team_close(team);
    }
}

int main(void) {
    const struct CMUnitTest cases[] = {
        cmocka_unit_test(text_of_a_run), cmocka_unit_test(damages), cmocka_unit_test(runs_on_several_threads),
    };
    return RUN(cases);
}
