/* fuzz.c: random calls on graphs, compared with the model of model.h.
 *
 *   fuzz GRAPHS [SEED [forgets|loses|sleeps|reorders]]     a fault of the model, which has to be detected: it sometimes drops an
 *                                                          input; an input from outside; a signal; or the order of ready tasks
 *
 * Each graph has up to 64 tasks, some of them added in its run. On half of the graphs any calls are made, valid and invalid ones.
 * The others are run by threads that do what a turn returns: those that sleep come back when they are signalled, and sometimes
 * unasked. Such a run comes to its end: whenever no thread can go on, an input from outside is awaited. Many run again. The calls
 * end at the first difference, and the case of that call fails. */
#include "../random.h"
#include "../violations.h"
#include "model.h"

enum { MOST_THREADS = 6 };
enum state { AWAY, RUNS, SPINS, SLEEPS, SIGNALLED, LEFT };

static uint32_t graphs;
static const char *given_seed = "by default";
static uint64_t calls, refused, ran, waited, signalled, reruns, later;
static violations adding, turns, outside, lives, reading, closed, endless;
static gerfmuod_graph graph;
static model m;
static char fault; /* the first letter of the model's fault */
static bool grows, is_wild; /* this graph gets tasks in its run; any calls are made on it */
static uint32_t threads;
static struct {
    enum state state;
    uint32_t task; /* if it runs one */
} thread[MOST_THREADS];

/* Returns mostly a number below the limit, sometimes one of the next numbers, and sometimes any number. */
static uint32_t about(uint32_t limit) {
    uint32_t kind = below(16);
    if (kind == 0) return limit + below(2);
    if (kind == 1) return UINT32_MAX - below(3);
    return below(limit ? limit : 1);
}

/* Lets signalled threads come back: any of those that sleep. */
static void signal_threads(uint32_t signals) {
    for (uint32_t k = 0, from = below(MOST_THREADS); k < MOST_THREADS && signals; k++) {
        uint32_t w = (from + k) % MOST_THREADS;
        if (thread[w].state == SLEEPS) thread[w].state = SIGNALLED, signals--;
    }
}

/* Ends the calls at one that differs from the model. */
static gerfmuod_graph_result check(violations *of, const char *call, gerfmuod_graph_result got, expected want) {
    bool is_run = !want.answer.refused && want.answer.next == GERFMUOD_GRAPH_RUN && want.first;
    bool is_number = is_run ? got.number < m.tasks && want.first >> got.number & 1 : got.number == want.answer.number;
    calls++, refused += want.answer.refused != 0, ran += is_run, signalled += got.signals;
    waited += want.answer.next == GERFMUOD_GRAPH_SPIN || want.answer.next == GERFMUOD_GRAPH_SLEEP;
    signal_threads(got.signals);
    if (got.refused == want.answer.refused && got.next == want.answer.next && is_number && got.signals == want.answer.signals) return got;
    end_runs(of, "in call %" PRIu64 ", seed %s, %s: refused %u next %u number %u signals %u, expected %u %u %u or a bit of %" PRIx64 ", %u",
             calls, given_seed, call, got.refused, got.next, got.number, got.signals, want.answer.refused, want.answer.next,
             want.answer.number, want.first, want.answer.signals);
}

static violations *if_open(violations *of) { return m.is_open ? of : &closed; }

/* Lets the model make its fault. */
static void spoil(void) {
    if (below(200)) return;
    if (fault == 'f' && m.inputs) m.inputs--;
    if (fault == 'l' && m.tasks) m.task[below(m.tasks)].outside = 0;
    if (fault == 's') m.signalled += m.sleeping, m.sleeping = 0;
    if (fault == 'r') m.now += 1000;
    for (uint32_t t = 0; t < m.tasks && fault == 'r'; t++) m.task[t].since = m.task[t].since ? 1 + below(m.now) : 0;
}

static gerfmuod_graph_result call(uint32_t number, uint32_t first, uint32_t second) {
    static const struct {
        const char *name;
        violations *of;
    } kinds[] = {
        {"close", &lives}, {"start", &lives}, {"turn", &turns}, {"turn_spun", &turns}, {"turn_woken", &turns}, {"stop", &lives},
        {"again", &lives}, {"outside", &outside}, {"release", &outside}, {"may_record", &reading}, {"fault", &reading},
        {"count", &reading}, {"event", &reading}, {"reset", &lives}, {"left", &reading}, {"handle", &adding}, {"no such call", &reading},
    };
    uint32_t kind = number < 16 ? number : 16;
    violations *of = if_open(kinds[kind].of);
    if (fault) spoil();
    gerfmuod_graph_result got = gerfmuod_graph_call(&graph, number, first, second);
    return check(of, kinds[kind].name, got, model_call(&m, number, first, second, got.number));
}

/* ---- describing */
static void spawn(void) {
    uint32_t inputs[4], count = below(5), class_ = about(GERFMUOD_GRAPH_CLASSES), before = m.tasks;
    uint32_t awaited = below(8) ? 0 : !is_wild || below(20) ? below(3) : GERFMUOD_GRAPH_MAX_OUTSIDE + below(2);
    if (m.tasks == MOST_TASKS || m.inputs + 4 > MOST_INPUTS) return;
    for (uint32_t k = 0; k < count; k++) inputs[k] = below(32) ? below(m.tasks ? m.tasks : 1) : about(m.tasks);
    check(if_open(&adding), "spawn", gerfmuod_graph_spawn(&graph, class_, inputs, count, awaited),
          model_spawn(&m, class_, inputs, count, awaited));
    if (m.is_started) later += m.tasks - before;
}

/* Describes a graph as arrays, of which every fourth may be wrong. */
static void describe(void) {
    uint32_t offsets[MOST_TASKS + 1] = {0}, inputs[MOST_INPUTS], tasks = below(MOST_TASKS), count = 0;
    uint8_t classes[MOST_TASKS];
    bool is_right = below(4), has_classes = below(2);
    for (uint32_t t = 0; t < tasks; t++) {
        classes[t] = (uint8_t)(is_right ? below(4) : about(200) / 50);
        for (uint32_t k = t ? below(4) : 0; k > 0; k--) inputs[count++] = is_right || below(50) ? below(t) : about(tasks);
        offsets[t + 1] = is_right || below(50) ? count : about(count + 1);
    }
    size_t given = is_right || below(4) ? tasks : below(tasks + 1), lengths = is_right || below(10) ? tasks + 1 : 0;
    check(if_open(&adding), "describe", gerfmuod_graph_describe(&graph, classes, has_classes ? given : 0, offsets, lengths, inputs, count),
          model_describe(&m, classes, has_classes ? given : 0, offsets, lengths, inputs, count));
}

/* ---- threads that do what a turn returns */
static void turn(uint32_t w) {
    uint32_t kind = GERFMUOD_GRAPH_TURN, done = thread[w].state == RUNS ? thread[w].task : GERFMUOD_GRAPH_NONE;
    if (thread[w].state == SPINS) kind = GERFMUOD_GRAPH_TURN_SPUN;
    if (thread[w].state == SLEEPS || thread[w].state == SIGNALLED) kind = GERFMUOD_GRAPH_TURN_WOKEN;
    thread[w].state = LEFT;
    gerfmuod_graph_result answer = call(kind, done, below(3));
    if (answer.next == GERFMUOD_GRAPH_RUN) thread[w].state = RUNS, thread[w].task = answer.number;
    if (answer.next == GERFMUOD_GRAPH_SPIN) thread[w].state = SPINS;
    if (answer.next == GERFMUOD_GRAPH_SLEEP) thread[w].state = SLEEPS;
}

/* Releases an input from outside of any task that awaits one. Returns whether there was one. */
static bool release_any(void) {
    for (uint32_t k = 0, from = below(MOST_TASKS); k < MOST_TASKS; k++) {
        uint32_t t = (from + k) % MOST_TASKS;
        if (t < m.tasks && m.task[t].outside) return call(GERFMUOD_GRAPH_RELEASE, t, 0), true;
    }
    return false;
}

/* Makes a call that threads in turns need not know of. */
static void make_call(void) {
    uint32_t kind = below(100);
    if (kind < 20 && grows) spawn();
    else if (kind < 30) call(GERFMUOD_GRAPH_OUTSIDE, about(m.tasks), 0);
    else if (kind < 50) call(GERFMUOD_GRAPH_RELEASE, about(m.tasks), 0);
    else if (kind < 60) release_any();
    else if (kind < 80) call(GERFMUOD_GRAPH_FAULT + below(3), below(2 * MOST_TASKS), 0);
    else if (kind < 95) call(below(2) ? GERFMUOD_GRAPH_AGAIN : GERFMUOD_GRAPH_MAY_RECORD, 0, 0);
    else if (m.is_started) call(GERFMUOD_GRAPH_START, below(3), 0);
    else if (kind == 95 && below(4) == 0) call(GERFMUOD_GRAPH_STOP, about(m.tasks), 0);
}

/* Returns a thread that can go on, or one that wakes up unasked; MOST_THREADS if there is none. */
static uint32_t any_thread(void) {
    for (uint32_t k = 0, from = below(threads); k < threads; k++) {
        uint32_t w = (from + k) % threads;
        if (thread[w].state == SLEEPS ? below(50) == 0 : thread[w].state != LEFT) return w;
    }
    return MOST_THREADS;
}

static bool all_left(void) {
    for (uint32_t w = 0; w < threads; w++)
        if (thread[w].state != LEFT) return false;
    return true;
}

/* Runs the graph to its end, with turns that begin before the start or after it. */
static void run(void) {
    uint32_t start = below(2) * below(30);
    threads = 1 + below(MOST_THREADS);
    for (uint32_t w = 0; w < MOST_THREADS; w++) thread[w].state = w < threads ? AWAY : LEFT;
    for (uint32_t step = 0; !all_left(); step++) {
        if (step >= start && !m.is_started && !m.fault) call(GERFMUOD_GRAPH_START, threads, 0);
        if (below(3) == 0) make_call();
        uint32_t w = any_thread();
        if (w < threads) turn(w);
        else if (m.is_started && !all_left() && !release_any()) end_runs(&endless, "in call %" PRIu64 ", seed %s", calls, given_seed);
    }
}

/* ---- any calls */
static void make_any_calls(void) {
    for (uint32_t k = below(300); k > 0; k--) {
        uint32_t kind = below(100), t = about(m.tasks);
        if (kind < 10) spawn();
        else if (kind < 12) describe();
        else if (kind < 14 && !m.fault) call(16 + about(3), t, t);
        else if (kind < 25) call(GERFMUOD_GRAPH_OUTSIDE + below(2), t, 0);
        else if (kind < 60) call(GERFMUOD_GRAPH_TURN + below(3), GERFMUOD_GRAPH_NONE, below(2));
        else if (kind < 90) {
            while (t < m.tasks && m.task[t].stage != RUNNING && below(100)) t = (t + 1) % m.tasks; /* mostly one that runs */
            if (t >= m.tasks ? below(20) == 0 : m.task[t].stage == RUNNING || below(4) == 0) call(GERFMUOD_GRAPH_TURN, t, below(2));
        } else if (kind < 99 || below(8) == 0) call((uint32_t[]){1, 15, 6, 9, 10, 11, 12, 13, 14, 5}[kind - 90], t, 0);
    }
}

static void make_graph(void) {
    bool is_traced = below(2);
    uint32_t processors = below(8);
    gerfmuod_graph_open(&graph, is_traced, processors);
    model_open(&m, is_traced, processors);
    grows = below(2);
    if (below(2)) describe();
    else for (uint32_t k = below(MOST_TASKS); k > 0; k--) spawn();
    if (is_wild) make_any_calls();
    else run();
    while (!is_wild && below(2) && !call(below(2) ? GERFMUOD_GRAPH_AGAIN : GERFMUOD_GRAPH_RESET, 0, 0).refused) run(), reruns++;
    for (uint32_t k = 0; k < 2 * MOST_TASKS + 1; k++) call(GERFMUOD_GRAPH_EVENT, k, 0);
    call(GERFMUOD_GRAPH_CLOSE, 0, 0);
    for (uint32_t number = 0; number < 16; number++) call(number, below(2), below(2)); /* it is not open */
    spawn(), describe();
}

static void make_runs(void) {
    for (uint32_t g = 0; g < graphs; g++) {
        is_wild = g % 2;
        make_graph();
    }
}

CASE(tasks_are_added_as_the_model_says) { check_none(&adding); }
CASE(turns_return_what_the_model_says) { check_none(&turns); }
CASE(inputs_from_outside_are_counted_as_the_model_says) { check_none(&outside); }
CASE(starts_stops_and_runs_again_are_as_the_model_says) { check_none(&lives); }
CASE(a_graph_shows_what_the_model_says) { check_none(&reading); }
CASE(a_graph_that_is_not_open_refuses_each_call) { check_none(&closed); }
CASE(threads_wait_only_for_inputs_from_outside) { check_none(&endless); }

int main(int argc, char **argv) {
    const struct CMUnitTest cases[] = {
        cmocka_unit_test(tasks_are_added_as_the_model_says),
        cmocka_unit_test(turns_return_what_the_model_says),
        cmocka_unit_test(inputs_from_outside_are_counted_as_the_model_says),
        cmocka_unit_test(starts_stops_and_runs_again_are_as_the_model_says),
        cmocka_unit_test(a_graph_shows_what_the_model_says),
        cmocka_unit_test(a_graph_that_is_not_open_refuses_each_call),
        cmocka_unit_test(threads_wait_only_for_inputs_from_outside),
    };
    graphs = argc > 1 ? (uint32_t)atoi(argv[1]) : 20000;
    if (argc > 2) given_seed = argv[2], seed = strtoull(given_seed, NULL, 10) * 2 + 1;
    fault = argc > 3 ? argv[3][0] : 0;
    int failed = RUN(cases);
    if (failed) return failed;
    printf("%" PRIu64 " calls on %u graphs: %" PRIu64 " refused, %" PRIu64 " tasks run, %" PRIu64 " waits, %" PRIu64 " signals, ", calls,
           graphs, refused, ran, waited, signalled);
    printf("%" PRIu64 " graphs run again, %" PRIu64 " tasks added in a run, as the model says\n", reruns, later);
    return 0;
}
