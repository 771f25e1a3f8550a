/* model.h: a model of gerfmuod/graph.h in plain C, which scans all tasks and inputs in each call. It shares no code with the
 * library. fuzz.c compares the two. */
#ifndef MODEL_H
#define MODEL_H
#include <gerfmuod/graph.h>
#include <stdbool.h>
#include <string.h>

enum { MOST_TASKS = 64, MOST_INPUTS = 256 };
enum stage { FRESH, RUNNING, DONE };

typedef struct {
    bool is_open, is_traced, is_started, is_grown; /* is_grown: a task was added in the run */
    uint32_t tasks, inputs, events, handles;
    struct {
        uint32_t class_, outside; /* outside: how many inputs from outside are awaited */
        uint32_t since;           /* when it became ready, or 0 */
        enum stage stage;
    } task[MOST_TASKS];
    struct {
        uint32_t source, target;
    } input[MOST_INPUTS];
    struct {
        uint32_t kind, task;
    } event[2 * MOST_TASKS];
    uint32_t now; /* the number of calls */
    uint32_t processors, threads, spinning, sleeping, signalled;
    uint32_t fault, failed;
} model;

/* What a call has to return. The number at GERFMUOD_GRAPH_RUN is that of a task with a bit in `first`. */
typedef struct {
    gerfmuod_graph_result answer;
    uint64_t first;
} expected;

static expected model_answer(uint32_t refused, uint32_t next, uint32_t number, uint32_t signals) {
    return (expected){{refused, next, number, signals}, 0};
}
static expected model_refuse(uint32_t refused) { return model_answer(refused, 0, 0, 0); }

static void model_open(model *m, bool is_traced, uint32_t processors) {
    *m = (model){.is_open = true, .is_traced = is_traced, .processors = processors};
}

static bool model_is_ready(const model *m, uint32_t task) {
    for (uint32_t k = 0; k < m->inputs; k++)
        if (m->input[k].target == task && m->task[m->input[k].source].stage != DONE) return false;
    return m->task[task].stage == FRESH && !m->task[task].outside;
}

static uint32_t model_count(const model *m, enum stage stage) {
    uint32_t count = 0;
    for (uint32_t t = 0; t < m->tasks; t++) count += m->task[t].stage == stage;
    return count;
}

static bool model_is_over(const model *m) { return m->is_started && model_count(m, DONE) == m->tasks; }

static bool model_is_busy(const model *m) { return m->spinning || m->sleeping || m->signalled || model_count(m, RUNNING); }

/* Notes when tasks become ready; returns how many are. Before the start they are so at the same time. */
static uint32_t model_ready(model *m) {
    uint32_t count = 0;
    for (uint32_t t = 0; t < m->tasks; t++) {
        bool is_ready = model_is_ready(m, t);
        count += is_ready;
        if (!is_ready || !m->is_started) m->task[t].since = 0;
        else if (!m->task[t].since) m->task[t].since = m->now;
    }
    return count;
}

/* Returns how many threads a call signals. */
static uint32_t model_settle(model *m, bool signals_all) {
    uint32_t ready = model_ready(m), signals = 0;
    if (signals_all || m->fault || model_is_over(m)) signals = m->sleeping;
    else if (m->is_started && ready && m->sleeping && !m->spinning && !m->signalled) signals = 1;
    m->sleeping -= signals, m->signalled += signals;
    return signals;
}

static void model_event(model *m, uint32_t kind, uint32_t task) {
    if (m->is_traced) m->event[m->events].kind = kind, m->event[m->events++].task = task;
}

static void model_add(model *m, uint32_t class_, const uint32_t *inputs, size_t count, uint32_t outside) {
    m->is_grown |= m->is_started;
    m->task[m->tasks].class_ = class_, m->task[m->tasks].outside = outside;
    m->task[m->tasks].stage = FRESH, m->task[m->tasks].since = 0;
    for (size_t k = 0; k < count; k++) m->input[m->inputs].source = inputs[k], m->input[m->inputs++].target = m->tasks;
    m->tasks++;
}

static expected model_spawn(model *m, uint32_t class_, const uint32_t *inputs, size_t count, uint32_t outside) {
    m->now++;
    if (!m->is_open) return model_refuse(GERFMUOD_REFUSED_NO_POOL);
    if (m->fault) return model_refuse(m->fault);
    if (model_is_over(m)) return model_refuse(GERFMUOD_REFUSED_ENDED);
    if (class_ > 3) return model_refuse(GERFMUOD_REFUSED_BAD_SPEC);
    for (size_t k = 0; k < count; k++)
        if (inputs[k] >= m->tasks) return model_refuse(GERFMUOD_REFUSED_NO_TASK);
    if (outside > GERFMUOD_GRAPH_MAX_OUTSIDE) return model_answer(GERFMUOD_REFUSED_HISTORY_FULL, 0, GERFMUOD_GRAPH_MAX_OUTSIDE, 0);
    model_add(m, class_, inputs, count, outside);
    return model_answer(0, 0, m->tasks - 1, model_settle(m, false));
}

static expected model_describe(model *m, const uint8_t *classes, size_t classes_count, const uint32_t *offsets, size_t offsets_count,
                               const uint32_t *inputs, size_t inputs_count) {
    m->now++;
    if (!m->is_open) return model_refuse(GERFMUOD_REFUSED_NO_POOL);
    if (m->fault) return model_refuse(m->fault);
    if (m->is_started || m->tasks) return model_refuse(GERFMUOD_REFUSED_WRONG_LIFE);
    if (!offsets_count || (classes_count && classes_count != offsets_count - 1)) return model_refuse(GERFMUOD_REFUSED_BAD_SPEC);
    model as_it_was = *m;
    for (uint32_t t = 0; t + 1 < offsets_count; t++) {
        uint32_t class_ = classes_count ? classes[t] : 0, refused = 0;
        if (class_ > 3 || offsets[t] > offsets[t + 1] || offsets[t + 1] > inputs_count) refused = GERFMUOD_REFUSED_BAD_SPEC;
        for (uint32_t k = offsets[t]; !refused && k < offsets[t + 1]; k++)
            if (inputs[k] >= t) refused = GERFMUOD_REFUSED_NO_TASK;
        if (refused) return *m = as_it_was, model_answer(refused, 0, t, 0);
        model_add(m, class_, inputs + offsets[t], offsets[t + 1] - offsets[t], 0);
    }
    return model_refuse(0);
}

static void model_report(model *m, uint32_t task) {
    if (task == GERFMUOD_GRAPH_NONE || m->fault) return;
    if (task >= m->tasks) m->fault = GERFMUOD_REFUSED_NO_TASK, m->failed = task;
    else if (m->task[task].stage != RUNNING) m->fault = GERFMUOD_REFUSED_WRONG_LIFE, m->failed = task;
    else m->task[task].stage = DONE, model_event(m, 2, task), model_ready(m);
}

/* The caller notes which of the tasks was returned, by model_begin. */
static expected model_decide(model *m, uint32_t polls) {
    uint32_t lowest = 4, since = UINT32_MAX;
    expected run = model_answer(0, GERFMUOD_GRAPH_RUN, 0, 0);
    if (m->fault) return model_answer(m->fault, 0, m->failed, 0);
    for (uint32_t t = 0; t < m->tasks && m->is_started; t++) {
        if (!model_is_ready(m, t) || m->task[t].class_ > lowest) continue;
        if (m->task[t].class_ == lowest && m->task[t].since > since) continue;
        if (m->task[t].class_ < lowest || m->task[t].since < since) run.first = 0;
        lowest = m->task[t].class_, since = m->task[t].since;
        run.first |= (uint64_t)1 << t;
    }
    if (run.first) return run;
    if (model_is_over(m)) return model_answer(0, GERFMUOD_GRAPH_OVER, 0, 0);
    if (polls && m->threads <= m->processors) return m->spinning++, model_answer(0, GERFMUOD_GRAPH_SPIN, 0, 0);
    return m->sleeping++, model_answer(0, GERFMUOD_GRAPH_SLEEP, 0, 0);
}

/* A turn. `found` is the task that the library returned, which runs if it may. */
static expected model_turn(model *m, uint32_t call, uint32_t done, uint32_t polls, uint32_t found) {
    if (call == GERFMUOD_GRAPH_TURN_SPUN) m->spinning -= m->spinning > 0;
    else if (call == GERFMUOD_GRAPH_TURN_WOKEN && m->signalled) m->signalled--;
    else if (call == GERFMUOD_GRAPH_TURN_WOKEN) m->sleeping -= m->sleeping > 0;
    model_report(m, done);
    expected want = model_decide(m, polls);
    if (found < m->tasks && want.first >> found & 1) m->task[found].stage = RUNNING, model_event(m, 1, found);
    want.answer.signals = model_settle(m, false);
    return want;
}

static expected model_start(model *m, uint32_t threads) {
    if (m->is_started && model_is_busy(m)) return model_refuse(GERFMUOD_REFUSED_RUNNING);
    if (m->is_started) return model_refuse(model_is_over(m) ? GERFMUOD_REFUSED_ENDED : GERFMUOD_REFUSED_WRONG_LIFE);
    if (!threads) return model_refuse(GERFMUOD_REFUSED_NO_THREAD);
    m->is_started = true, m->threads = threads;
    return model_answer(0, 0, 0, model_settle(m, true));
}

static expected model_again(model *m) {
    if (model_is_busy(m)) return model_refuse(GERFMUOD_REFUSED_RUNNING);
    if (!model_is_over(m) || m->is_grown) return model_refuse(GERFMUOD_REFUSED_WRONG_LIFE);
    for (uint32_t t = 0; t < m->tasks; t++) m->task[t].stage = FRESH;
    m->is_started = false, m->events = m->threads = 0;
    return model_refuse(0);
}

static expected model_reset(model *m) {
    bool waits = m->spinning || m->sleeping || m->signalled;
    if (m->fault ? waits : model_is_busy(m)) return model_refuse(GERFMUOD_REFUSED_RUNNING);
    if (m->is_grown) return model_refuse(GERFMUOD_REFUSED_WRONG_LIFE);
    for (uint32_t t = 0; t < m->tasks; t++) m->task[t].stage = FRESH, m->task[t].outside = m->task[t].since = 0;
    m->is_started = false, m->events = m->threads = m->fault = m->failed = 0;
    return model_refuse(0);
}

static expected model_outside(model *m, uint32_t task) {
    if (task >= m->tasks) return model_refuse(GERFMUOD_REFUSED_NO_TASK);
    if (m->task[task].stage != FRESH || (m->is_started && model_is_ready(m, task))) return model_refuse(GERFMUOD_REFUSED_WRONG_LIFE);
    if (m->task[task].outside == GERFMUOD_GRAPH_MAX_OUTSIDE)
        return model_answer(GERFMUOD_REFUSED_HISTORY_FULL, 0, GERFMUOD_GRAPH_MAX_OUTSIDE, 0);
    m->task[task].outside++;
    return model_answer(0, 0, 0, model_settle(m, false));
}

static expected model_release(model *m, uint32_t task) {
    if (task >= m->tasks) return model_refuse(GERFMUOD_REFUSED_NO_TASK);
    if (!m->task[task].outside) return model_refuse(GERFMUOD_REFUSED_WRONG_LIFE);
    m->task[task].outside--;
    return model_answer(0, 0, 0, model_settle(m, false));
}

static expected model_stop(model *m, uint32_t task) {
    if (!m->fault && !model_is_over(m)) m->fault = GERFMUOD_REFUSED_STOPPED, m->failed = task;
    return model_answer(0, 0, 0, model_settle(m, false));
}

/* A call of gerfmuod_graph_call; `found` is the number that the library returned. */
static expected model_call(model *m, uint32_t call, uint32_t first, uint32_t second, uint32_t found) {
    m->now++;
    if (!m->is_open) return model_refuse(GERFMUOD_REFUSED_NO_POOL);
    switch (call) { /* those that a fault does not refuse */
    case GERFMUOD_GRAPH_CLOSE: return memset(m, 0, sizeof *m), model_refuse(0);
    case GERFMUOD_GRAPH_TURN:
    case GERFMUOD_GRAPH_TURN_SPUN:
    case GERFMUOD_GRAPH_TURN_WOKEN: return model_turn(m, call, first, second, found);
    case GERFMUOD_GRAPH_STOP: return model_stop(m, first);
    case GERFMUOD_GRAPH_FAULT: return model_answer(m->fault, 0, m->fault ? m->failed : 0, 0);
    case GERFMUOD_GRAPH_COUNT: return model_answer(0, model_ready(m), m->tasks, 0);
    case GERFMUOD_GRAPH_RESET: return model_reset(m);
    case GERFMUOD_GRAPH_LEFT: return model_answer(0, 0, m->tasks - model_count(m, DONE), 0);
    case GERFMUOD_GRAPH_EVENT:
        if (first >= m->events) return model_refuse(0);
        return model_answer(0, m->event[first].kind, m->event[first].task, 0);
    }
    if (m->fault && (call <= GERFMUOD_GRAPH_EVENT || call == GERFMUOD_GRAPH_HANDLE)) return model_refuse(m->fault);
    switch (call) {
    case GERFMUOD_GRAPH_START: return model_start(m, first);
    case GERFMUOD_GRAPH_AGAIN: return model_again(m);
    case GERFMUOD_GRAPH_OUTSIDE: return model_outside(m, first);
    case GERFMUOD_GRAPH_RELEASE: return model_release(m, first);
    case GERFMUOD_GRAPH_HANDLE: return model_answer(0, 0, m->handles++, 0);
    case GERFMUOD_GRAPH_MAY_RECORD:
        return model_refuse(model_is_busy(m) ? GERFMUOD_REFUSED_RUNNING : m->is_started ? GERFMUOD_REFUSED_WRONG_LIFE : 0);
    default: return model_refuse(GERFMUOD_REFUSED_BAD_SPEC);
    }
}
#endif
