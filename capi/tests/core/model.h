/* model.h: a model of a core in plain C, which scans lists of tasks, actions and messages in each call. It shares no code
 * with the library, and is written from gerfmuod/core.h. fuzz.c compares the two. */
#ifndef MODEL_H
#define MODEL_H
#include <gerfmuod/core.h>
#include <string.h>

enum { MODEL_MOST = 256 }; /* tasks, messages and open actions of a generation */
enum life { WAITING, READY, RUNNING, DONE };
enum action_kind { OPENING, NAMED, OF_MESSAGE };

typedef struct {
    bool is_open, is_recorded; /* is_recorded: it keeps a list of its steps; else `steps` stays 0 */
    uint32_t nodes, generation, steps;
    uint32_t tasks, actions, in_flight, known;
    struct {
        uint32_t number, home, missing;
        enum life life;
    } task[MODEL_MOST];
    struct {
        uint32_t node, number;
        enum action_kind kind;
    } action[MODEL_MOST]; /* the open ones */
    struct {
        uint32_t number, to;
    } message[MODEL_MOST]; /* those in flight */
    uint32_t known_message[MODEL_MOST];
    uint32_t sent[GERFMUOD_MAX_NODES], received[GERFMUOD_MAX_NODES];
    /* the newest wave, and the sums of the one before it */
    uint32_t waves, wave_sent, wave_received, earlier_sent, earlier_received;
    bool has_token[GERFMUOD_MAX_NODES], gave[GERFMUOD_MAX_NODES], was_taken[GERFMUOD_MAX_NODES];
    bool is_judged, has_ended;
} model;

static gerfmuod_step_result model_refused(uint32_t why) {
    gerfmuod_step_result answer = {(uint16_t)why, 0, 0, 0, 0};
    return answer;
}

static gerfmuod_step_result result_of(uint32_t event, uint32_t number) {
    gerfmuod_step_result answer = {0, (uint16_t)event, number, 0, 0};
    return answer;
}

static void model_begin_generation(model *m) {
    model fresh;
    memset(&fresh, 0, sizeof fresh);
    fresh.is_open = true;
    fresh.is_recorded = m->is_recorded;
    fresh.nodes = m->nodes;
    fresh.generation = m->generation + 1;
    fresh.steps = m->steps;
    for (uint32_t node = 0; node < m->nodes; node++) fresh.action[fresh.actions++].node = node; /* OPENING */
    *m = fresh;
}

static uint32_t model_open(model *m, uint32_t nodes, bool is_recorded) {
    memset(m, 0, sizeof *m);
    if (nodes == 0 || nodes > GERFMUOD_MAX_NODES) return GERFMUOD_REFUSED_BAD_SPEC;
    m->nodes = nodes;
    m->is_recorded = is_recorded;
    model_begin_generation(m);
    return 0;
}

/* Each returns the place in its list, or -1. */
static int model_task(const model *m, uint32_t number) {
    for (uint32_t k = 0; k < m->tasks; k++)
        if (m->task[k].number == number) return (int)k;
    return -1;
}

static int model_action(const model *m, uint32_t node, enum action_kind kind, uint32_t number) {
    for (uint32_t k = 0; k < m->actions; k++)
        if (m->action[k].node == node && m->action[k].kind == kind && m->action[k].number == number) return (int)k;
    return -1;
}

static int model_message(const model *m, uint32_t to, uint32_t number) {
    for (uint32_t k = 0; k < m->in_flight; k++)
        if (m->message[k].number == number && m->message[k].to == to) return (int)k;
    return -1;
}

static bool model_is_known_message(const model *m, uint32_t number) {
    for (uint32_t k = 0; k < m->known; k++)
        if (m->known_message[k] == number) return true;
    return false;
}

static uint32_t model_pending(const model *m, uint32_t node) {
    uint32_t pending = 0;
    for (uint32_t k = 0; k < m->tasks; k++) pending += m->task[k].home == node && m->task[k].life != DONE;
    for (uint32_t k = 0; k < m->actions; k++) pending += m->action[k].node == node;
    return pending;
}

static bool model_is_quiet(const model *m) {
    uint32_t left = m->in_flight;
    for (uint32_t node = 0; node < m->nodes; node++) left += model_pending(m, node);
    return m->is_open && left == 0;
}

/* After a step that ends something. */
static gerfmuod_step_result model_after_end(const model *m) {
    return result_of(model_is_quiet(m) ? GERFMUOD_EVENT_QUIET : GERFMUOD_EVENT_NONE, 0);
}

static gerfmuod_step_result model_insert(model *m, uint32_t node, uint32_t task, uint32_t inputs) {
    if (node >= m->nodes) return model_refused(GERFMUOD_REFUSED_NO_NODE);
    if (model_task(m, task) >= 0) return model_refused(GERFMUOD_REFUSED_TASK_KNOWN);
    if (model_pending(m, node) == 0) return model_refused(GERFMUOD_REFUSED_INACTIVE);
    m->task[m->tasks].number = task;
    m->task[m->tasks].home = node;
    m->task[m->tasks].missing = inputs;
    m->task[m->tasks++].life = inputs ? WAITING : READY;
    return result_of(0, 0);
}

/* A supply, a begin or a done. */
static gerfmuod_step_result model_task_step(model *m, uint32_t kind, uint32_t number) {
    int k = model_task(m, number);
    enum life needed = kind == GERFMUOD_STEP_SUPPLY ? WAITING : kind == GERFMUOD_STEP_BEGIN ? READY : RUNNING;
    if (k < 0) return model_refused(GERFMUOD_REFUSED_NO_TASK);
    if (m->task[k].life != needed) return model_refused(GERFMUOD_REFUSED_WRONG_LIFE);
    if (needed != WAITING) m->task[k].life = needed == READY ? RUNNING : DONE;
    else if (--m->task[k].missing == 0) m->task[k].life = READY;
    return needed == RUNNING ? model_after_end(m) : result_of(0, 0);
}

static void model_add_action(model *m, uint32_t node, enum action_kind kind, uint32_t number) {
    m->action[m->actions].node = node;
    m->action[m->actions].kind = kind;
    m->action[m->actions++].number = number;
}

static gerfmuod_step_result model_action_open(model *m, uint32_t node, uint32_t action) {
    if (node >= m->nodes) return model_refused(GERFMUOD_REFUSED_NO_NODE);
    if (model_action(m, node, NAMED, action) >= 0) return model_refused(GERFMUOD_REFUSED_ACTION_KNOWN);
    if (model_pending(m, node) == 0) return model_refused(GERFMUOD_REFUSED_INACTIVE);
    model_add_action(m, node, NAMED, action);
    return result_of(0, 0);
}

static gerfmuod_step_result model_close_action(model *m, uint32_t node, enum action_kind kind, uint32_t number) {
    int k = model_action(m, node, kind, number);
    if (k < 0) return model_refused(GERFMUOD_REFUSED_NO_ACTION);
    m->action[k] = m->action[--m->actions];
    return model_after_end(m);
}

static gerfmuod_step_result model_send(model *m, uint32_t from, uint32_t to, uint32_t message, uint32_t generation) {
    if (from >= m->nodes || to >= m->nodes) return model_refused(GERFMUOD_REFUSED_NO_NODE);
    if (generation != m->generation) return model_refused(GERFMUOD_REFUSED_STRANGER);
    if (from == to) return model_refused(GERFMUOD_REFUSED_SAME_NODE);
    if (model_is_known_message(m, message)) return model_refused(GERFMUOD_REFUSED_MESSAGE_KNOWN);
    if (model_pending(m, from) == 0) return model_refused(GERFMUOD_REFUSED_INACTIVE);
    m->known_message[m->known++] = message;
    m->message[m->in_flight].number = message;
    m->message[m->in_flight++].to = to;
    m->sent[from]++;
    return result_of(0, 0);
}

static gerfmuod_step_result model_receive(model *m, uint32_t node, uint32_t message, uint32_t generation) {
    if (node >= m->nodes) return model_refused(GERFMUOD_REFUSED_NO_NODE);
    if (generation != m->generation) return model_refused(GERFMUOD_REFUSED_STRANGER);
    int k = model_message(m, node, message);
    if (k < 0) return model_refused(GERFMUOD_REFUSED_NO_MESSAGE);
    m->message[k] = m->message[--m->in_flight];
    m->received[node]++;
    model_add_action(m, node, OF_MESSAGE, message);
    return result_of(0, 0);
}

static gerfmuod_step_result model_message_end(model *m, uint32_t node, uint32_t message, uint32_t generation) {
    if (node >= m->nodes) return model_refused(GERFMUOD_REFUSED_NO_NODE);
    if (generation != m->generation) return model_refused(GERFMUOD_REFUSED_STRANGER);
    return model_close_action(m, node, OF_MESSAGE, message);
}

/* ---- the steps of waves */

static gerfmuod_step_result model_start(model *m) {
    if (m->has_ended) return model_refused(GERFMUOD_REFUSED_ENDED);
    if (m->waves && !m->is_judged) return model_refused(GERFMUOD_REFUSED_WAVE_OPEN);
    m->earlier_sent = m->wave_sent;
    m->earlier_received = m->wave_received;
    m->wave_sent = m->wave_received = 0;
    memset(m->has_token, 0, sizeof m->has_token);
    memset(m->gave, 0, sizeof m->gave);
    memset(m->was_taken, 0, sizeof m->was_taken);
    m->has_token[0] = true;
    m->is_judged = false;
    m->waves++;
    return result_of(0, 0);
}

static gerfmuod_step_result model_down(model *m, uint32_t node) {
    if (node == 0 || m->has_token[node] || !m->has_token[(node - 1) / 2]) return model_refused(GERFMUOD_REFUSED_NO_TOKEN);
    m->has_token[node] = true;
    return result_of(0, 0);
}

static gerfmuod_step_result model_give(model *m, uint32_t node) {
    bool is_next = m->has_token[node] && !m->gave[node];
    for (uint32_t child = 2 * node + 1; child <= 2 * node + 2; child++)
        if (child < m->nodes && !m->was_taken[child]) is_next = false;
    if (!is_next) return model_refused(GERFMUOD_REFUSED_NO_TOKEN);
    if (model_pending(m, node)) return model_refused(GERFMUOD_REFUSED_NOT_IDLE);
    m->gave[node] = true;
    m->wave_sent += m->sent[node];
    m->wave_received += m->received[node];
    gerfmuod_step_result answer = result_of(node ? GERFMUOD_EVENT_NONE : GERFMUOD_EVENT_WAVE_ENDED, node ? 0 : m->waves);
    answer.sent = node ? 0 : m->wave_sent;
    answer.received = node ? 0 : m->wave_received;
    return answer;
}

static gerfmuod_step_result model_up(model *m, uint32_t node) {
    if (node == 0 || !m->gave[node] || m->was_taken[node]) return model_refused(GERFMUOD_REFUSED_NO_TOKEN);
    m->was_taken[node] = true;
    return result_of(0, 0);
}

static gerfmuod_step_result model_judge(model *m) {
    if (m->has_ended) return model_refused(GERFMUOD_REFUSED_ENDED);
    if (!m->gave[0] || m->is_judged) return model_refused(GERFMUOD_REFUSED_WAVE_NOT_ENDED);
    m->is_judged = true;
    m->has_ended = m->waves >= 2 && m->earlier_sent == m->earlier_received && m->wave_sent == m->wave_received &&
                   m->earlier_received == m->wave_sent;
    return m->has_ended ? result_of(GERFMUOD_EVENT_ENDED, m->waves - 1) : result_of(GERFMUOD_EVENT_NOT_ENDED, 0);
}

static gerfmuod_step_result model_wave_step(model *m, uint32_t kind, uint32_t node) {
    if (kind == GERFMUOD_STEP_START) return model_start(m);
    if (kind == GERFMUOD_STEP_JUDGE) return model_judge(m);
    if (node >= m->nodes) return model_refused(GERFMUOD_REFUSED_NO_NODE);
    if (m->has_ended) return model_refused(GERFMUOD_REFUSED_ENDED);
    if (kind == GERFMUOD_STEP_DOWN) return model_down(m, node);
    return kind == GERFMUOD_STEP_GIVE ? model_give(m, node) : model_up(m, node);
}

static gerfmuod_step_result model_reopen(model *m) {
    if (!m->has_ended) return model_refused(GERFMUOD_REFUSED_WRONG_LIFE);
    model_begin_generation(m);
    return result_of(GERFMUOD_EVENT_REOPENED, m->generation);
}

/* ---- the calls */

static gerfmuod_step_result model_kind(model *m, uint32_t kind, uint32_t a, uint32_t b, uint32_t c, uint32_t generation) {
    switch (kind) {
    case GERFMUOD_STEP_INSERT: return model_insert(m, a, b, c);
    case GERFMUOD_STEP_SUPPLY:
    case GERFMUOD_STEP_BEGIN:
    case GERFMUOD_STEP_DONE: return model_task_step(m, kind, a);
    case GERFMUOD_STEP_ACTION_OPEN: return model_action_open(m, a, b);
    case GERFMUOD_STEP_ACTION_CLOSE:
        return a >= m->nodes ? model_refused(GERFMUOD_REFUSED_NO_NODE) : model_close_action(m, a, NAMED, b);
    case GERFMUOD_STEP_READY:
        return a >= m->nodes ? model_refused(GERFMUOD_REFUSED_NO_NODE) : model_close_action(m, a, OPENING, 0);
    case GERFMUOD_STEP_SEND: return model_send(m, a, b, c, generation);
    case GERFMUOD_STEP_RECEIVE: return model_receive(m, a, b, generation);
    case GERFMUOD_STEP_MESSAGE_END: return model_message_end(m, a, b, generation);
    case GERFMUOD_STEP_REOPEN: return model_reopen(m);
    default: return model_wave_step(m, kind, a);
    }
}

static uint32_t model_steps_left(const model *m) {
    uint32_t used = m->steps + GERFMUOD_SETTLE_STEPS * m->nodes;
    return m->is_open && used < GERFMUOD_MAX_STEPS ? GERFMUOD_MAX_STEPS - used : 0;
}

static gerfmuod_step_result model_step(model *m, uint32_t kind, uint32_t a, uint32_t b, uint32_t c, uint32_t generation) {
    if (!m->is_open) return model_refused(GERFMUOD_REFUSED_NO_POOL);
    if (kind > GERFMUOD_STEP_REOPEN) return model_refused(GERFMUOD_REFUSED_BAD_SPEC);
    if (kind == GERFMUOD_STEP_INSERT && c > GERFMUOD_MAX_INPUTS) return model_refused(GERFMUOD_REFUSED_BAD_SPEC);
    if (model_steps_left(m) == 0) {
        gerfmuod_step_result full = model_refused(GERFMUOD_REFUSED_HISTORY_FULL);
        full.number = m->steps;
        return full;
    }
    gerfmuod_step_result answer = model_kind(m, kind, a, b, c, generation);
    m->steps += m->is_recorded && answer.refused == 0;
    return answer;
}

/* Whether the maker of a step is running or open at a node. */
static bool model_is_maker(const model *m, uint32_t maker_kind, uint32_t maker, uint32_t node) {
    int k = model_task(m, maker);
    switch (maker_kind) {
    case GERFMUOD_BY_TASK: return k >= 0 && m->task[k].life == RUNNING && m->task[k].home == node;
    case GERFMUOD_BY_ACTION: return model_action(m, node, NAMED, maker) >= 0;
    case GERFMUOD_BY_MESSAGE: return model_action(m, node, OF_MESSAGE, maker) >= 0;
    case GERFMUOD_BY_OPENING: return model_action(m, node, OPENING, 0) >= 0;
    default: return maker == node;
    }
}

static gerfmuod_step_result model_step_by(model *m, uint32_t maker_kind, uint32_t maker, uint32_t kind, uint32_t a, uint32_t b,
                                          uint32_t c, uint32_t generation) {
    if (!m->is_open) return model_refused(GERFMUOD_REFUSED_NO_POOL);
    bool is_of_task = kind == GERFMUOD_STEP_SUPPLY || kind == GERFMUOD_STEP_BEGIN || kind == GERFMUOD_STEP_DONE;
    bool is_of_node = kind == GERFMUOD_STEP_INSERT || kind == GERFMUOD_STEP_ACTION_OPEN || kind == GERFMUOD_STEP_SEND;
    bool is_idle_thread = maker_kind == GERFMUOD_BY_THREAD && kind != GERFMUOD_STEP_BEGIN && kind != GERFMUOD_STEP_DONE;
    if (!(is_of_task || is_of_node) || maker_kind > GERFMUOD_BY_THREAD) return model_refused(GERFMUOD_REFUSED_BAD_SPEC);
    if (kind == GERFMUOD_STEP_INSERT && c > GERFMUOD_MAX_INPUTS) return model_refused(GERFMUOD_REFUSED_BAD_SPEC);
    int k = is_of_task ? model_task(m, a) : -1;
    uint32_t node = k >= 0 ? m->task[k].home : a;
    bool is_there = is_of_task ? k >= 0 : a < m->nodes;
    if (!is_there || is_idle_thread || !model_is_maker(m, maker_kind, maker, node))
        return model_refused(GERFMUOD_REFUSED_NO_MAKER);
    return model_step(m, kind, a, b, c, generation);
}

static gerfmuod_settled model_settle(model *m) {
    gerfmuod_settled settled = {0, 0, 0};
    if (!m->is_open) settled.refused = GERFMUOD_REFUSED_NO_POOL;
    else if (m->has_ended) settled.refused = GERFMUOD_REFUSED_ENDED;
    else if (!model_is_quiet(m)) settled.refused = GERFMUOD_REFUSED_NOT_IDLE;
    uint32_t before = m->steps;
    while (!settled.refused && !m->has_ended) { /* the newest wave first, if it is not over */
        m->steps += model_start(m).refused == 0;
        for (uint32_t node = 1; node < m->nodes; node++) m->steps += model_down(m, node).refused == 0;
        for (uint32_t node = m->nodes; node-- > 0;) {
            m->steps += model_give(m, node).refused == 0;
            m->steps += model_up(m, node).refused == 0;
        }
        m->steps += model_judge(m).refused == 0;
    }
    if (!settled.refused) settled.wave = m->waves - 1, settled.steps = m->steps - before;
    if (!m->is_recorded) m->steps = 0;
    return settled;
}

static gerfmuod_counters model_counters(const model *m, uint32_t node) {
    gerfmuod_counters counters = {0, 0, 0, 0};
    if (!m->is_open) counters.refused = GERFMUOD_REFUSED_NO_POOL;
    else if (node >= m->nodes) counters.refused = GERFMUOD_REFUSED_NO_NODE;
    else counters.pending = model_pending(m, node), counters.sent = m->sent[node], counters.received = m->received[node];
    return counters;
}

/* The lowest task of a range that is not done. */
static gerfmuod_left_task model_left(const model *m, uint32_t from, uint32_t end) {
    static const uint16_t states[] = {GERFMUOD_LEFT_WAITING, GERFMUOD_LEFT_READY, GERFMUOD_LEFT_RUNNING};
    gerfmuod_left_task left = {0, GERFMUOD_LEFT_NONE, 0, 0, 0};
    if (!m->is_open) left.refused = GERFMUOD_REFUSED_NO_POOL;
    for (uint32_t k = 0; k < m->tasks; k++) {
        uint32_t number = m->task[k].number;
        if (m->task[k].life == DONE || number < from || number >= end || (left.state && number > left.number)) continue;
        left.state = states[m->task[k].life];
        left.number = number;
        left.node = m->task[k].home;
        left.missing = m->task[k].life == WAITING ? m->task[k].missing : 0;
    }
    return left;
}

static gerfmuod_status model_status(const model *m) {
    gerfmuod_status pool = {m->steps, model_steps_left(m), m->in_flight, model_is_quiet(m)};
    return pool;
}

static uint32_t model_restart(model *m) {
    if (!m->is_open) return GERFMUOD_REFUSED_NO_POOL;
    if (!m->has_ended) return GERFMUOD_REFUSED_WRONG_LIFE;
    m->steps = m->generation = 0;
    model_begin_generation(m);
    return 0;
}

/* It changes nothing that a call shows. */
static uint32_t model_reserve(const model *m) { return m->is_open ? 0 : GERFMUOD_REFUSED_NO_POOL; }

static uint32_t model_close(model *m) {
    uint32_t refused = m->is_open ? 0 : GERFMUOD_REFUSED_NO_POOL;
    memset(m, 0, sizeof *m);
    return refused;
}

#endif
