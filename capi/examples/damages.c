/* damages.c: what becomes of a runtime that reports its events wrongly. A runtime with work stealing is simulated, 4 nodes of
 * 2 threads with an unbalanced tree of tasks, and in each run its reports have one of the damages of the table below.
 *
 *   cc -O2 -Icapi/include capi/examples/damages.c -Llib -lgerfmuod -o damages && ./damages
 *
 * A thread has a plan: the events of a task, a theft or a message, in the right order. A damage edits plans, and the scheduler
 * draws the thread that does its next event. Prints for each damage what became of 20 runs:
 *   - at once: an event of the first damaged task or message was refused, or an event before it;
 *   - late: a later event was refused;
 *   - hangs: no end was detected in 200,000 turns;
 *   - silent: the end was detected, and nothing refused; early: work was left then.
 * In the columns the calls are plain ones, or with `_by` those that take what makes a step; if nodes are busy, an action is open
 * at each node while the tree grows. The output is always the same. The exit status is 1 if a right run fails, or if one of the
 * first 20 damages is silent with `_by`. */
#include <gerfmuod/core.h>
#include <stdio.h>
#include <stdlib.h>
#include <string.h>

enum { NODES = 4, THREADS = 8, TASKS = 400, RUNS = 20, TURNS = 200000, MOST = 2 * TASKS, PLAN = 160, KIDS = 60 };

/* The events of a plan. PUSH and POST put a task or a message into a queue; the others are reports. */
enum op { INSERT = 1, PUSH = 2, BEGIN = 4, DONE = 8, SEND = 16, POST = 32, RECEIVE = 64, END = 128, READY = 256, SETTLE = 512 };
enum edit { NONE, FORGET, TWICE, BEHIND, BEFORE, NODE, RECEIVER, GENERATION, NUMBER, OUTSIDE, UNLOCKED };

/* An edit of the events `ops` of one in `every` tasks, messages or nodes; `other` is the event that they are moved behind or before. */
typedef struct {
    enum edit edit;
    int ops, other;
    uint32_t every;
    const char *text;
} damage;

static const damage damages[] = {
    {NONE, 0, 0, 1, ""},
    {BEHIND, RECEIVE, INSERT, 1, "a receipt is reported after what it brings"},
    {BEHIND, SEND, POST, 1, "a send is reported after the message can be received"},
    {FORGET, DONE, 0, 50, "a done is forgotten"},
    {OUTSIDE, 0, 0, 1, "a thread outside of the pool adds work"},
    {NUMBER, SEND, 0, 10, "the number of a message is used twice"},
    {GENERATION, SEND, 0, 10, "a message has another generation"},
    {TWICE, BEGIN, 0, 50, "a begin is reported twice"},
    {UNLOCKED, 0, 0, 1, "the calls have no lock"},
    {FORGET, SETTLE, 0, 1, "no thread asks for the end"},
    {FORGET, INSERT | BEGIN | DONE, 0, 10, "a task is not reported at all"},
    {FORGET, END, 0, 10, "the end of a message is forgotten"},
    {FORGET, SEND | RECEIVE | END, 0, 1, "messages are not reported at all"},
    {BEHIND, DONE, BEGIN, 1, "a done is reported before what the task creates"},
    {BEHIND, INSERT, PUSH, 1, "an insert is reported after the task can run"},
    {NODE, INSERT, 0, 50, "an insert names another node"},
    {RECEIVER, POST, 0, 10, "a message goes to another node than was reported"},
    {TWICE, RECEIVE, 0, 10, "a receipt is reported twice"},
    {BEFORE, END, INSERT, 1, "the end of a message is reported before what it brings"},
    {NUMBER, INSERT, 0, 50, "the number of a task is used twice"},
    {TWICE, DONE, 0, 50, "a done is reported twice"},
    {BEFORE, READY, INSERT, 1, "ready is reported before the first insert"},
    {FORGET, READY, 0, 4, "the ready of a node is forgotten"},
};

typedef struct {
    uint32_t number, serial; /* the number that is reported, and one that is unique */
} task;

typedef struct {
    enum op op;
    task task;
    uint32_t node, to, message, generation;
    bool is_damaged;
} event;

typedef struct {
    event events[PLAN];
    uint32_t count, next, maker_kind, maker;
    bool runs_task; /* a task is over with the plan */
} plan;

typedef struct {
    task ready[MOST];
    event inbox[MOST];
    uint32_t first, last, first_message, last_message, thief;
    bool has_thief, has_asked;
} node;

enum outcome { AT_ONCE, LATE, HANGS, SILENT, EARLY, OUTCOMES };

static struct {
    const damage *damage;
    bool keeps_busy, by;
    gerfmuod_core core;
    node nodes[NODES];
    plan threads[THREADS + 1]; /* the last one is the main thread, and later a thread outside of the pool */
    uint32_t tasks, messages, left;
    bool is_busy, is_found, has_damaged;
    enum outcome outcome;
    event first; /* the first damaged event that was done */
    uint64_t seed;
} run;

static uint32_t below(uint32_t limit) {
    run.seed ^= run.seed << 13, run.seed ^= run.seed >> 7, run.seed ^= run.seed << 17;
    return (uint32_t)((run.seed >> 11) % limit);
}

/* ---- plans and their damages */

static bool is_of_task(enum op op) { return op & (INSERT | PUSH | BEGIN | DONE); }

/* What the damage selects events by: the unique number of the task, the message or the node. */
static uint32_t subject(const event *e) { return is_of_task(e->op) ? e->task.serial : e->op == READY ? e->node : e->message; }

static bool is_selected(const event *e) {
    const damage *d = run.damage;
    return d->ops & (int)e->op && subject(e) % d->every == d->every - 1;
}

static void add(plan *p, enum op op, task t, uint32_t at, uint32_t to, uint32_t message) {
    event e = {op, t, at, to, message, GERFMUOD_FIRST_GENERATION, false};
    e.is_damaged = is_selected(&e);
    if (run.damage->edit == NODE && e.is_damaged) e.node = (at + 1) % NODES;
    if (run.damage->edit == RECEIVER && e.is_damaged) e.to = (to + 1) % NODES;
    if (run.damage->edit == GENERATION && e.is_damaged) e.generation++;
    p->events[p->count++] = e;
    if (run.damage->edit == TWICE && e.is_damaged) p->events[p->count++] = e;
}

static void move(plan *p, uint32_t from, uint32_t to) {
    event e = p->events[from];
    for (; from < to; from++) p->events[from] = p->events[from + 1];
    for (; from > to; from--) p->events[from] = p->events[from - 1];
    p->events[to] = e;
}

/* Moves each selected event behind or before the nearest of the other ones. */
static void reorder(plan *p) {
    const damage *d = run.damage;
    if (d->edit != BEHIND && d->edit != BEFORE) return;
    bool was_moved[PLAN] = {false};
    for (uint32_t i = 0; i < p->count; i++) {
        if (!p->events[i].is_damaged || was_moved[i]) continue;
        uint32_t there = p->count;
        for (uint32_t j = 0; j < p->count; j++)
            if ((int)p->events[j].op == d->other && (there == p->count || j == i + 1)) there = j;
        if (there == p->count) continue;
        uint32_t to = d->edit == BEHIND ? there + (there < i) : there - (there > i);
        move(p, i, to);
        was_moved[to] = true;
    }
}

static plan *begin_plan(uint32_t thread, uint32_t maker_kind, uint32_t maker) {
    plan *p = &run.threads[thread];
    p->count = p->next = 0;
    p->maker_kind = maker_kind;
    p->maker = maker;
    p->runs_task = false;
    return p;
}

static task new_task(void) {
    task t = {run.tasks, run.tasks};
    event e = {INSERT, t, 0, 0, 0, 0, false};
    run.tasks++;
    if (run.damage->edit == NUMBER && is_selected(&e)) t.number--;
    return t;
}

static void add_tasks(plan *p, uint32_t at, uint32_t count) {
    for (; count > 0; count--) {
        task t = new_task();
        add(p, INSERT, t, at, 0, 0);
        add(p, PUSH, t, at, 0, 0);
        run.left++;
    }
}

static void plan_task(uint32_t thread, uint32_t at, task t) {
    plan *p = begin_plan(thread, GERFMUOD_BY_TASK, t.number);
    uint32_t kids = t.serial == 0 ? KIDS : run.left < THREADS || below(1000) < 240 ? 4 : 0; /* a binomial tree that does not die out */
    add(p, BEGIN, t, at, 0, 0);
    if (run.tasks < TASKS) add_tasks(p, at, kids);
    add(p, DONE, t, at, 0, 0);
    p->runs_task = true;
    reorder(p);
}

/* A task leaves its node as a message: there it is begun, sent away and done. */
static void plan_theft(uint32_t thread, uint32_t at, uint32_t to, task t) {
    plan *p = begin_plan(thread, GERFMUOD_BY_TASK, t.number);
    uint32_t message = run.messages++;
    event e = {SEND, t, at, to, message, 0, false};
    if (run.damage->edit == NUMBER && is_selected(&e)) message--;
    add(p, BEGIN, t, at, 0, 0);
    add(p, SEND, t, at, to, message);
    add(p, POST, t, at, to, message);
    add(p, DONE, t, at, 0, 0);
    reorder(p);
}

static void plan_message(uint32_t thread, uint32_t at, const event *e) {
    plan *p = begin_plan(thread, GERFMUOD_BY_MESSAGE, e->message);
    add(p, RECEIVE, e->task, at, 0, e->message);
    add_tasks(p, at, 1);
    run.left--; /* the task came with the message */
    add(p, END, e->task, at, 0, e->message);
    reorder(p);
}

/* ---- the events */

/* Whether an event is about the first damaged task or message, or was made by it. */
static bool is_of_first(const plan *p, const event *e) {
    const event *first = &run.first;
    uint32_t kind = is_of_task(first->op) ? GERFMUOD_BY_TASK : GERFMUOD_BY_MESSAGE;
    uint32_t number = is_of_task(first->op) ? first->task.number : first->message;
    if (!run.has_damaged) return true;
    if (first->op == READY) return e->node == first->node;
    if (p->maker_kind == kind && p->maker == number) return true;
    return is_of_task(e->op) == is_of_task(first->op) && (is_of_task(e->op) ? e->task.number : e->message) == number;
}

static void check(const plan *p, const event *e, gerfmuod_step_result answer) {
    if (!answer.refused || run.is_found) return;
    run.is_found = true;
    run.outcome = is_of_first(p, e) ? AT_ONCE : LATE;
}

static gerfmuod_step_result report(const plan *p, const event *e) {
    gerfmuod_core *core = &run.core;
    uint32_t kind = p->maker_kind, maker = p->maker, t = e->task.number;
    switch ((int)e->op) {
    case INSERT: return run.by ? gerfmuod_core_insert_by(core, kind, maker, e->node, t, 0) : gerfmuod_core_insert(core, e->node, t, 0);
    case BEGIN: return run.by ? gerfmuod_core_begin_at(core, e->node, t) : gerfmuod_core_begin(core, t);
    case DONE: return run.by ? gerfmuod_core_done_at(core, e->node, t) : gerfmuod_core_done(core, t);
    case SEND:
        return run.by ? gerfmuod_core_send_by(core, kind, maker, e->node, e->to, e->message, e->generation)
                      : gerfmuod_core_send(core, e->node, e->to, e->message, e->generation);
    case RECEIVE: return gerfmuod_core_receive(core, e->node, e->message, e->generation);
    case END: return gerfmuod_core_message_end(core, e->node, e->message, e->generation);
    default: return gerfmuod_core_ready(core, e->node);
    }
}

/* Does the next event of a plan. */
static void act(plan *p) {
    event *e = &p->events[p->next++];
    node *at = &run.nodes[e->op == POST ? e->to : e->node];
    if (e->is_damaged && !run.has_damaged) run.first = *e, run.has_damaged = true;
    if (at->last == MOST || at->last_message == MOST) exit(9);
    if (e->op == PUSH) at->ready[at->last++] = e->task;
    else if (e->op == POST) at->inbox[at->last_message++] = *e;
    else if (run.damage->edit != FORGET || !e->is_damaged) check(p, e, report(p, e));
    run.left -= p->runs_task && p->next == p->count;
}

static void report_busy(bool begins) {
    event none = {READY, {0, 0}, 0, 0, 0, 0, false};
    run.is_busy = begins;
    for (uint32_t at = 0; at < NODES; at++)
        check(&run.threads[THREADS], &none,
              begins ? gerfmuod_core_action_open(&run.core, at, 0) : gerfmuod_core_action_close(&run.core, at, 0));
}

/* An idle thread asks for the end, and then for a task of another node. */
static void ask(uint32_t at) {
    bool is_forgotten = run.damage->edit == FORGET && run.damage->ops == SETTLE;
    if (!is_forgotten && gerfmuod_core_settle(&run.core).refused == 0) {
        run.is_found = true;
        run.outcome = run.left ? EARLY : SILENT;
        return;
    }
    node *victim = &run.nodes[(at + 1 + below(NODES - 1)) % NODES];
    if (run.nodes[at].has_asked || victim->has_thief) return;
    run.nodes[at].has_asked = victim->has_thief = true;
    victim->thief = at;
}

/* A thread with no plan takes up a request of a thief, a message or a task. */
static void take(uint32_t thread) {
    uint32_t at = thread % NODES;
    node *own = &run.nodes[at];
    if (own->has_thief) {
        own->has_thief = false;
        if (own->last - own->first >= 2) plan_theft(thread, at, own->thief, own->ready[own->first++]);
        else run.nodes[own->thief].has_asked = false;
    } else if (own->first_message < own->last_message) {
        own->has_asked = false;
        plan_message(thread, at, &own->inbox[own->first_message++]);
    } else if (own->first < own->last) {
        plan_task(thread, at, own->ready[--own->last]);
    } else {
        ask(at);
    }
}

static void turn(void) {
    bool is_outside = run.damage->edit == OUTSIDE && run.tasks >= TASKS / 2;
    uint32_t thread = below(THREADS + is_outside);
    plan *p = &run.threads[thread];
    if (p->next < p->count) act(p);
    else if (thread < THREADS) take(thread);
    else if (!run.has_damaged) {
        add_tasks(begin_plan(thread, GERFMUOD_BY_OPENING, 0), 0, 1);
        p->events[0].is_damaged = true;
    }
    if (run.is_busy && run.tasks >= TASKS) report_busy(false);
}

/* The main thread inserts the root, and reports that each node is ready. */
static void begin(void) {
    plan *p = begin_plan(THREADS, GERFMUOD_BY_OPENING, 0);
    task none = {0, 0};
    add_tasks(p, 0, 1);
    for (uint32_t at = 0; at < NODES; at++) add(p, READY, none, at, 0, 0);
    reorder(p);
    if (run.keeps_busy) report_busy(true);
    while (p->next < p->count) act(p);
}

static enum outcome outcome_of(const damage *d, bool keeps_busy, bool by, uint32_t seed) {
    memset(&run, 0, sizeof run);
    run.damage = d;
    run.keeps_busy = keeps_busy;
    run.by = by;
    run.seed = 0x9e3779b97f4a7c15u * (seed + 1);
    run.outcome = HANGS;
    if (gerfmuod_core_open(&run.core, NODES)) exit(9);
    begin();
    for (uint32_t k = 0; k < TURNS && !run.is_found; k++) turn();
    gerfmuod_core_close(&run.core);
    return run.outcome;
}

/* Prints what became of all runs of a damage; returns how many were silent. */
static uint32_t cell(const damage *d, bool keeps_busy, bool by) {
    static const char *const names[] = {"at once", "late", "hangs", "silent"};
    uint32_t count[OUTCOMES] = {0};
    for (uint32_t seed = 0; seed < RUNS; seed++) count[outcome_of(d, keeps_busy, by, seed)]++;
    uint32_t early = count[EARLY];
    count[SILENT] += early;
    const char *between = " | ";
    for (int k = AT_ONCE; k <= SILENT; k++) {
        if (count[k] == 0) continue;
        printf("%s%u %s", between, (unsigned)count[k], names[k]);
        between = ", ";
    }
    if (early) printf(" (%u early)", (unsigned)early);
    return count[SILENT];
}

int main(void) {
    uint32_t wrong = 0;
    for (uint32_t seed = 0; seed < 3 * RUNS; seed++) /* right runs */
        if (outcome_of(&damages[0], seed % 3 > 0, seed % 3 > 1, seed) != SILENT) return printf("a right run is refused or hangs\n"), 1;
    printf("| Damage | alone | alone, nodes busy | `_by`, nodes busy |\n|---|---|---|---|\n");
    for (uint32_t k = 1; k < sizeof damages / sizeof *damages; k++) {
        const damage *d = &damages[k];
        printf("| %u: %s", (unsigned)k, d->text);
        if (d->edit == UNLOCKED) {
            printf(" | ThreadSanitizer | ThreadSanitizer | ThreadSanitizer |\n");
            continue;
        }
        cell(d, false, false);
        cell(d, true, false);
        wrong += cell(d, true, true) != 0 && k <= 20;
        printf(" |\n");
    }
    return wrong != 0;
}
