/* judge.c: all calls of the proved core. Each region with tasks has one, with one node, from its first task after a barrier to the
 * next barrier: the implicit task of each thread is an action, which closes when that thread comes to the barrier.
 *
 * A core keeps no list of its steps, so it takes any number of them. Only the one whose trace is written does: when that one is full,
 * its region is not judged until the next barrier. */
#include "tool.h"
#include <stdio.h>
#include <stdlib.h>

static uint32_t epochs;
static bool has_traced;

bool is_of_this_core(const task *t) { return t->epoch == t->region->epoch && t->region->is_open; }

static void stop_judging(region *r, uint32_t refused) {
    say("not judged until the next barrier: %s", gerfmuod_refusal_text(refused));
    r->is_unjudged = true, total.unjudged++;
}

static gerfmuod_step_result take(gerfmuod_core *core, const task *t, uint32_t kind, const task *maker) {
    switch (kind) {
    case GERFMUOD_STEP_INSERT: {
        uint32_t by = maker->is_implicit ? GERFMUOD_BY_ACTION : GERFMUOD_BY_TASK;
        return gerfmuod_core_insert_by(core, by, maker->is_implicit ? maker->thread : maker->number, 0, t->number, t->inputs);
    }
    case GERFMUOD_STEP_SUPPLY: return gerfmuod_core_supply_by(core, GERFMUOD_BY_TASK, maker->number, t->number);
    case GERFMUOD_STEP_BEGIN: return gerfmuod_core_begin(core, t->number);
    case GERFMUOD_STEP_DONE: return gerfmuod_core_done(core, t->number);
    default: return gerfmuod_core_action_close(core, 0, t->thread);
    }
}

static uint32_t seed(gerfmuod_core *core, region *r, task *t) {
    t->number = r->numbers++, t->epoch = r->epoch;
    uint32_t refused = gerfmuod_core_insert(core, 0, t->number, t->inputs).refused;
    for (uint32_t n = 0; n < t->given && !refused; n++) refused = gerfmuod_core_supply(core, t->number).refused;
    if (!refused && (t->life == RUNNING || t->life == DETACHED)) refused = gerfmuod_core_begin(core, t->number).refused;
    return refused;
}

/* Opens the core of a region with the threads that have not come to the barrier and the tasks that are not done: the one place
 * that opens a core. Returns why it cannot. */
static uint32_t open_with_rest(region *r) {
    bool is_listed = *option.trace && !has_traced;
    uint32_t refused = is_listed ? gerfmuod_core_open(&r->core, 1) : gerfmuod_core_open_unrecorded(&r->core, 1);
    r->is_open = !refused, r->epoch = ++epochs, r->numbers = 0;
    for (uint32_t n = 0; n < r->size && !refused; n++)
        if (!r->arrived[n]) refused = gerfmuod_core_action_open(&r->core, 0, n).refused;
    for (task *t = r->live.next; t != &r->live && !refused; t = t->next)
        if (t->is_inserted) refused = seed(&r->core, r, t);
    return refused ? refused : gerfmuod_core_ready(&r->core, 0).refused;
}

void open_core(region *r) {
    if (r->is_open) return;
    r->is_broken = r->is_unjudged = false;
    uint32_t refused = open_with_rest(r);
    if (refused) stop_judging(r, refused);
}

/* Reports an event of a task, or the arrival of an implicit task, to the core. `maker` is what creates or supplies the task. */
void judge(task *t, uint32_t kind, const task *maker, const char *what) {
    region *r = t->region;
    if (!r->is_open || r->is_broken || r->is_unjudged) return;
    uint32_t refused = take(&r->core, t, kind, maker).refused;
    bool is_full = refused == GERFMUOD_REFUSED_HISTORY_FULL || refused == GERFMUOD_REFUSED_STORE_FULL;
    if (is_full || refused == GERFMUOD_REFUSED_NO_MEMORY) stop_judging(r, refused);
    else if (refused) fault(r, t, what, refused);
}

/* Writes the trace of the first core that ends: `tp audit` judges it, and `samples draw run` draws it. */
static void write_trace(region *r) {
    if (has_traced || !*option.trace) return;
    has_traced = true;
    size_t length = gerfmuod_core_trace(&r->core, NULL, 0).length;
    char *text = length ? malloc(length) : NULL;
    FILE *file = fopen(option.trace, "w");
    bool is_well = text && file && gerfmuod_core_trace(&r->core, text, length).outcome == GERFMUOD_WRITTEN;
    is_well = is_well && fwrite(text, 1, length, file) == length;
    if (!file || fclose(file) || !is_well) say("the trace was not written: %s", option.trace);
    free(text);
}

static void close_core(region *r) {
    if (!r->is_open) return;
    write_trace(r);
    gerfmuod_core_close(&r->core);
    r->is_open = false;
}

/* A barrier was passed, or a region ended: nothing may be left. */
void judge_end(region *r, const char *what) {
    end_unsent(r, NULL, NULL, NULL);
    if (r->is_open && !r->is_broken && !r->is_unjudged) {
        uint32_t refused = gerfmuod_core_settle(&r->core).refused;
        if (refused) fault(r, NULL, what, refused), list_left(r, NULL, NULL);
        else total.ends++;
    }
    close_core(r);
    lose_tasks(r);
}
