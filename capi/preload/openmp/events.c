/* events.c: the callbacks of the runtime. Each takes the lock, finds the task that the event is of, and calls the other files. */
#include "tool.h"
#include <stdio.h>
#include <stdlib.h>

static void run_now(worker *w, task *t) { w->now = t, w->id = t ? t->id : 0; }

/* An event is of this task, so it is what the thread runs. If that was another one, no event said that it was left. */
static void notice(worker *w, task *current) {
    task *last = w->now;
    if (!current || last == current) return;
    if (last && last->id == w->id && last->life == RUNNING && !last->wait && !last->is_implicit) last->is_away = true;
    run_now(w, current);
}

/* ---- parallel regions */

static void on_parallel_begin(ompt_data_t *creator, const ompt_frame_t *frame, ompt_data_t *parallel, unsigned size, int flags,
                              const void *code) {
    (void)frame, (void)size, (void)flags;
    worker *w = enter();
    task *t = task_of(creator);
    parallel->ptr = new_region(code, t);
    if (t) t->wait = IN_PARALLEL;
    run_now(w, NULL);
    leave(w);
}
static void on_parallel_end(ompt_data_t *parallel, ompt_data_t *creator, int flags, const void *code) {
    (void)flags, (void)code;
    worker *w = enter();
    if (parallel->ptr) end_region(parallel->ptr);
    parallel->ptr = NULL;
    task *t = task_of(creator);
    if (t) t->wait = 0;
    run_now(w, t);
    leave(w);
}
static void end_implicit_task(worker *w, ompt_data_t *data) {
    task *t = task_of(data);
    run_now(w, NULL);
    if (!t) return;
    region *r = t->region;
    if (!r->is_ended && !r->arrived[t->thread]) arrive(r, t);
    if (r->is_outer && t->flags) end_region(r);
    r->team[t->thread] = NULL;
    end_implicit(t);
    drop_user(r);
    data->value = 0;
}
static void on_implicit_task(ompt_scope_endpoint_t end, ompt_data_t *parallel, ompt_data_t *data, unsigned size, unsigned index,
                             int flags) {
    worker *w = enter();
    if (end == ompt_scope_begin) {
        bool is_outer = (flags & ompt_task_initial) && parallel && !parallel->ptr;
        if (is_outer) parallel->ptr = new_region(NULL, NULL);
        region *r = parallel ? parallel->ptr : NULL;
        if (r) {
            task *t = begin_implicit(r, is_outer ? 0 : index, is_outer ? 1 : size);
            if (is_outer) r->is_outer = true, t->flags = ompt_task_initial;
            data->value = handle_of(t);
            run_now(w, t);
        }
    } else end_implicit_task(w, data);
    leave(w);
}

/* ---- tasks */

static void on_task_create(ompt_data_t *creator, const ompt_frame_t *frame, ompt_data_t *data, int flags, int has_dependences,
                           const void *code) {
    (void)frame;
    if (!(flags & (ompt_task_explicit | ompt_task_target | ompt_task_taskwait))) return;
    worker *w = enter();
    task *parent = task_of(creator);
    notice(w, parent);
    data->value = 0;
    if (flags & ompt_task_target) total.devices++;
    if (!parent) total.orphans += !total.faults;
    else if (parent->life != LOST) {
        task *t = create_task(parent, flags, code);
        if (flags & ompt_task_taskwait) parent->waiter = handle_of(t);
        else data->value = handle_of(t);
        if (!has_dependences) insert_task(t);
    }
    leave(w);
}
/* The taskwait with dependences that the thread is in. (The runtime has one word a thread for them, and asserts that it is 0 when
 * one begins: but while a thread is in one, it may run a task that has another. So the tool leaves that word alone.) */
static task *taskwait_of(const worker *w) { return w->now && w->now->id == w->id ? task_by(w->now->waiter) : NULL; }

static void on_dependences(ompt_data_t *data, const ompt_dependence_t *clauses, int count) {
    worker *w = enter();
    task *t = data->value ? task_of(data) : taskwait_of(w);
    if (t && t->is_implicit) total.ordered += (uint64_t)count; /* of the iterations of a loop */
    else if (t && !t->is_inserted) {
        take_dependences(t, clauses, count);
        insert_task(t);
    }
    leave(w);
}

static void end_task(ompt_data_t *data, ompt_task_status_t status) {
    task *t = task_of(data);
    if (!t) { /* its memory was used again */
        char text[64];
        snprintf(text, sizeof text, "task %u ended twice", id_in(data->value));
        fault(NULL, NULL, text, 0);
        return;
    }
    if (t->is_implicit || t->life == LOST) return;
    if (status == ompt_task_detach) t->life = DETACHED;
    else finish_task(t, status == ompt_task_cancel);
}
static void end_taskwait(task *t) {
    if (!t) return;
    t->parent->waiter = 0;
    if (t->life == LOST) return;
    begin_task(t);
    finish_task(t, false);
}
/* The thread goes on with a task: a new one, or one that it left. After the end of another one that may be a task that is done, as
 * libomp may run what waited for a task inside of its end; otherwise a task that is done begins again, which is wrong. */
static void go_on(worker *w, task *t, bool is_return) {
    bool has_begun = t->is_implicit || t->life == RUNNING || t->life == DETACHED || t->life == LOST || (t->life == DONE && is_return);
    if (!has_begun) begin_task(t);
    t->is_away = false;
    run_now(w, t);
}
static void on_task_schedule(ompt_data_t *before, ompt_task_status_t status, ompt_data_t *after) {
    worker *w = enter();
    bool is_fulfilled = status == ompt_task_late_fulfill || status == ompt_task_early_fulfill; /* by any thread */
    bool is_return = status == ompt_task_complete || status == ompt_task_cancel || status == ompt_task_detach;
    if (status == ompt_taskwait_complete) end_taskwait(taskwait_of(w));
    else if (!is_fulfilled) notice(w, task_of(before));
    if ((is_return || status == ompt_task_late_fulfill) && before && before->value) end_task(before, status);
    task *next = task_of(after);
    if (next) go_on(w, next, is_return);
    leave(w);
}

/* ---- waits */

static void on_taskwait(task *t, ompt_scope_endpoint_t end) {
    if (end == ompt_scope_begin) return;
    if (t->children) end_unsent(t->region, NULL, t, NULL);
    if (t->children && !t->region->is_broken) {
        fault(t->region, t, "a taskwait ended, but children of the task are left", 0);
        list_left(t->region, t, NULL);
    }
    if (t->path < t->children_path) t->path = t->children_path;
}
static void on_taskgroup(task *t, ompt_scope_endpoint_t end) {
    group *g = t->group;
    if (end == ompt_scope_begin) {
        g = calloc(1, sizeof *g);
        if (!g) abort();
        g->outer = t->group, t->group = g;
    } else if (g) {
        if (g->left) end_unsent(t->region, NULL, NULL, g);
        if (g->left && !t->region->is_broken) {
            fault(t->region, t, "a taskgroup ended, but tasks of it are left", 0);
            list_left(t->region, NULL, g);
        }
        if (t->path < g->path) t->path = g->path;
        t->group = g->outer;
        if (!g->left) free(g);
    }
}
static void on_sync_region(ompt_sync_region_t kind, ompt_scope_endpoint_t end, ompt_data_t *parallel, ompt_data_t *data,
                           const void *code) {
    (void)code;
    if (kind == ompt_sync_region_reduction) return;
    worker *w = enter();
    task *t = task_of(data);
    bool is_over = end == ompt_scope_end && !(parallel && parallel->ptr); /* the barrier of a region that has ended */
    if (t && t->life != LOST) {
        notice(w, t);
        t->wait = end == ompt_scope_begin && kind != ompt_sync_region_taskgroup ? (int)kind : 0;
        if (kind == ompt_sync_region_taskwait) on_taskwait(t, end);
        else if (kind == ompt_sync_region_taskgroup) on_taskgroup(t, end);
        else if (t->is_implicit && !t->region->is_ended && !is_over) {
            if (end == ompt_scope_begin) arrive(t->region, t);
            else leave_barrier(t->region, t);
        }
        if (is_over) run_now(w, NULL);
        else run_now(w, t);
    }
    leave(w);
}
/* Between the begin and the end of a taskgroup its block runs; here it waits. (Of the others that is nearly the same.) */
static void on_sync_wait(ompt_sync_region_t kind, ompt_scope_endpoint_t end, ompt_data_t *parallel, ompt_data_t *data, const void *code) {
    (void)parallel, (void)code;
    if (kind != ompt_sync_region_taskgroup) return;
    worker *w = enter();
    task *t = task_of(data);
    if (t) t->wait = end == ompt_scope_begin ? (int)kind : 0;
    leave(w);
}
static void on_cancel(ompt_data_t *data, int flags, const void *code) {
    (void)code;
    worker *w = enter();
    task *t = task_of(data);
    if (t && (flags & ompt_cancel_parallel) && !t->region->is_cancelled) t->region->is_cancelled = true, total.cancelled++;
    leave(w);
}

void set_callbacks(ompt_set_callback_t set_callback) {
    const struct { ompt_callbacks_t event; ompt_callback_t function; const char *name; } callbacks[] = {
        {ompt_callback_parallel_begin, (ompt_callback_t)on_parallel_begin, "parallel regions"},
        {ompt_callback_parallel_end, (ompt_callback_t)on_parallel_end, "ends of parallel regions"},
        {ompt_callback_implicit_task, (ompt_callback_t)on_implicit_task, "implicit tasks"},
        {ompt_callback_task_create, (ompt_callback_t)on_task_create, "creations of tasks"},
        {ompt_callback_dependences, (ompt_callback_t)on_dependences, "dependences"},
        {ompt_callback_task_schedule, (ompt_callback_t)on_task_schedule, "begins and ends of tasks"},
        {ompt_callback_sync_region, (ompt_callback_t)on_sync_region, "barriers, taskwaits and taskgroups"},
        {ompt_callback_sync_region_wait, (ompt_callback_t)on_sync_wait, "waits in taskgroups"},
        {ompt_callback_cancel, (ompt_callback_t)on_cancel, "cancellations"},
    };
    for (size_t n = 0; n < sizeof callbacks / sizeof *callbacks; n++) {
        ompt_set_result_t result = set_callback(callbacks[n].event, callbacks[n].function);
        if (result == ompt_set_error || result == ompt_set_never || result == ompt_set_impossible)
            say("the runtime does not send %s", callbacks[n].name);
    }
}
