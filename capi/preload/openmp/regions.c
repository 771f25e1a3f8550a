/* regions.c: parallel regions, their implicit tasks, and their barriers. */
#include "tool.h"
#include <stdlib.h>
#include <string.h>

region regions = {.next = &regions, .previous = &regions};
static region *free_regions; /* their memory stays theirs: a task that is over still names its region */

region *new_region(const void *code, task *creator) {
    region *r = free_regions;
    if (r) free_regions = r->next;
    else r = malloc(sizeof *r);
    if (!r) abort();
    memset(r, 0, sizeof *r);
    r->code = code, r->creator = handle_of(creator), r->path = creator ? creator->path : 0;
    r->live.next = r->live.previous = &r->live;
    r->users = 1;
    r->next = &regions, r->previous = regions.previous;
    r->previous->next = r, regions.previous = r;
    return r;
}

void drop_user(region *r) {
    if (--r->users) return;
    free(r->team), free(r->arrived);
    r->team = NULL, r->arrived = NULL, r->epoch = 0;
    r->next = free_regions, free_regions = r;
}

task *begin_implicit(region *r, uint32_t thread, uint32_t size) {
    if (!r->size) {
        r->size = size ? size : 1;
        r->team = calloc(r->size, sizeof *r->team);
        r->arrived = calloc(r->size, sizeof *r->arrived);
        if (!r->team || !r->arrived) abort();
    }
    task *t = new_task(r, NULL);
    t->is_implicit = true, t->life = RUNNING, t->thread = thread % r->size, t->path = r->path, t->phase = r->phase;
    r->team[t->thread] = t;
    r->users++;
    return t;
}

/* A thread comes to a barrier, or to the end of the region. */
void arrive(region *r, task *t) {
    if (r->path < t->path) r->path = t->path;
    judge(t, GERFMUOD_STEP_ACTION_CLOSE, NULL, "a thread came to a barrier");
    r->came += !r->arrived[t->thread];
    r->arrived[t->thread] = true;
}

/* The first thread that leaves a barrier shows that the barrier ended. */
void leave_barrier(region *r, task *t) {
    t->phase++;
    if (r->phase < t->phase) {
        r->phase = t->phase;
        if (r->is_cancelled) r->is_unjudged = true;
        else if (r->came < r->size) {
            fault(r, t, "a thread left a barrier that others have not come to", 0);
            list_left(r, NULL, NULL);
            r->is_cancelled = true; /* the threads are no longer between the same barriers */
        }
        judge_end(r, "a thread left a barrier, but work is left");
        r->came = 0;
        memset(r->arrived, 0, r->size * sizeof *r->arrived);
    }
    t->path = r->path;
    if (!t->children) forget_addresses(t);
}

void end_region(region *r) {
    r->is_ended = true, r->ended = clock_now();
    judge_end(r, "a parallel region ended, but work is left");
    task *creator = task_by(r->creator);
    if (creator && creator->path < r->path) creator->path = r->path;
    r->previous->next = r->next, r->next->previous = r->previous;
    drop_user(r);
}
