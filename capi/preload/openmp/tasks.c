/* tasks.c: the tasks of a program from their creation to their end, and the memory that they are in.
 *
 * The runtime keeps a word for each task: here a handle, which is the number of the task and that of its memory. Memory is used
 * again, first what was freed longest ago: so an event of a task that is over is seen as such, and named. */
#include "tool.h"
#include <stdlib.h>
#include <string.h>

/* QUARANTINE: this much memory stays as it was, so that the core is asked about a task that ends twice. */
enum { CHUNK = 1024, QUARANTINE = 256 };
#define FIRST_IMPLICIT 0x80000000u /* the numbers of implicit tasks begin here, those of others at 1 */
static task **chunks;
static uint32_t used, free_count, implicit_count;
static task free_tasks = {.next = &free_tasks, .previous = &free_tasks};

static void put_last(task *list, task *t) {
    t->next = list, t->previous = list->previous;
    t->previous->next = t, list->previous = t;
}
static void take_out(task *t) { t->previous->next = t->next, t->next->previous = t->previous; }

uint32_t id_in(uint64_t handle) { return (uint32_t)(handle >> 32); }
uint64_t handle_of(const task *t) { return t ? (uint64_t)t->id << 32 | t->slot : 0; }

/* Returns the task of a handle; NULL if there is none, or if its memory was used again. */
task *task_by(uint64_t handle) {
    uint32_t slot = (uint32_t)handle;
    if (!handle || slot >= used) return NULL;
    task *t = &chunks[slot / CHUNK][slot % CHUNK];
    return t->id == id_in(handle) ? t : NULL;
}
task *task_of(const ompt_data_t *data) { return data ? task_by(data->value) : NULL; }

static void *or_stop(void *memory) {
    if (!memory) abort();
    return memory;
}

/* Returns memory for a task: of one that is done, or new. */
static task *take_slot(void) {
    if (free_count > QUARANTINE) {
        task *t = free_tasks.next;
        take_out(t);
        free_count--;
        return t;
    }
    if (used % CHUNK == 0) {
        chunks = or_stop(realloc(chunks, (used / CHUNK + 1) * sizeof *chunks));
        chunks[used / CHUNK] = or_stop(calloc(CHUNK, sizeof(task)));
    }
    task *t = &chunks[used / CHUNK][used % CHUNK];
    t->slot = used++;
    return t;
}

task *new_task(region *r, task *parent) {
    task *t = take_slot();
    uint32_t slot = t->slot;
    memset(t, 0, sizeof *t);
    t->slot = slot, t->region = r, t->parent = parent;
    t->id = parent ? (uint32_t)++total.tasks : FIRST_IMPLICIT + implicit_count++;
    return t;
}

/* Frees the memory of a task that is done, if no child and no clause needs it. */
void release_task(task *t) {
    if (t->life != DONE || t->children || t->listed || t->is_free) return;
    forget_addresses(t);
    t->is_free = true;
    put_last(&free_tasks, t);
    free_count++;
}

task *create_task(task *parent, int flags, const void *code) {
    region *r = parent->region;
    open_core(r);
    task *t = new_task(r, parent);
    t->member_of = t->group = parent->group, t->flags = flags, t->path = parent->path, t->site = site_of(code);
    t->site->tasks++;
    put_last(&r->live, t);
    r->live_count++, parent->children++;
    if (t->member_of) t->member_of->left++;
    return t;
}

void insert_task(task *t) {
    const task *parent = t->parent;
    const char *what = "a task was made";
    if (parent->is_implicit && t->region->arrived[parent->thread]) what = "a thread that has come to the barrier made a task";
    else if (parent->life < RUNNING) what = "a task that has not begun made a task";
    else if (parent->life != RUNNING) what = "a task that ended made a task";
    t->inputs = t->missing < GERFMUOD_MAX_INPUTS ? t->missing : GERFMUOD_MAX_INPUTS;
    t->number = t->region->numbers++, t->epoch = t->region->epoch;
    judge(t, GERFMUOD_STEP_INSERT, parent, what);
    t->is_inserted = true, t->life = t->missing ? WAITING : READY;
}

/* An event of a task that is done: the core is asked if it knows the task. */
static void judge_again(task *t, uint32_t kind, const char *what) {
    if (is_of_this_core(t)) judge(t, kind, NULL, what);
    else fault(NULL, t, what, 0);
}

void begin_task(task *t) {
    region *r = t->region;
    if (t->life == DONE) {
        judge_again(t, GERFMUOD_STEP_BEGIN, "a task that is done began again");
        return;
    }
    if (!t->is_inserted) { /* its clauses were announced, and not sent */
        total.unsent++;
        insert_task(t);
    }
    if (t->missing) end_unsent(r, t, NULL, NULL);
    judge(t, GERFMUOD_STEP_BEGIN, NULL, t->missing ? "a task began before what it depends on was done" : "a task began");
    const task *other = exclude_others(t);
    if (other && !r->is_broken) {
        fault(r, t, "a task began while one ran that it excludes (mutexinoutset)", 0);
        say("    that is task %u", other->id);
    }
    t->life = RUNNING;
}

static void longer(uint64_t *path, uint64_t other) {
    if (*path < other) *path = other;
}

/* A task that waits for one that is done. If it waits for more than 16, the last input stands for all above 15. */
static void supply(task *t, const task *done, const char *what) {
    t->missing--;
    longer(&t->path, done->path);
    if (t->given + 1 == t->inputs && t->missing) return;
    bool was_broken = t->region->is_broken;
    judge(t, GERFMUOD_STEP_SUPPLY, done, what);
    if (t->region->is_broken && !was_broken) say("    the task that ended is task %u", done->id);
    t->given++;
    if (!t->missing && t->life == WAITING) t->life = READY;
}

static void take_from_live(task *t) {
    task *parent = t->parent;
    take_out(t);
    t->region->live_count--, parent->children--;
    longer(&parent->children_path, t->path);
    if (t->member_of) t->member_of->left--, longer(&t->member_of->path, t->path);
    end_exclusion(t);
    release_task(parent);
}

static void forget_successors(task *t) {
    free(t->after.tasks);
    t->after = (set){0};
}

void finish_task(task *t, bool is_cancelled) {
    region *r = t->region;
    if (t->life == DONE) {
        judge_again(t, GERFMUOD_STEP_DONE, "a task ended twice");
        return;
    }
    if ((is_cancelled || r->is_cancelled) && t->life < RUNNING) begin_task(t); /* discarded: its body did not run */
    const char *what = t->life < RUNNING ? "a task ended that had not begun" : "a task ended";
    for (uint32_t n = 0; n < t->after.count; n++) supply(t->after.tasks[n], t, what);
    judge(t, GERFMUOD_STEP_DONE, NULL, what);
    forget_successors(t);
    t->life = DONE;
    longer(&r->path, t->path);
    if (t->flags & (ompt_task_undeferred | ompt_task_taskwait)) longer(&t->parent->path, t->path);
    site *s = t->site;
    s->ended++, s->ns += t->ns, s->early += t->children > 0;
    if (s->ended == 1 || t->ns < s->least) s->least = t->ns;
    longer(&s->most, t->ns);
    take_from_live(t);
    release_task(t);
}

/* Some ends are not sent: those of tasks that libomp's internal interface completes. If a task that is away (it was suspended, or
 * its body is over) keeps one from beginning, or a taskwait, a taskgroup or a barrier from ending, its end is taken as not sent. */
void end_unsent(region *r, const task *successor, const task *parent, const group *g) {
    for (task *t = r->live.next, *next; t != &r->live; t = next) {
        next = t->next;
        bool is_one = !successor || waits_for(successor, t);
        if (!t->is_away || !is_one || (parent && t->parent != parent) || (g && t->member_of != g)) continue;
        total.unended++;
        finish_task(t, false);
    }
}

/* The tasks that are left when the region's barrier was passed: reported before. */
void lose_tasks(region *r) {
    while (r->live.next != &r->live) {
        task *t = r->live.next;
        t->life = LOST;
        forget_successors(t);
        take_from_live(t);
    }
}

void end_implicit(task *t) {
    t->life = DONE;
    release_task(t);
}
