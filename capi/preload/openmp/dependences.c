/* dependences.c: which tasks a task waits for, and which it excludes: computed here from the depend clauses, by the rules of
 * OpenMP, and not taken from the runtime.
 *
 * Among the children of one task, those whose clauses name an address come in sets: a task with `out` or `inout` is one alone,
 * successive ones with `in`, with `mutexinoutset` or with `inoutset` are one together. Each waits for all of the set before. */
#include "tool.h"
#include <stdlib.h>

enum { FIRST_BUCKETS = 16 };

static void append(set *s, task *t) {
    if (s->count == s->room) {
        s->room = s->room ? 2 * s->room : 4;
        s->tasks = realloc(s->tasks, s->room * sizeof *s->tasks);
        if (!s->tasks) abort();
    }
    s->tasks[s->count++] = t;
}

static void unlist(task *t) {
    t->listed--;
    release_task(t);
}

/* Drops the tasks of a set that are done, and keeps their longest path. */
static void drop_done(set *s) {
    uint32_t kept = 0;
    for (uint32_t n = 0; n < s->count; n++) {
        task *t = s->tasks[n];
        if (t->life < DONE) s->tasks[kept++] = t;
        else {
            if (s->path < t->path) s->path = t->path;
            s->gone++;
            unlist(t);
        }
    }
    s->count = kept;
}
static void clear(set *s) {
    for (uint32_t n = 0; n < s->count; n++) unlist(s->tasks[n]);
    free(s->tasks);
    *s = (set){0};
}
static void join(set *s, task *t) {
    if (s->count == s->room && s->room) drop_done(s);
    t->listed++;
    append(s, t);
}

static size_t bucket_of(const task *parent, const void *place) {
    return (size_t)((((uint64_t)(uintptr_t)place >> 2) * 0x9E3779B97F4A7C15u) >> 32) & (parent->buckets - 1);
}
static void link_address(task *parent, address *a) {
    address **at = &parent->addresses[bucket_of(parent, a->place)];
    a->next = *at, *at = a;
}
static void grow(task *parent) {
    address **old = parent->addresses;
    uint32_t count = parent->buckets;
    parent->buckets = count ? 4 * count : FIRST_BUCKETS;
    parent->addresses = calloc(parent->buckets, sizeof *old);
    if (!parent->addresses) abort();
    for (uint32_t n = 0; n < count; n++)
        for (address *a = old[n], *next; a; a = next) next = a->next, link_address(parent, a);
    free(old);
}
static address *address_of(task *parent, const void *place) {
    if (parent->named >= 2 * parent->buckets) grow(parent);
    for (address *a = parent->addresses[bucket_of(parent, place)]; a; a = a->next)
        if (a->place == place) return a;
    address *a = calloc(1, sizeof *a);
    if (!a) abort();
    a->place = place, parent->named++;
    link_address(parent, a);
    return a;
}

/* Forgets the addresses of a task whose children are done. */
void forget_addresses(task *parent) {
    for (uint32_t n = 0; n < parent->buckets; n++)
        for (address *a = parent->addresses[n], *next; a; a = next) {
            next = a->next;
            clear(&a->now), clear(&a->before);
            free(a);
        }
    free(parent->addresses);
    parent->addresses = NULL, parent->buckets = parent->named = 0;
}

static void wait_for(task *t, const set *s) {
    total.dependences += s->count + s->gone;
    if (t->path < s->path) t->path = s->path;
    for (uint32_t n = 0; n < s->count; n++) {
        task *p = s->tasks[n];
        if (p->life >= DONE && t->path < p->path) t->path = p->path;
        if (p->life >= DONE || (p->after.count && p->after.tasks[p->after.count - 1] == t)) continue; /* done, or the same pair twice */
        append(&p->after, t);
        t->missing++;
    }
}

/* The kind of the clauses with an address that comes again in the list: as inout, if they differ. 0 for one that came before. */
static ompt_dependence_type_t kind_at(const ompt_dependence_t *clauses, int count, int place) {
    ompt_dependence_type_t kind = clauses[place].dependence_type;
    for (int n = 0; n < count; n++) {
        if (n == place || clauses[n].variable.ptr != clauses[place].variable.ptr) continue;
        if (n < place) return 0;
        if (clauses[n].dependence_type != kind) kind = ompt_dependence_type_inout;
    }
    return kind == ompt_dependence_type_out ? ompt_dependence_type_inout : kind;
}

static void take_clause(task *t, ompt_dependence_type_t kind, const void *place) {
    address *a = address_of(t->parent, place);
    bool joins = a->now.count && a->kind == kind && kind != ompt_dependence_type_inout;
    wait_for(t, joins || !a->now.count ? &a->before : &a->now);
    if (t->flags & ompt_task_taskwait) return; /* it waits, and no task waits for it */
    if (!joins && a->now.count) {
        clear(&a->before);
        a->before = a->now, a->now = (set){0};
    }
    a->kind = kind;
    join(&a->now, t);
    if (kind != ompt_dependence_type_mutexinoutset) return;
    hold *h = malloc(sizeof *h);
    if (!h) abort();
    *h = (hold){a, t->holds};
    t->holds = h;
}

void take_dependences(task *t, const ompt_dependence_t *clauses, int count) {
    for (int n = 0; n < count; n++) {
        ompt_dependence_type_t kind = kind_at(clauses, count, n);
        if (kind == ompt_dependence_type_source || kind == ompt_dependence_type_sink) total.ordered++;
        else if (kind > ompt_dependence_type_inoutset) total.unsent++;
        else if (kind) take_clause(t, kind, clauses[n].variable.ptr);
    }
}

/* A task begins: returns one that runs and may not run at the same time, or NULL. */
task *exclude_others(task *t) {
    task *other = NULL;
    for (hold *h = t->holds; h; h = h->next) {
        if (h->at->holder && h->at->holder != t) other = h->at->holder;
        h->at->holder = t;
    }
    return other;
}
void end_exclusion(task *t) {
    for (hold *h = t->holds, *next; h; h = next) {
        next = h->next;
        if (h->at->holder == t) h->at->holder = NULL;
        free(h);
    }
    t->holds = NULL;
}

bool waits_for(const task *t, const task *other) {
    for (uint32_t n = 0; n < other->after.count; n++)
        if (other->after.tasks[n] == t) return true;
    return false;
}
