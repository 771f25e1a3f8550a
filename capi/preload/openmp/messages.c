/* messages.c: what the tool prints while the program runs, on standard error: a fault, what is left, and what hangs. */
#include "tool.h"
#include <dlfcn.h>
#include <pthread.h>
#include <stdarg.h>
#include <stdio.h>
#include <stdlib.h>
#include <unistd.h>

/* Of each list, the most lines; and the most faults that are printed. */
enum { MOST_LINES = 8, MOST_FAULTS = 20, MOST_NAMES = 8 };
#define S(count) ((count) == 1 ? "" : "s")
static const char *const lives[] = {
    "was created", "waits", "is ready", "runs", "has an event that is not fulfilled", "is done", "was left",
};

/* Prints a line with one call of write, so that those of several threads do not mix. */
void say(const char *form, ...) {
    char text[1024] = "gerfmuod: ";
    enum { START = 10 };
    va_list rest;
    va_start(rest, form);
    int length = vsnprintf(text + START, sizeof text - START - 1, form, rest);
    va_end(rest);
    size_t end = length < 0 ? START : (size_t)length + START;
    if (end > sizeof text - 2) end = sizeof text - 2;
    text[end] = '\n';
    if (write(STDERR_FILENO, text, end + 1) < 0) return;
}

/* Where a task was made: the program or library, the offset in it that addr2line takes, and the function if it is exported. */
const char *place_of(const void *code, char room[512]) {
    Dl_info about;
    if (!code || !dladdr(code, &about) || !about.dli_fname) {
        snprintf(room, 512, "%s", code ? "unknown code" : "a place that the runtime does not send");
        return room;
    }
    const char *name = about.dli_fname;
    for (const char *at = name; *at; at++)
        if (*at == '/') name = at + 1;
    size_t offset = (size_t)((const char *)code - (const char *)about.dli_fbase) - 1; /* inside of the call */
    bool has_name = about.dli_sname != NULL;
    snprintf(room, 512, "%.200s+0x%zx%s%.200s%s", name, offset, has_name ? " (" : "", has_name ? about.dli_sname : "", has_name ? ")" : "");
    return room;
}

/* Prints the numbers of the tasks that a task waits for, or of those that wait for it. */
static void say_names(const region *r, const task *t, bool after) {
    char text[256] = "";
    int length = 0, shown = 0;
    for (const task *other = r->live.next; other != &r->live && shown <= MOST_NAMES; other = other->next) {
        if (!(after ? waits_for(other, t) : waits_for(t, other))) continue;
        if (shown++ == MOST_NAMES) length += snprintf(text + length, sizeof text - (size_t)length, ", ..");
        else length += snprintf(text + length, sizeof text - (size_t)length, "%s%u", shown > 1 ? ", " : "", other->id);
    }
    if (!shown) return;
    if (after) say("    task%s %s wait%s for it", S(shown), text, shown == 1 ? "s" : "");
    else say("    it waits for task%s %s", S(shown), text);
}

/* What a task, or the implicit task of a thread, does that waits. */
static const char *wait_of(const task *t) {
    switch (t->wait) {
    case ompt_sync_region_taskwait: return "waits in a taskwait";
    case ompt_sync_region_taskgroup: return "waits in a taskgroup";
    case IN_PARALLEL: return "waits for a parallel region that it began";
    default: return "waits at a barrier";
    }
}

static void say_task(const region *r, const task *t) {
    char room[512], maker[32] = "";
    const char *does = t->life == RUNNING && t->wait ? wait_of(t) : t->is_away ? "is suspended, or is over" : lives[t->life];
    if (t->parent && !t->parent->is_implicit) snprintf(maker, sizeof maker, " by task %u", t->parent->id);
    say("  task %u %s; made%s at %s", t->id, does, maker, place_of(t->site ? t->site->code : NULL, room));
    if (t->missing) say_names(r, t, false);
    if (t->after.count) say_names(r, t, true);
}

/* Lists tasks that are left: all, or the children of a task, or those of a taskgroup. */
static void list_tasks(const region *r, const task *parent, const group *g) {
    uint32_t shown = 0, count = 0;
    for (const task *t = r->live.next; t != &r->live; t = t->next) {
        if ((parent && t->parent != parent) || (g && t->member_of != g)) continue;
        count++;
        if (shown < MOST_LINES) shown++, say_task(r, t);
    }
    if (count > shown) say("  and %u more", count - shown);
}

/* The same for a fault; if it is of the region, also the threads that have not come to its barrier. */
void list_left(const region *r, const task *parent, const group *g) {
    if (total.faults > MOST_FAULTS) return;
    list_tasks(r, parent, g);
    for (uint32_t n = 0; n < r->size && !parent && !g && !r->is_ended; n++)
        if (!r->arrived[n]) say("  thread %u has not come to the barrier", n);
}

void fault(region *r, task *t, const char *what, uint32_t refused) {
    total.faults++;
    if (r) r->is_broken = true;
    if (total.faults > MOST_FAULTS) return;
    char name[16] = "", room[512];
    size_t length = refused ? gerfmuod_refusal_name(refused, name, sizeof name).length : 0;
    say("FAULT: %s%s%.*s%s", what, refused ? " (the core: " : "", (int)length, name, refused ? ")" : "");
    if (r && r->is_outer) say("  outside of parallel regions");
    else if (r)
        say("  in the parallel region at %s, with %u thread%s, after %u barrier%s", place_of(r->code, room), r->size, S(r->size),
            r->phase, S(r->phase));
    if (t && t->is_implicit) say("  thread %u", t->thread);
    else if (t) say_task(t->region, t);
    if (option.has_stop) abort();
}

/* Prints what each thread and task of a region does, and what it waits for. */
static void say_hang(const region *r) {
    char room[512];
    say("%u task%s left in %s", r->live_count, r->live_count == 1 ? " is" : "s are",
        r->is_outer ? "the program, outside of parallel regions" : place_of(r->code, room));
    list_tasks(r, NULL, NULL);
    for (uint32_t n = 0; n < r->size; n++) {
        const task *t = r->team[n];
        const char *does = !t ? "has not begun, or is over" : t->wait ? wait_of(t) : "runs code of its own, or a task";
        say("  thread %u %s", n, does);
    }
}

/* Whether each thread of a region waits, and no task of it runs that does not wait. */
static bool is_waiting(const region *r) {
    bool waits = true;
    for (uint32_t n = 0; n < r->size; n++) waits = waits && (!r->team[n] || r->team[n]->wait);
    for (const task *t = r->live.next; t != &r->live; t = t->next) waits = waits && (t->life != RUNNING || t->wait);
    return waits;
}

static void say_all(void) {
    bool waits = true, is_outside = true;
    for (region *r = regions.next; r != &regions; r = r->next) {
        waits = waits && is_waiting(r);
        is_outside = is_outside && r->is_outer && !r->live_count;
    }
    if (is_outside) return; /* no parallel region runs */
    say("nothing has happened for %u second%s, and %s thread waits", option.hang, S(option.hang), waits ? "every" : "not every");
    for (region *r = regions.next; r != &regions; r = r->next)
        if (!r->is_outer || r->live_count) say_hang(r);
    if (waits && option.has_stop) abort();
    if (waits && option.status) _exit(option.status);
}

static void *watch(void *unused) {
    uint64_t last = 0;
    for (uint32_t quiet = 0;; sleep(1)) {
        lock_tool();
        quiet = total.events == last ? quiet + 1 : 0;
        last = total.events;
        if (quiet == option.hang) say_all();
        unlock_tool();
    }
    return unused;
}

void start_watch(void) {
    pthread_t thread;
    if (pthread_create(&thread, NULL, watch, NULL)) say("the watch for a program that hangs was not started");
    else pthread_detach(thread);
}
