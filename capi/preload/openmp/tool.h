/* tool.h: what the files of the tool for OpenMP programs share: tasks, regions, threads, and the calls of each file.
 *
 * Every call below runs while `enter` holds the one mutex of the tool; there is no other shared state, and no atomic operation. */
#ifndef GERFMUOD_OMPT_TOOL_H
#define GERFMUOD_OMPT_TOOL_H
#ifndef _GNU_SOURCE
#define _GNU_SOURCE /* dladdr */
#endif
#include <gerfmuod/core.h>
#include <omp-tools.h>
#include <stdbool.h>
#include <stdint.h>

/* What a task is doing. A task is WAITING until its dependences are done. A LOST task was left when a barrier or region ended:
 * that was reported, and its later events are ignored. */
typedef enum life { CREATED, WAITING, READY, RUNNING, DETACHED, DONE, LOST } life;

/* A task that has begun a parallel region: next to the kinds of ompt_sync_region_t. */
enum { IN_PARALLEL = 100 };

struct task;
struct region;

/* Tasks. `gone` are done and no longer in the list; `path` is the longest path to the end of one of those. */
typedef struct set {
    struct task **tasks;
    uint32_t count, room, gone;
    uint64_t path;
} set;

/* A place in memory that children of one task name in depend clauses: the tasks that named it last, all with clauses of one kind,
 * and those before them. `holder` is the task of a mutexinoutset clause that runs. */
typedef struct address {
    const void *place;
    ompt_dependence_type_t kind;
    set now, before;
    struct task *holder;
    struct address *next;
} address;

/* One of the addresses that a task excludes others at. */
typedef struct hold {
    address *at;
    struct hold *next;
} hold;

typedef struct group { /* a taskgroup */
    uint32_t left;     /* its tasks that are not done */
    uint64_t path;
    struct group *outer;
} group;

typedef struct site { /* a place in the program that makes tasks */
    const void *code;
    uint64_t tasks, ended, ns, least, most, early; /* early: were done before their children */
} site;

typedef struct task {
    struct region *region;
    struct task *parent, *next, *previous; /* next, previous: in the list of tasks that are not done, or that are free */
    set after;                             /* tasks that wait for this one */
    address **addresses;                   /* a hash table: what its children's clauses name */
    uint32_t buckets, named;
    hold *holds;
    group *member_of, *group; /* the taskgroup that it is of, and that of its children */
    site *site;
    uint32_t id, slot, number, epoch; /* its number; that of its memory; that in the core, and which core that is */
    uint32_t missing, inputs, given;
    uint32_t children, listed; /* children that are not done; sets of addresses that it is in */
    uint32_t thread, phase;    /* of an implicit task: its number in the team, and the barriers that it left */
    int flags;
    life life;
    int wait; /* the kind of construct that it waits in, or IN_PARALLEL; 0: it does not wait */
    bool is_inserted, is_implicit, is_free;
    bool is_away; /* its thread runs another task, and no event said that this one ended: see end_unsent */
    uint64_t waiter; /* the handle of its taskwait with dependences, which the runtime reports as a task */
    uint64_t path, children_path, ns; /* the longest path of work to here, and to the end of a child; the time of its body */
} task;

/* A parallel region, or the program around all of them. Its core is open from the first task after a barrier to the next one. */
typedef struct region {
    gerfmuod_core core;
    bool is_open, is_broken, is_unjudged, is_cancelled, is_outer, is_ended;
    uint32_t size, came, phase, users, live_count;
    uint32_t epoch, numbers; /* which core it is, and how many tasks were numbered in it */
    task **team; /* its implicit tasks that have begun */
    bool *arrived;
    task live;
    uint64_t creator; /* a handle */
    const void *code;
    uint64_t path, ended; /* the time of its end */
    struct region *next, *previous;
} region;

typedef struct worker { /* a thread */
    task *now;
    uint32_t id; /* of that task, whose memory may have been used again */
    uint64_t since;
    uint32_t number;
} worker;

typedef struct totals {
    uint64_t events, tasks, dependences, ends, faults, span, in_tasks, outside, serial, waiting;
    uint64_t unsent, unended, ordered, devices, orphans, unjudged, cancelled; /* what is not judged: see report.c */
    uint32_t threads;
} totals;

typedef struct options {
    uint32_t hang;
    int status;
    bool has_report, has_stop;
    char trace[512], times[512];
} options;

extern totals total;
extern options option;
extern region regions; /* the head of the list of those that have not ended */

/* tool.c: the lock. `enter` counts the time since the thread's last event; the time from then to `leave` is not counted. */
uint64_t clock_now(void);
worker *enter(void);
void leave(worker *w);
void lock_tool(void);
void unlock_tool(void);

/* events.c */
void set_callbacks(ompt_set_callback_t set_callback);

/* tasks.c */
task *task_of(const ompt_data_t *data);
task *task_by(uint64_t handle);
uint64_t handle_of(const task *t);
uint32_t id_in(uint64_t handle);
task *new_task(region *r, task *parent);
task *create_task(task *parent, int flags, const void *code);
void insert_task(task *t);
void begin_task(task *t);
void finish_task(task *t, bool is_cancelled);
void end_unsent(region *r, const task *successor, const task *parent, const group *g);
void lose_tasks(region *r);
void release_task(task *t);
void end_implicit(task *t);

/* dependences.c */
void take_dependences(task *t, const ompt_dependence_t *clauses, int count);
void forget_addresses(task *parent);
task *exclude_others(task *t);
void end_exclusion(task *t);
bool waits_for(const task *t, const task *other);

/* regions.c */
region *new_region(const void *code, task *creator);
task *begin_implicit(region *r, uint32_t thread, uint32_t size);
void arrive(region *r, task *t);
void leave_barrier(region *r, task *t);
void end_region(region *r);
void drop_user(region *r);

/* judge.c */
void judge(task *t, uint32_t kind, const task *maker, const char *what);
bool is_of_this_core(const task *t);
void judge_end(region *r, const char *what);
void open_core(region *r);

/* messages.c */
void say(const char *form, ...) __attribute__((format(printf, 1, 2)));
const char *place_of(const void *code, char room[512]);
void fault(region *r, task *t, const char *what, uint32_t refused);
void list_left(const region *r, const task *parent, const group *g);
void start_watch(void);

/* report.c */
site *site_of(const void *code);
void print_report(uint64_t elapsed);

/* times.c */
void note_bar(const worker *w, uint64_t until);
void write_times(uint64_t start, uint64_t elapsed);

#endif
