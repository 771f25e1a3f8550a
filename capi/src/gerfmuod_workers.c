/* gerfmuod_workers.c: workers with a list of tasks and a lock each, which take tasks from each other. C over pthreads, not proved.
 *
 * How many tasks a worker has, and when none is left anywhere, is decided by gerfmuod/process.h. A worker's lock protects its list, its
 * process and its counts. No thread holds two of these locks, and no atomic operation is used.
 *
 * A graph runs as tasks of the workers, too: each is a chain of tasks of the graph, in which one makes the next one ready. So the counts
 * need no call for the next one. What a task of the graph waits for is counted by gerfmuod_graph_arrive, under one of many locks.
 *
 * No wake-up is lost: a worker sleeps only after it has left its number with each other worker, at a time when that one had no task
 * to spare. One that has tasks to spare then gives some to those who left their numbers. */
#ifndef _GNU_SOURCE
#define _GNU_SOURCE /* sched_getaffinity */
#endif
#include <gerfmuod/graph.h>
#include <gerfmuod/workers.h>
#include "gerfmuod_crew.h"

#include <string.h>

/* The most tasks that go to another worker at once, and the room of a list at first. */
enum { MOST_MOVED = 32, FIRST_ROOM = 256 };
/* How often a worker looks at all others before it leaves its number with them, and the pauses of the processor in between. */
enum { SEEKS = 8, SEEK_PAUSES = 16 };
/* How many locks protect what the tasks of a graph wait for. */
enum { STRIPES = 256 };

struct item {
    gerfmuod_worker_body body;
    void *argument;
};

/* Tasks on their way from one worker to another. */
struct parcel {
    uint32_t count;
    struct item items[MOST_MOVED];
};

struct gerfmuod_worker {
    pthread_mutex_t lock; /* of all that follows */
    gerfmuod_process process;
    gerfmuod_tasks tasks;
    struct item *items; /* a ring: `count` tasks from `first` on, the oldest first. `room` is a power of two */
    size_t first, count, room;
    uint32_t *seekers; /* the workers that wait for tasks of this one, each at most once; there is room for all */
    uint32_t seekers_count, number;
    bool is_seeking; /* it has nothing to do, and may be given tasks */
    bool has_news;   /* since it has looked */
    bool is_stopped;
    uint64_t ran, moved;
    pthread_cond_t news; /* signalled if there is some */
    gerfmuod_workers *all;
    char behind[128]; /* the next worker is in cache lines of its own */
};

struct stripe {
    pthread_mutex_t lock;
    char behind[64]; /* the next lock is in a cache line of its own */
};

/* The graph of a run. Only what its tasks wait for changes in it, and `later`. */
struct graph {
    struct stripe stripes[STRIPES];
    gerfmuod_graph_body body;
    void *context;
    uint32_t *missing, *newest, *older, *readers; /* as gerfmuod_graph_link writes them */
    uint32_t *later; /* of a task that is ready and in no list yet: another one, of the same worker */
    uint32_t *words; /* the memory of all these */
    size_t room;     /* how many words that are */
};

struct gerfmuod_workers {
    struct gerfmuod_worker *workers;
    uint32_t threads, next; /* which gets the next task that is made before a run */
    bool is_crowded;        /* there are more threads than processors */
    struct graph *graph;    /* NULL until a graph runs; it stays for the next one */
    struct crew crew;       /* all threads but the caller's */
    pthread_mutex_t lock;   /* of what follows */
    uint32_t entered;       /* how many threads are in the run, beside the caller's */
    bool has_failed;
    void *failed;
    uint32_t failed_task; /* of a graph, or GERFMUOD_GRAPH_NONE */
};

/* ---- a worker; its lock is held, if nothing else is said */

static void acquire(struct gerfmuod_worker *worker) {
    if (pthread_mutex_trylock(&worker->lock)) acquire_after_pauses(&worker->lock, worker->all->is_crowded);
}
static void release(struct gerfmuod_worker *worker) { pthread_mutex_unlock(&worker->lock); }

/* A call that is only refused if this file has a mistake. */
static void must(uint32_t refused) {
    if (refused) abort();
}

/* Makes room for that number of tasks more. Returns whether there was memory. */
static bool reserve(struct gerfmuod_worker *worker, size_t more) {
    size_t room = worker->room ? worker->room : FIRST_ROOM;
    while (room - worker->count < more) room *= 2;
    if (room == worker->room) return true;
    struct item *items = realloc(worker->items, room * sizeof *items);
    if (!items) return false;
    /* what is before `first` goes behind the rest */
    memcpy(items + worker->room, items, worker->first * sizeof *items);
    worker->items = items, worker->room = room;
    return true;
}

static void put(struct gerfmuod_worker *worker, struct item item) {
    worker->items[(worker->first + worker->count++) & (worker->room - 1)] = item;
}

/* Takes up to half of the tasks, the oldest ones, for another worker. */
static void take_for_other(struct gerfmuod_worker *worker, struct parcel *parcel) {
    size_t half = (worker->count + 1) / 2;
    parcel->count = half < MOST_MOVED ? (uint32_t)half : MOST_MOVED;
    for (uint32_t k = 0; k < parcel->count; k++) {
        must(gerfmuod_tasks_give(&worker->tasks));
        must(gerfmuod_tasks_send(&worker->tasks, &worker->process));
        parcel->items[k] = worker->items[worker->first];
        worker->first = (worker->first + 1) & (worker->room - 1);
    }
    worker->count -= parcel->count, worker->moved += parcel->count;
}

/* Puts the tasks of a parcel into the list. Returns how many there was memory for, the last ones. */
static void receive(struct gerfmuod_worker *worker, struct parcel *parcel) {
    while (parcel->count && reserve(worker, 1)) {
        must(gerfmuod_tasks_receive(&worker->tasks, &worker->process, worker->process.epoch));
        put(worker, parcel->items[--parcel->count]);
    }
    if (worker->is_stopped) gerfmuod_tasks_drop_waiting(&worker->tasks), worker->count = 0;
    worker->has_news = true, worker->is_seeking = false;
    pthread_cond_signal(&worker->news);
}

/* Gives tasks to workers that wait for some, as long as there are both. The lock is released in between. */
static NOINLINE void share(struct gerfmuod_worker *worker) {
    struct parcel parcel; /* not all of it is set: that takes as long as a short task */
    parcel.count = 0;
    while (worker->seekers_count && (worker->count || parcel.count)) {
        struct gerfmuod_worker *seeker = &worker->all->workers[worker->seekers[--worker->seekers_count]];
        if (!parcel.count) take_for_other(worker, &parcel);
        release(worker);
        acquire(seeker);
        if (seeker->is_seeking) receive(seeker, &parcel);
        release(seeker);
        acquire(worker);
    }
    if (parcel.count) receive(worker, &parcel); /* no other wanted them: they were here, so that there is room */
}

uint32_t gerfmuod_worker_spawn(gerfmuod_worker *worker, gerfmuod_worker_body body, void *argument) {
    acquire(worker);
    uint32_t refused = worker->is_stopped ? GERFMUOD_REFUSED_STOPPED : reserve(worker, 1) ? GERFMUOD_OK : GERFMUOD_REFUSED_NO_MEMORY;
    if (!refused) {
        must(gerfmuod_tasks_add(&worker->tasks));
        put(worker, (struct item){body, argument});
        if (worker->seekers_count && worker->count) share(worker);
    }
    release(worker);
    return refused;
}

/* Ends the run because of a task, or because of that of a graph. No lock is held. */
static void stop(gerfmuod_workers *all, void *argument, uint32_t task) {
    pthread_mutex_lock(&all->lock);
    if (!all->has_failed) all->has_failed = true, all->failed = argument, all->failed_task = task;
    pthread_mutex_unlock(&all->lock);
    for (uint32_t k = 0; k < all->threads; k++) {
        struct gerfmuod_worker *worker = &all->workers[k];
        acquire(worker);
        worker->is_stopped = true, worker->count = 0;
        gerfmuod_tasks_drop_waiting(&worker->tasks);
        release(worker);
    }
}

/* Runs the newest task. The lock is held, but not while the body runs. */
static void run_newest(struct gerfmuod_worker *worker) {
    struct item item = worker->items[(worker->first + --worker->count) & (worker->room - 1)];
    must(gerfmuod_tasks_begin(&worker->tasks));
    worker->ran++;
    if (worker->seekers_count && worker->count) share(worker);
    release(worker);
    if (item.body(worker, item.argument)) stop(worker->all, item.argument, GERFMUOD_GRAPH_NONE);
    acquire(worker);
    must(gerfmuod_tasks_done(&worker->tasks));
}

/* ---- a chain of tasks of a graph. No lock is held, if nothing else is said */

/* Takes a done task from what its readers wait for. Puts those that are ready before `ready`, the head of a list by `later`, and returns
 * the new head: the ready one that was described first. */
static uint32_t pass_on(const gerfmuod_workers *all, uint32_t done, uint32_t ready) {
    struct graph *graph = all->graph;
    for (uint32_t input = graph->newest[done]; input != GERFMUOD_GRAPH_NO_INPUT; input = graph->older[input]) {
        uint32_t reader = graph->readers[input];
        /* neighbours often become ready at the same time: they have different locks */
        pthread_mutex_t *lock = &graph->stripes[reader % STRIPES].lock;
        if (pthread_mutex_trylock(lock)) acquire_after_pauses(lock, all->is_crowded);
        bool is_ready = gerfmuod_graph_arrive(&graph->missing[reader]);
        pthread_mutex_unlock(lock);
        if (is_ready) graph->later[reader] = ready, ready = reader;
    }
    return ready;
}

static int run_chain(gerfmuod_worker *worker, void *first);

static void put_chain(struct gerfmuod_worker *worker, uint32_t first) {
    must(gerfmuod_tasks_add(&worker->tasks));
    put(worker, (struct item){run_chain, (void *)(uintptr_t)first});
}

/* Returns the first of the ready tasks, to go on with, or GERFMUOD_GRAPH_NONE if there is none or the run is stopped. The others go into
 * the list, where other workers find them, as far as there is memory; `ready` is what is left. */
static uint32_t next_of_chain(struct gerfmuod_worker *worker, uint32_t *ready) {
    const uint32_t *later = worker->all->graph->later;
    uint32_t next = *ready;
    if (next == GERFMUOD_GRAPH_NONE) return next;
    *ready = later[next];
    acquire(worker);
    if (worker->is_stopped) next = GERFMUOD_GRAPH_NONE;
    else worker->ran++;
    for (; *ready != GERFMUOD_GRAPH_NONE && !worker->is_stopped && reserve(worker, 1); *ready = later[*ready]) put_chain(worker, *ready);
    if (worker->seekers_count && worker->count) share(worker);
    release(worker);
    return next;
}

/* The body of a task of the workers that is a chain, from its first task on. One that fails has stopped the run itself. */
static int run_chain(gerfmuod_worker *worker, void *first) {
    const struct graph *graph = worker->all->graph;
    uint32_t ready = GERFMUOD_GRAPH_NONE;
    for (uint32_t task = (uint32_t)(uintptr_t)first; task != GERFMUOD_GRAPH_NONE; task = next_of_chain(worker, &ready)) {
        if (graph->body(graph->context, task)) return stop(worker->all, NULL, task), 0;
        ready = pass_on(worker->all, task, ready);
    }
    return 0;
}

/* ---- a worker without tasks */

/* Takes tasks from another worker, or leaves the own number with it. Returns whether there were some. No lock is held. */
static bool seek_at(struct gerfmuod_worker *worker, struct gerfmuod_worker *other, bool leaves_number) {
    struct parcel parcel;
    parcel.count = 0;
    if (leaves_number) acquire(other);
    else if (pthread_mutex_trylock(&other->lock)) return false;
    if (other->count) take_for_other(other, &parcel);
    else if (leaves_number) {
        uint32_t k = 0;
        while (k < other->seekers_count && other->seekers[k] != worker->number) k++;
        if (k == other->seekers_count) other->seekers[other->seekers_count++] = worker->number;
    }
    release(other);
    if (!parcel.count) return false;
    acquire(worker);
    receive(worker, &parcel); /* into an empty list: there is room */
    release(worker);
    return true;
}

static bool seek(struct gerfmuod_worker *worker, bool leaves_number) {
    const gerfmuod_workers *all = worker->all;
    for (uint32_t k = 1; k < all->threads; k++)
        if (seek_at(worker, &all->workers[(worker->number + k) % all->threads], leaves_number)) return true;
    return false;
}

/* Waits for tasks or a control message. The lock is held before and after. */
static void rest(struct gerfmuod_worker *worker) {
    bool has_some = false;
    for (uint32_t k = 0; k < SEEKS && !has_some && !worker->has_news && !worker->all->is_crowded; k++) {
        release(worker);
        has_some = seek(worker, false);
        if (!has_some) pause_for(SEEK_PAUSES << k);
        acquire(worker);
    }
    if (has_some || worker->has_news) return;
    worker->is_seeking = true;
    release(worker);
    seek(worker, true);
    acquire(worker);
    while (!worker->has_news) pthread_cond_wait(&worker->news, &worker->lock);
    worker->is_seeking = false;
}

/* Passes a control message to its worker. No lock is held. */
static void deliver(gerfmuod_workers *all, const gerfmuod_control_message *message) {
    struct gerfmuod_worker *to = &all->workers[message->to];
    acquire(to);
    must(gerfmuod_process_take(&to->process, message));
    to->has_news = true;
    pthread_cond_signal(&to->news);
    release(to);
}

/* Runs tasks until none is left at any worker. */
static void work(struct gerfmuod_worker *worker) {
    gerfmuod_control_message message;
    uint32_t next = GERFMUOD_PROCESS_NOTHING;
    acquire(worker);
    must(gerfmuod_tasks_close(&worker->tasks));
    while (next != GERFMUOD_PROCESS_ENDED) {
        worker->has_news = false;
        while (worker->count) run_newest(worker);
        must(gerfmuod_tasks_settle(&worker->tasks, &worker->process) > 1);
        next = gerfmuod_process_next(&worker->process, &message);
        if (next == GERFMUOD_PROCESS_SEND) {
            release(worker);
            deliver(worker->all, &message);
            acquire(worker);
        } else if (next == GERFMUOD_PROCESS_NOTHING) {
            rest(worker);
        } else {
            must(next > GERFMUOD_PROCESS_ENDED ? next : GERFMUOD_OK);
        }
    }
    release(worker);
}

static void enter(void *argument) {
    gerfmuod_workers *all = argument;
    pthread_mutex_lock(&all->lock);
    uint32_t number = ++all->entered;
    pthread_mutex_unlock(&all->lock);
    work(&all->workers[number]);
}

/* ---- a graph before its run */

static void close_graph(struct graph *graph) {
    for (uint32_t k = 0; graph && k < STRIPES; k++) pthread_mutex_destroy(&graph->stripes[k].lock);
    if (graph) free(graph->words);
    free(graph);
}

static struct graph *open_graph(void) {
    struct graph *graph = calloc(1, sizeof *graph);
    uint32_t count = 0;
    while (graph && count < STRIPES && !pthread_mutex_init(&graph->stripes[count].lock, NULL)) count++;
    if (count == STRIPES) return graph;
    while (count > 0) pthread_mutex_destroy(&graph->stripes[--count].lock);
    free(graph);
    return NULL;
}

/* Makes room for that number of tasks and inputs. Returns whether there was memory. */
static bool reserve_graph(struct graph *graph, size_t tasks, size_t inputs) {
    size_t words = 3 * tasks + 2 * inputs + 1; /* not none, which may be NULL */
    if (graph->room < words) {
        free(graph->words);
        graph->words = malloc(words * sizeof *graph->words);
        graph->room = graph->words ? words : 0;
        if (!graph->words) return false;
    }
    graph->missing = graph->words, graph->newest = graph->missing + tasks, graph->later = graph->newest + tasks;
    graph->older = graph->later + tasks, graph->readers = graph->older + inputs;
    return true;
}

/* Makes the tasks without inputs, in blocks: one for each worker, which runs those of low numbers first. Returns whether there was memory;
 * if not, it makes none. */
static bool make_roots(gerfmuod_workers *all, uint32_t tasks) {
    const uint32_t *missing = all->graph->missing;
    uint32_t roots = 0;
    for (uint32_t task = 0; task < tasks; task++) roots += !missing[task];
    uint32_t block = roots / all->threads + (roots % all->threads > 0);
    for (uint32_t k = 0; k < all->threads; k++) {
        acquire(&all->workers[k]);
        bool has_room = reserve(&all->workers[k], block);
        release(&all->workers[k]);
        if (!has_room) return false;
    }
    for (uint32_t k = all->threads, task = tasks; k > 0; k--) {
        acquire(&all->workers[k - 1]);
        for (; roots > (k - 1) * block; roots--) {
            while (missing[--task]) {}
            put_chain(&all->workers[k - 1], task);
        }
        release(&all->workers[k - 1]);
    }
    return true;
}

/* ---- all workers */

static void close_worker(struct gerfmuod_worker *worker) {
    pthread_cond_destroy(&worker->news), pthread_mutex_destroy(&worker->lock);
    free(worker->items), free(worker->seekers);
}

static bool open_worker(struct gerfmuod_worker *worker, gerfmuod_workers *all, uint32_t number) {
    if (pthread_mutex_init(&worker->lock, NULL)) return false;
    if (pthread_cond_init(&worker->news, NULL)) return pthread_mutex_destroy(&worker->lock), false;
    worker->all = all, worker->number = number;
    worker->seekers = malloc(all->threads * sizeof *worker->seekers);
    must(gerfmuod_process_init(&worker->process, number, all->threads));
    gerfmuod_tasks_open(&worker->tasks);
    if (worker->seekers && reserve(worker, 1)) return true;
    close_worker(worker);
    return false;
}

uint32_t gerfmuod_workers_open(gerfmuod_workers **opened, uint32_t threads) {
    *opened = NULL;
    if (!threads) return GERFMUOD_REFUSED_NO_THREAD;
    gerfmuod_workers *all = calloc(1, sizeof *all);
    if (!all) return GERFMUOD_REFUSED_NO_MEMORY;
    uint32_t refused = GERFMUOD_REFUSED_NO_MEMORY;
    all->workers = calloc(threads, sizeof *all->workers);
    all->is_crowded = threads > processors(), all->threads = threads, all->failed_task = GERFMUOD_GRAPH_NONE;
    uint32_t count = 0;
    while (all->workers && count < threads && open_worker(&all->workers[count], all, count)) count++;
    bool has_lock = count == threads && !pthread_mutex_init(&all->lock, NULL), has_crew = has_lock && crew_open(&all->crew);
    if (has_crew) refused = crew_grow(&all->crew, threads - 1);
    if (!refused) return *opened = all, GERFMUOD_OK;
    if (has_crew) crew_close(&all->crew);
    if (has_lock) pthread_mutex_destroy(&all->lock);
    while (count > 0) close_worker(&all->workers[--count]);
    free(all->workers), free(all);
    return refused;
}

void gerfmuod_workers_close(gerfmuod_workers *all) {
    if (!all) return;
    crew_close(&all->crew);
    for (uint32_t k = 0; k < all->threads; k++) close_worker(&all->workers[k]);
    close_graph(all->graph);
    pthread_mutex_destroy(&all->lock);
    free(all->workers), free(all);
}

uint32_t gerfmuod_workers_spawn(gerfmuod_workers *all, gerfmuod_worker_body body, void *argument) {
    uint32_t number = all->next, refused = gerfmuod_worker_spawn(&all->workers[number], body, argument);
    if (!refused) all->next = (number + 1) % all->threads;
    return refused;
}

/* Begins the next epoch, in which tasks may be made before a run. */
static void reopen(struct gerfmuod_worker *worker) {
    must(gerfmuod_tasks_reopen(&worker->tasks, &worker->process));
    worker->seekers_count = 0;
    worker->is_stopped = worker->is_seeking = false;
}

uint32_t gerfmuod_workers_run(gerfmuod_workers *all) {
    all->entered = 0, all->has_failed = false, all->failed = NULL, all->failed_task = GERFMUOD_GRAPH_NONE;
    crew_call(&all->crew, all->threads - 1, !all->is_crowded, enter, all);
    work(&all->workers[0]); /* the first tasks of a graph, whose memory this thread has just written */
    crew_wait(&all->crew, -1);
    for (uint32_t k = 0; k < all->threads; k++) reopen(&all->workers[k]);
    return all->has_failed ? GERFMUOD_REFUSED_STOPPED : GERFMUOD_OK;
}

uint32_t gerfmuod_workers_run_graph(gerfmuod_workers *all, uint32_t tasks, const uint32_t *offsets, const uint32_t *inputs,
                                    gerfmuod_graph_body body, void *context, uint32_t *at) {
    size_t count = inputs ? offsets[tasks] : 0;
    gerfmuod_graph_result linked = {GERFMUOD_REFUSED_NO_MEMORY, 0, 0, 0};
    struct graph *graph = all->graph;
    if (!graph) graph = all->graph = open_graph();
    if (graph && reserve_graph(graph, tasks, count))
        linked = gerfmuod_graph_link(offsets, (size_t)tasks + 1, inputs, count, graph->missing, tasks, graph->newest, tasks, graph->older,
                                     count, graph->readers, count);
    if (!linked.refused && !make_roots(all, tasks)) linked.refused = GERFMUOD_REFUSED_NO_MEMORY;
    if (at) *at = linked.number;
    if (linked.refused) return linked.refused;
    graph->body = body, graph->context = context;
    return gerfmuod_workers_run(all);
}

void *gerfmuod_workers_failed(const gerfmuod_workers *all) { return all->failed; }
uint32_t gerfmuod_workers_failed_task(const gerfmuod_workers *all) { return all->failed_task; }
uint32_t gerfmuod_worker_number(const gerfmuod_worker *worker) { return worker->number; }

uint64_t gerfmuod_workers_ran(const gerfmuod_workers *all) {
    uint64_t sum = 0;
    for (uint32_t k = 0; k < all->threads; k++) sum += all->workers[k].ran;
    return sum;
}

uint64_t gerfmuod_workers_moved(const gerfmuod_workers *all) {
    uint64_t sum = 0;
    for (uint32_t k = 0; k < all->threads; k++) sum += all->workers[k].moved;
    return sum;
}
