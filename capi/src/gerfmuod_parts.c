/* gerfmuod_parts.c: the parts of a graph of gerfmuod/part.h in one process, with a lock, a mailbox and threads each. C over pthreads, not
 * proved.
 *
 * What a thread does next is decided by the part. Its lock protects the part; its mailbox has a lock of its own, which is the last one
 * that a thread takes. Nobody waits for the lock of another part. No atomic operation is used.
 *
 * Part 0 has each description at once, and may refuse it. The others get the same ones before the run, each on its first thread. */
#ifndef _GNU_SOURCE
#define _GNU_SOURCE /* processors of a thread */
#endif
#include <gerfmuod/parts.h>
#include "gerfmuod_lock.h"

#include <stdio.h>
#include <stdlib.h>
#include <string.h>

/* A description of a task: its inputs, or its accesses, begin at a place of the graph's lists. */
struct description {
    uint32_t part, class_;
    bool has_accesses;
    size_t from, count;
};

/* A block that grows by doubling. */
struct list {
    void *items;
    size_t count, room;
};

struct part {
    struct gerfmuod_parts *all;
    pthread_mutex_t lock; /* of the four below */
    gerfmuod_part graph;
    size_t taken;            /* messages of the mailbox that the part has */
    uint32_t resting, number; /* threads that sleep, or are about to wake up */
    char between[128];       /* the mailbox is in cache lines of its own */
    pthread_mutex_t mail_lock; /* of what follows */
    pthread_cond_t news;       /* threads that rest wait for it */
    uint32_t *mail;            /* each message once: the number of a task. There is room for all */
    size_t came;
    bool is_stopped;
    char behind[128];
};

/* What the threads that were created wait for before the first body. */
enum start { NOT_YET, GO, GIVE_UP };

struct gerfmuod_parts {
    struct part *parts;
    uint32_t count, handles;
    struct list described, inputs, accesses;
    bool has_run, is_bound, is_crowded;
    struct processor *processors; /* in the order in which threads are bound to them; NULL if none is */
    uint32_t processors_count;
    uint32_t threads; /* of each part */
    gerfmuod_team_body body;
    void *context;
    pthread_mutex_t lock; /* of the start, and of a failure: no body waits for it */
    pthread_cond_t change;
    enum start start;
    uint32_t prepared, refused, failed;
};

/* A thread of a part. */
struct worker {
    struct part *part;
    pthread_t thread;
    uint32_t place; /* among all threads */
};

/* ---- the description */

/* Makes room for more items. Returns whether there was memory. */
static bool reserve(struct list *list, size_t more, size_t size) {
    size_t room = list->room;
    while (room < list->count + more) room = room ? 2 * room : 64;
    void *items = room == list->room ? list->items : realloc(list->items, room * size);
    if (room && !items) return false;
    list->items = items, list->room = room;
    return true;
}

static bool open_part(struct part *part) {
    if (pthread_mutex_init(&part->lock, NULL)) return false;
    bool has_mail = !pthread_mutex_init(&part->mail_lock, NULL);
    if (has_mail && !pthread_cond_init(&part->news, NULL)) return true;
    if (has_mail) pthread_mutex_destroy(&part->mail_lock);
    pthread_mutex_destroy(&part->lock);
    return false;
}

static void close_part(struct part *part) {
    (void)!gerfmuod_part_call(&part->graph, GERFMUOD_PART_CLOSE, 0).refused;
    pthread_cond_destroy(&part->news), pthread_mutex_destroy(&part->mail_lock), pthread_mutex_destroy(&part->lock);
    free(part->mail);
}

uint32_t gerfmuod_parts_open(gerfmuod_parts **opened, uint32_t count) {
    *opened = NULL;
    if (count < 1 || count > GERFMUOD_MAX_PARTS) return GERFMUOD_REFUSED_BAD_SPEC;
    gerfmuod_parts *parts = calloc(1, sizeof *parts);
    bool has_lock = parts && !pthread_mutex_init(&parts->lock, NULL);
    bool has_change = has_lock && !pthread_cond_init(&parts->change, NULL);
    if (has_change) parts->parts = calloc(count, sizeof *parts->parts);
    while (has_change && parts->parts && parts->count < count && open_part(&parts->parts[parts->count])) {
        struct part *part = &parts->parts[parts->count];
        part->all = parts, part->number = parts->count++;
        gerfmuod_part_open(&part->graph, part->number, count);
    }
    if (has_change && parts->count == count) {
        parts->failed = GERFMUOD_GRAPH_NONE;
        *opened = parts;
        return GERFMUOD_OK;
    }
    for (uint32_t p = 0; parts && p < parts->count; p++) close_part(&parts->parts[p]);
    if (has_change) pthread_cond_destroy(&parts->change);
    if (has_lock) pthread_mutex_destroy(&parts->lock);
    if (parts) free(parts->parts);
    free(parts);
    return GERFMUOD_REFUSED_NO_MEMORY;
}

void gerfmuod_parts_close(gerfmuod_parts *parts) {
    if (!parts) return;
    for (uint32_t p = 0; p < parts->count; p++) close_part(&parts->parts[p]);
    pthread_cond_destroy(&parts->change), pthread_mutex_destroy(&parts->lock);
    free(parts->parts), free(parts->described.items), free(parts->inputs.items), free(parts->accesses.items), free(parts->processors);
    free(parts);
}

uint32_t gerfmuod_parts_handle(gerfmuod_parts *parts, uint32_t *handle) {
    gerfmuod_part_result result = gerfmuod_part_call(&parts->parts[0].graph, GERFMUOD_PART_HANDLE, 0);
    if (!result.refused) *handle = result.number, parts->handles++;
    return result.refused;
}

/* Describes a task, with its inputs or accesses, to a part. */
static gerfmuod_part_result describe(struct part *part, const struct description *d, const void *items) {
    if (d->has_accesses) return gerfmuod_part_shared_task(&part->graph, d->class_, items, d->count, d->part);
    return gerfmuod_part_task(&part->graph, d->class_, items, d->count, d->part);
}

/* Adds a task to the lists and to part 0: all or nothing. */
static uint32_t add(gerfmuod_parts *parts, struct description d, const void *items, uint32_t *number) {
    struct list *list = d.has_accesses ? &parts->accesses : &parts->inputs;
    size_t size = d.has_accesses ? sizeof(gerfmuod_access) : sizeof(uint32_t);
    size_t most = d.has_accesses ? SIZE_MAX / size / 4 : GERFMUOD_GRAPH_MAX_OUTSIDE; /* more are refused below */
    bool has_room = reserve(list, d.count < most ? d.count : most, size) && reserve(&parts->described, 1, sizeof d);
    if (!has_room) return GERFMUOD_REFUSED_NO_MEMORY;
    gerfmuod_part_result result = describe(&parts->parts[0], &d, items);
    if (result.refused) return result.refused;
    d.from = list->count;
    if (d.count) memcpy((char *)list->items + d.from * size, items, d.count * size);
    ((struct description *)parts->described.items)[parts->described.count++] = d;
    list->count += d.count;
    if (number) *number = result.number;
    return GERFMUOD_OK;
}

uint32_t gerfmuod_parts_task(gerfmuod_parts *parts, uint32_t part, uint32_t class_, const uint32_t *inputs, size_t count,
                             uint32_t *number) {
    return add(parts, (struct description){.part = part, .class_ = class_, .count = count}, inputs, number);
}

uint32_t gerfmuod_parts_task_on(gerfmuod_parts *parts, uint32_t part, uint32_t class_, const gerfmuod_access *accesses, size_t count,
                                uint32_t *number) {
    return add(parts, (struct description){.part = part, .class_ = class_, .has_accesses = true, .count = count}, accesses, number);
}

void gerfmuod_parts_bind(gerfmuod_parts *parts) { parts->is_bound = true; }

/* ---- a run */
static void acquire(struct part *part) {
    if (pthread_mutex_trylock(&part->lock)) acquire_after_pauses(&part->lock, part->all->is_crowded);
}

/* Wakes one of the threads that rest, or all. */
static void wake(struct part *part, bool all) {
    pthread_mutex_lock(&part->mail_lock);
    if (all) pthread_cond_broadcast(&part->news);
    else pthread_cond_signal(&part->news);
    pthread_mutex_unlock(&part->mail_lock);
}

/* Ends the run because of a task. */
static void stop(gerfmuod_parts *parts, uint32_t task) {
    pthread_mutex_lock(&parts->lock);
    if (parts->failed == GERFMUOD_GRAPH_NONE) parts->failed = task;
    pthread_mutex_unlock(&parts->lock);
    for (uint32_t p = 0; p < parts->count; p++) {
        struct part *part = &parts->parts[p];
        pthread_mutex_lock(&part->mail_lock);
        part->is_stopped = true;
        pthread_cond_broadcast(&part->news);
        pthread_mutex_unlock(&part->mail_lock);
    }
}

/* Puts a message into the mailbox of another part. */
static void send_message(struct part *to, uint32_t task) {
    pthread_mutex_lock(&to->mail_lock);
    to->mail[to->came++] = task;
    pthread_cond_signal(&to->news);
    pthread_mutex_unlock(&to->mail_lock);
}

/* Gives the part its new messages. Returns whether the run goes on. The lock is held. */
static bool take_mail(struct part *part) {
    pthread_mutex_lock(&part->mail_lock);
    size_t came = part->came;
    bool goes_on = !part->is_stopped;
    pthread_mutex_unlock(&part->mail_lock);
    for (; goes_on && part->taken < came; part->taken++) { /* they stay where they are */
        uint32_t task = part->mail[part->taken];
        goes_on = !gerfmuod_part_call(&part->graph, GERFMUOD_PART_ARRIVED, task).refused;
        if (!goes_on) stop(part->all, task); /* none is refused, as each comes once */
    }
    return goes_on;
}

/* Sleeps until there is news, unless a message came. The lock is held before and after. */
static void rest(struct part *part) {
    pthread_mutex_lock(&part->mail_lock);
    bool is_idle = part->came == part->taken && !part->is_stopped;
    if (is_idle) {
        part->resting++;
        pthread_mutex_unlock(&part->lock); /* who makes a task ready now sees this thread, and waits for the lock of the mailbox */
        pthread_cond_wait(&part->news, &part->mail_lock);
    }
    pthread_mutex_unlock(&part->mail_lock);
    if (is_idle) acquire(part), part->resting--;
}

/* Pauses without the lock; returns how many pauses are left. */
static uint32_t spin(struct part *part, uint32_t polls) {
    pthread_mutex_unlock(&part->lock);
    polls = poll_lock(&part->lock, polls);
    if (!polls) acquire(part);
    return polls;
}

/* Runs a task, and reports it unless its body failed. The lock is held, but not while the body runs. */
static void run_task(struct part *part, uint32_t task) {
    if (part->resting) wake(part, false); /* another may be ready */
    pthread_mutex_unlock(&part->lock);
    bool is_well = part->all->body(part->all->context, task) == 0;
    acquire(part);
    if (!is_well || gerfmuod_part_call(&part->graph, GERFMUOD_PART_DONE, task).refused) stop(part->all, task);
}

/* Does what the part says until it is over, or the run was stopped. */
static void work(struct part *part) {
    uint32_t most = part->all->is_crowded ? 0 : SPINS, polls = most;
    acquire(part);
    while (take_mail(part)) {
        gerfmuod_part_result next = gerfmuod_part_call(&part->graph, GERFMUOD_PART_NEXT, 0);
        if (next.next == GERFMUOD_PART_OVER) {
            wake(part, true);
            break;
        }
        if (next.next == GERFMUOD_PART_RUN) run_task(part, next.number), polls = most;
        else if (next.next == GERFMUOD_PART_SEND) send_message(&part->all->parts[next.to], next.number);
        else if (polls) polls = spin(part, polls);
        else rest(part);
    }
    pthread_mutex_unlock(&part->lock);
}

/* ---- the threads */

/* Describes the graph to a part other than the first. Returns the refusal, for want of memory. */
static uint32_t describe_all(struct part *part) {
    const gerfmuod_parts *parts = part->all;
    uint32_t refused = GERFMUOD_OK;
    for (uint32_t k = 0; k < parts->handles && !refused; k++) refused = gerfmuod_part_call(&part->graph, GERFMUOD_PART_HANDLE, 0).refused;
    const struct description *described = parts->described.items;
    const gerfmuod_access *accesses = parts->accesses.items;
    const uint32_t *inputs = parts->inputs.items;
    for (size_t k = 0; k < parts->described.count && !refused; k++) {
        const struct description *d = &described[k];
        const void *items = d->has_accesses ? (const void *)(accesses + d->from) : inputs + d->from;
        refused = describe(part, d, d->count ? items : NULL).refused;
    }
    return refused;
}

/* Prepares a part for a run; returns the refusal. */
static uint32_t prepare(struct part *part) {
    uint32_t refused = part->number ? describe_all(part) : GERFMUOD_OK;
    if (!refused && !(part->mail = malloc((part->all->described.count + 1) * sizeof *part->mail))) refused = GERFMUOD_REFUSED_NO_MEMORY;
    return refused ? refused : gerfmuod_part_call(&part->graph, GERFMUOD_PART_START, 0).refused;
}

/* A processor: how many before it are of its core, its package, its core, and its number. They are ordered by these. */
struct processor {
    int keys[4];
};

#ifdef __linux__
/* The first number that the system has for a processor; 0 if it has none. */
static int topology_of(int processor, const char *name) {
    char path[96];
    int number = 0;
    snprintf(path, sizeof path, "/sys/devices/system/cpu/cpu%d/topology/%s", processor, name);
    FILE *file = fopen(path, "re");
    if (file && fscanf(file, "%d", &number) != 1) number = 0;
    if (file) fclose(file);
    return number;
}

static int by_keys(const void *one, const void *other) {
    const int *a = ((const struct processor *)one)->keys, *b = ((const struct processor *)other)->keys;
    int k = 0;
    while (k < 3 && a[k] == b[k]) k++;
    return a[k] < b[k] ? -1 : a[k] > b[k];
}

/* Orders the processors of a set: one of each core of each package, then the second ones. Without a topology all are of one core, and are
 * in the order of their numbers. Returns whether there was memory. */
static bool order_processors(gerfmuod_parts *parts, const cpu_set_t *all) {
    int count = 0, most = CPU_COUNT(all);
    struct processor *found = calloc((size_t)most, sizeof *found);
    for (int number = 0; found && count < most; number++) {
        if (!CPU_ISSET(number, all)) continue;
        int package = topology_of(number, "physical_package_id"), core = topology_of(number, "thread_siblings_list");
        int *keys = found[count].keys;
        keys[1] = package, keys[2] = core, keys[3] = number;
        for (int k = 0; k < count; k++) keys[0] += found[k].keys[1] == package && found[k].keys[2] == core;
        count++;
    }
    if (found) qsort(found, (size_t)count, sizeof *found, by_keys);
    parts->processors = found, parts->processors_count = (uint32_t)count;
    return found;
}
#endif

/* Binds this thread to a processor. */
static void bind_to(const gerfmuod_parts *parts, uint32_t place) {
#ifdef __linux__
    cpu_set_t one;
    if (!parts->processors) return;
    CPU_ZERO(&one);
    CPU_SET(parts->processors[place % parts->processors_count].keys[3], &one);
    (void)!pthread_setaffinity_np(pthread_self(), sizeof one, &one);
#else
    (void)parts, (void)place;
#endif
}

/* Reports that a part is prepared, and waits for the start. Returns whether the run begins. */
static bool await_start(gerfmuod_parts *parts, bool prepares, uint32_t refused) {
    pthread_mutex_lock(&parts->lock);
    if (prepares) parts->prepared++;
    if (refused) parts->refused = refused;
    if (prepares) pthread_cond_broadcast(&parts->change);
    while (parts->start == NOT_YET) pthread_cond_wait(&parts->change, &parts->lock);
    bool goes = parts->start == GO;
    pthread_mutex_unlock(&parts->lock);
    return goes;
}

static void *be_worker(void *argument) {
    struct worker *worker = argument;
    struct part *part = worker->part;
    bool is_first = worker->place % part->all->threads == 0;
    bind_to(part->all, worker->place);
    if (await_start(part->all, is_first, is_first ? prepare(part) : GERFMUOD_OK)) work(part);
    return NULL;
}

/* Lets the threads that were created begin, once all parts are prepared, or end. Returns the refusal. */
static uint32_t start_all(gerfmuod_parts *parts, uint32_t refused) {
    pthread_mutex_lock(&parts->lock);
    while (!refused && parts->prepared < parts->count) pthread_cond_wait(&parts->change, &parts->lock);
    if (!refused) refused = parts->refused;
    parts->start = refused ? GIVE_UP : GO;
    pthread_cond_broadcast(&parts->change);
    pthread_mutex_unlock(&parts->lock);
    return refused;
}

/* Creates the threads of all parts, all but the caller's; returns how many. */
static uint32_t create(gerfmuod_parts *parts, struct worker *workers, uint32_t all) {
    uint32_t created = 1;
    while (created < all) {
        struct worker *worker = &workers[created];
        *worker = (struct worker){.part = &parts->parts[created / parts->threads], .place = created};
        if (pthread_create(&worker->thread, NULL, be_worker, worker)) break;
        created++;
    }
    return created;
}

/* Runs on the caller's thread and the workers. */
static uint32_t run_on(gerfmuod_parts *parts, struct worker *workers, uint32_t all) {
    parts->is_crowded = all > processors();
    uint32_t created = create(parts, workers, all), refused = created < all ? GERFMUOD_REFUSED_NOT_STARTED : prepare(&parts->parts[0]);
    bind_to(parts, 0); /* after the others were created, which may use the same processors */
    pthread_mutex_lock(&parts->lock);
    parts->prepared++;
    pthread_mutex_unlock(&parts->lock);
    refused = start_all(parts, refused);
    if (!refused) work(&parts->parts[0]);
    for (uint32_t k = 1; k < created; k++) pthread_join(workers[k].thread, NULL);
    if (!refused && parts->failed != GERFMUOD_GRAPH_NONE) refused = GERFMUOD_REFUSED_STOPPED;
    return refused;
}

uint32_t gerfmuod_parts_run(gerfmuod_parts *parts, uint32_t threads, gerfmuod_team_body body, void *context) {
    uint32_t all = parts->count * threads;
    if (parts->has_run) return GERFMUOD_REFUSED_WRONG_LIFE;
    if (!threads) return GERFMUOD_REFUSED_NO_THREAD;
    if (threads > UINT32_MAX / GERFMUOD_MAX_PARTS) return GERFMUOD_REFUSED_NOT_STARTED;
    struct worker *workers = calloc(all, sizeof *workers);
    if (!workers) return GERFMUOD_REFUSED_NO_MEMORY;
    parts->has_run = true, parts->threads = threads, parts->body = body, parts->context = context;
    bool has_memory = true;
#ifdef __linux__
    cpu_set_t before;
    bool is_known = parts->is_bound && !pthread_getaffinity_np(pthread_self(), sizeof before, &before);
    if (is_known) has_memory = order_processors(parts, &before);
#endif
    uint32_t refused = has_memory ? run_on(parts, workers, all) : GERFMUOD_REFUSED_NO_MEMORY;
#ifdef __linux__
    if (is_known) (void)!pthread_setaffinity_np(pthread_self(), sizeof before, &before);
#endif
    free(workers);
    return refused;
}

uint32_t gerfmuod_parts_failed(const gerfmuod_parts *parts) { return parts->failed; }

uint64_t gerfmuod_parts_messages(const gerfmuod_parts *parts) {
    uint64_t sum = 0;
    for (uint32_t p = 0; p < parts->count; p++) sum += parts->parts[p].came;
    return sum;
}
