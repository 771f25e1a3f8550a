/* threads.c: one process per thread, 64 of them by default, without a lock that all share: each thread has its own
 * gerfmuod_process, and a mailbox with its own lock, into which the others put messages and control messages.
 *
 *   cc -O2 -pthread -Icapi/include capi/examples/threads.c -Llib -lgerfmuod -o threads
 *   ./threads [THREADS [EPOCHS [right|early|uncounted]]]
 *
 * In each epoch, process 0 begins a tree of tasks: a task above the leaves sends three tasks to random threads, as messages.
 * Each thread ends the epoch when the detector reports its end, and begins the next one at once. Afterwards each task must
 * have run in each epoch. The others are faulty variants: early finishes the work of a message when it comes and runs the task
 * later; uncounted does not count what it sends. The exit status is 1 if tasks are missing, 2 if the run does not end, and
 * 9 if a call is refused, as Miscounted. */
#define _POSIX_C_SOURCE 200809L
#include <gerfmuod/process.h>
#include <inttypes.h>
#include <pthread.h>
#include <signal.h>
#include <stdio.h>
#include <stdlib.h>
#include <string.h>
#include <unistd.h>

enum { DEPTH = 7, TASKS = 3280, MAX_THREADS = 1024, MAX_EPOCHS = 64, SECONDS = 60 };
enum wrong { RIGHT, EARLY, UNCOUNTED };

typedef struct {
    bool is_task;
    uint32_t depth; /* of a task: the number of levels below it */
    gerfmuod_control_message control; /* of a task: only the epoch */
} item;

typedef struct {
    item *items;
    size_t count, room;
} list;

typedef struct {
    pthread_mutex_t lock;
    pthread_cond_t arrival;
    list inbox;
} mailbox;

static uint32_t n = 64, epochs = 3;
static enum wrong wrong;
static mailbox *mailboxes;

/* the private state of a thread */
typedef struct {
    gerfmuod_process process;
    list kept;    /* of the next epoch: passed again after reopening */
    list backlog; /* tasks that a faulty variant has reported as finished and not run */
    uint64_t seed;
    uint64_t ran[MAX_EPOCHS];
    pthread_t thread;
} worker;

static void append(list *l, const item *i) {
    if (l->count == l->room) {
        l->room = 2 * l->room + 16;
        l->items = realloc(l->items, l->room * sizeof *l->items);
        if (!l->items) exit(9);
    }
    l->items[l->count++] = *i;
}

static void deliver(uint32_t to, const item *i) {
    mailbox *m = &mailboxes[to];
    pthread_mutex_lock(&m->lock);
    append(&m->inbox, i);
    pthread_cond_signal(&m->arrival);
    pthread_mutex_unlock(&m->lock);
}

/* Takes an item out of the mailbox; waits for one if `is_blocking`. Returns whether there was one. */
static bool receive(uint32_t me, bool is_blocking, item *i) {
    mailbox *m = &mailboxes[me];
    pthread_mutex_lock(&m->lock);
    while (is_blocking && !m->inbox.count) pthread_cond_wait(&m->arrival, &m->lock);
    bool is_there = m->inbox.count > 0;
    if (is_there) *i = m->inbox.items[--m->inbox.count];
    pthread_mutex_unlock(&m->lock);
    return is_there;
}

/* A call that this program makes only when it cannot be refused. */
static void must(uint32_t refused) {
    if (!refused) return;
    fprintf(stderr, "%s\n", gerfmuod_refusal_text(refused));
    exit(9);
}

static void run_task(worker *w, uint32_t depth) {
    w->ran[w->process.epoch]++;
    for (int k = 0; depth && k < 3; k++) {
        item task = {true, depth - 1, {0, 0, 0, 0, 0, 0, 0, 0}};
        task.control.epoch = w->process.epoch;
        w->seed = w->seed * 6364136223846793005u + 1442695040888963407u;
        if (wrong != UNCOUNTED) must(gerfmuod_process_count_sent(&w->process));
        deliver((uint32_t)((w->seed >> 33) % n), &task);
    }
}

static void take(worker *w, const item *i) {
    uint32_t refused = i->is_task ? gerfmuod_process_count_received(&w->process, i->control.epoch)
                                  : gerfmuod_process_take(&w->process, &i->control);
    if (refused == GERFMUOD_REFUSED_NOT_YET) append(&w->kept, i);
    if (refused || !i->is_task) return;
    if (wrong == EARLY) append(&w->backlog, i);
    else run_task(w, i->depth);
    must(gerfmuod_process_finish_work(&w->process));
}

/* Sends all control messages that the detector has. Returns its last result. */
static uint32_t ask_detector(worker *w) {
    item i = {false, 0, {0, 0, 0, 0, 0, 0, 0, 0}};
    uint32_t next;
    while ((next = gerfmuod_process_next(&w->process, &i.control)) == GERFMUOD_PROCESS_SEND) deliver((uint32_t)i.control.to, &i);
    return next;
}

static void run_epoch(worker *w) {
    list again = w->kept;
    item i;
    memset(&w->kept, 0, sizeof w->kept);
    if (w->process.number == 0) run_task(w, DEPTH);
    must(gerfmuod_process_finish_work(&w->process));
    for (size_t k = 0; k < again.count; k++) take(w, &again.items[k]);
    free(again.items);
    for (;;) {
        uint32_t next = ask_detector(w);
        if (next == GERFMUOD_PROCESS_ENDED) return;
        if (next > GERFMUOD_PROCESS_ENDED) must(next); /* 0 to 3 are no refusals */
        if (receive(w->process.number, next == GERFMUOD_PROCESS_NOTHING && !w->backlog.count, &i)) {
            take(w, &i);
        } else if (w->backlog.count) {
            i = w->backlog.items[--w->backlog.count];
            if (i.control.epoch == w->process.epoch) run_task(w, i.depth);
        }
    }
}

static void *work(void *argument) {
    worker *w = argument;
    for (uint32_t e = 0; e < epochs; e++) {
        run_epoch(w);
        if (e + 1 < epochs) must(gerfmuod_process_reopen(&w->process));
    }
    return NULL;
}

static void is_silent(int signal_number) {
    (void)signal_number;
    _exit(2);
}

int main(int argc, char **argv) {
    uint64_t missing = 0;
    if (argc > 1) n = (uint32_t)strtoul(argv[1], NULL, 10);
    if (argc > 2) epochs = (uint32_t)strtoul(argv[2], NULL, 10);
    if (argc > 3) wrong = !strcmp(argv[3], "early") ? EARLY : !strcmp(argv[3], "uncounted") ? UNCOUNTED : RIGHT;
    if (!n || n > MAX_THREADS || !epochs || epochs > MAX_EPOCHS) return 9;
    mailboxes = calloc(n, sizeof *mailboxes);
    worker *workers = calloc(n, sizeof *workers);
    if (!mailboxes || !workers) return 9;
    for (uint32_t i = 0; i < n; i++) {
        must(gerfmuod_process_init(&workers[i].process, i, n));
        workers[i].seed = i;
        pthread_mutex_init(&mailboxes[i].lock, NULL);
        pthread_cond_init(&mailboxes[i].arrival, NULL);
    }
    signal(SIGALRM, is_silent);
    alarm(wrong == RIGHT ? SECONDS : 5);
    for (uint32_t i = 0; i < n; i++)
        if (pthread_create(&workers[i].thread, NULL, work, &workers[i])) return 9;
    for (uint32_t i = 0; i < n; i++) pthread_join(workers[i].thread, NULL);
    for (uint32_t e = 0; e < epochs; e++) {
        uint64_t ran = 0;
        for (uint32_t i = 0; i < n; i++) ran += workers[i].ran[e];
        printf("epoch %" PRIu32 ": %" PRIu64 " of %d tasks ran\n", e, ran, TASKS);
        missing += ran != TASKS;
    }
    for (uint32_t i = 0; i < n; i++) {
        free(mailboxes[i].inbox.items);
        free(workers[i].kept.items);
        free(workers[i].backlog.items);
    }
    free(mailboxes);
    free(workers);
    printf("%" PRIu32 " threads, %" PRIu32 " epochs: %s\n", n, epochs, missing ? "WRONG" : "right");
    return missing ? 1 : 0;
}
