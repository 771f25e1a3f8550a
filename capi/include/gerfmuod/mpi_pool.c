/* gerfmuod/mpi_pool.c: tasks over the processes of a communicator that arise while they run. How many tasks wait, run and are due to
 * others, when this is work, and when a run has ended is decided by the proved calls of gerfmuod/process.h. This file has the lists of
 * tasks, the threads and the messages. It is tested, not proved.
 *
 * The main thread alone talks to MPI and to the detector. A list changes in the same critical section as its count, so that they say the
 * same whenever the lock is free. A message has one task; its tag is the kind of the task, from 1.
 *
 * That a body failed is a message too, and counted like one with a task, so that nothing of a run is in flight when it has ended: it is
 * due while the body that failed still runs, and where it comes it waits, and is dropped at once with all that wait. A task that comes
 * after it is dropped in the same way.
 *
 * What a process does before a run is the opening of the run: it ends when the run begins, and the next one begins when the run has
 * ended. So the tasks that are made between two runs are of the next epoch, and wait or are due until that run. */
#define _POSIX_C_SOURCE 200809L
#include <gerfmuod/mpi_pool.h>

#include <limits.h>
#include <pthread.h>
#include <stdbool.h>
#include <stdlib.h>
#include <string.h>
#include <time.h>

/* The tags of messages: that a body failed, and the first with a task. */
enum { STOP = 0, FIRST_KIND = 1, MOST_KINDS = GERFMUOD_MPI_FIRST_TAG - FIRST_KIND };
/* How long the main thread sleeps while it has nothing to do and others run bodies, in nanoseconds. */
enum { NAP = 50000, SECOND = 1000000000 };

/* A task, or that a body failed. */
typedef struct item {
    struct item *next;
    int to, tag, size;
    MPI_Request request; /* while it is being sent */
    _Alignas(16) unsigned char arguments[];
} item;

typedef struct {
    gerfmuod_mpi_pool_body body;
    void *context;
} kind;

struct gerfmuod_mpi_pool {
    int me, processes;
    kind *kinds;
    uint32_t kinds_count;
    /* one lock protects all that follows; `work` is signalled when a task may be ready */
    pthread_mutex_t lock;
    pthread_cond_t work;
    item *ready;           /* the newest first */
    item *due, **last_due; /* for other processes, the oldest first */
    item *stops;           /* kept for the others, if a body fails */
    gerfmuod_tasks tasks;  /* the numbers of these, and of the tasks that run */
    uint32_t sleeping;
    bool is_over, is_stopped, lacks_kind;
    int64_t failure; /* the process and the kind whose body failed, or NO_FAILURE */
    uint64_t ran, sent;
    /* of the main thread alone */
    gerfmuod_mpi_detector detector;
    item *sending;
};

/* Signed, as MPICH compares MPI_UINT64_T too. */
#define NO_FAILURE INT64_MAX

/* Begins what has a request, and waits for it by a function of mpi.c. */
#define AWAIT(begin) do { MPI_Request request = MPI_REQUEST_NULL; begin; gerfmuod_mpi_await(&request); } while (0)
void gerfmuod_mpi_await(MPI_Request *request);

uint32_t gerfmuod_mpi_pool_open(gerfmuod_mpi_pool **opened, MPI_Comm communicator) {
    gerfmuod_mpi_pool *pool = calloc(1, sizeof *pool);
    int lacks = !pool, lack;
    AWAIT(MPI_Iallreduce(&lacks, &lack, 1, MPI_INT, MPI_MAX, communicator, &request));
    *opened = lack ? NULL : pool;
    if (lack) return free(pool), (uint32_t)GERFMUOD_REFUSED_NO_MEMORY;
    MPI_Comm_rank(communicator, &pool->me);
    MPI_Comm_size(communicator, &pool->processes);
    pthread_condattr_t attributes;
    pthread_condattr_init(&attributes);
    pthread_condattr_setclock(&attributes, CLOCK_MONOTONIC); /* of `nap`: the other clock may be set back */
    pthread_mutex_init(&pool->lock, NULL);
    pthread_cond_init(&pool->work, &attributes);
    pthread_condattr_destroy(&attributes);
    pool->last_due = &pool->due;
    pool->failure = NO_FAILURE;
    gerfmuod_tasks_open(&pool->tasks);
    return gerfmuod_mpi_detector_open(&pool->detector, communicator);
}

uint32_t gerfmuod_mpi_pool_kind(gerfmuod_mpi_pool *pool, gerfmuod_mpi_pool_body body, void *context) {
    kind *kinds = pool->kinds_count < MOST_KINDS ? realloc(pool->kinds, (pool->kinds_count + 1) * sizeof *kinds) : NULL;
    if (!kinds) return pool->lacks_kind = true, pool->kinds_count;
    pool->kinds = kinds;
    kinds[pool->kinds_count] = (kind){body, context};
    return pool->kinds_count++;
}

/* ---- tasks; the lock is held */

static item *new_item(int to, int tag, const void *arguments, size_t size) {
    item *added = malloc(sizeof *added + size);
    if (!added) return NULL;
    *added = (item){.to = to, .tag = tag, .size = (int)size};
    if (size && arguments) memcpy(added->arguments, arguments, size);
    return added;
}

/* A call on the counts that is not refused, because the lists say the same. Any thread makes it, and the main thread alone calls MPI. */
static void sure(uint32_t refused) {
    if (refused) abort();
}

/* Leaves an item that is counted to a thread here, or to the main thread, which sends it. */
static void leave(gerfmuod_mpi_pool *pool, item *i) {
    if (i->to == pool->me) i->next = pool->ready, pool->ready = i;
    else i->next = NULL, *pool->last_due = i, pool->last_due = &i->next;
    if (pool->sleeping) pthread_cond_signal(&pool->work);
}

/* Counts and leaves an item that was made here. Refused: as gerfmuod_tasks_add. */
static uint32_t make(gerfmuod_mpi_pool *pool, item *i) {
    uint32_t refused = i->to == pool->me ? gerfmuod_tasks_add(&pool->tasks) : gerfmuod_tasks_add_due(&pool->tasks);
    if (!refused) leave(pool, i);
    return refused;
}

static void drop_all(item **first) {
    for (item *i = *first, *next; i; i = next) next = i->next, free(i);
    *first = NULL;
}

/* Ends the run here because of a process and a kind, the lowest of them; tasks that wait are dropped. */
static void stop(gerfmuod_mpi_pool *pool, int64_t failure) {
    if (failure < pool->failure) pool->failure = failure;
    pool->is_stopped = true;
    gerfmuod_tasks_drop_waiting(&pool->tasks);
    drop_all(&pool->ready);
}

/* A body failed here. Each other process gets one message about it; what was due to them before still goes. */
static void stop_all(gerfmuod_mpi_pool *pool, uint32_t number) {
    int64_t failure = (int64_t)pool->me << 32 | number;
    for (item *i = pool->stops, *next; i; i = next) {
        next = i->next;
        memcpy(i->arguments, &failure, sizeof failure);
        sure(make(pool, i));
    }
    pool->stops = NULL;
    stop(pool, failure);
}

/* Keeps what stop_all needs, which cannot wait for memory; returns whether there is enough. */
static bool keep_stops(gerfmuod_mpi_pool *pool) {
    bool has_some = pool->stops;
    for (int p = 0; p < pool->processes && !has_some; p++) {
        item *added = p == pool->me ? NULL : new_item(p, STOP, NULL, sizeof(int64_t));
        if (added) added->next = pool->stops, pool->stops = added;
        else if (p != pool->me) return drop_all(&pool->stops), false;
    }
    return true;
}

/* Runs the newest task, if there is one; returns whether there was. The lock is held, but not while the body runs. */
static bool turn(gerfmuod_mpi_pool *pool) {
    if (gerfmuod_tasks_begin(&pool->tasks)) return false;
    item *i = pool->ready;
    pool->ready = i->next;
    pool->ran++;
    if (pool->ready && pool->sleeping) pthread_cond_signal(&pool->work);
    pthread_mutex_unlock(&pool->lock);
    uint32_t number = (uint32_t)(i->tag - FIRST_KIND);
    bool has_failed = pool->kinds[number].body(pool, pool->kinds[number].context, i->arguments, (size_t)i->size) != 0;
    free(i);
    pthread_mutex_lock(&pool->lock);
    if (has_failed) stop_all(pool, number);
    sure(gerfmuod_tasks_done(&pool->tasks));
    return true;
}

uint32_t gerfmuod_mpi_pool_spawn(gerfmuod_mpi_pool *pool, int to, uint32_t number, const void *arguments, size_t size) {
    if (to < 0 || to >= pool->processes) return GERFMUOD_REFUSED_NO_NODE;
    if (number >= pool->kinds_count || size > INT_MAX) return GERFMUOD_REFUSED_BAD_SPEC;
    item *added = new_item(to, FIRST_KIND + (int)number, arguments, size);
    pthread_mutex_lock(&pool->lock);
    uint32_t refused = pool->is_stopped ? GERFMUOD_REFUSED_STOPPED : added ? make(pool, added) : GERFMUOD_REFUSED_NO_MEMORY;
    pthread_mutex_unlock(&pool->lock);
    if (refused) free(added);
    return refused;
}

/* A thread beside the main thread, until the run is over. */
static void *work(void *context) {
    gerfmuod_mpi_pool *pool = context;
    pthread_mutex_lock(&pool->lock);
    while (!pool->is_over)
        if (!turn(pool)) pool->sleeping++, pthread_cond_wait(&pool->work, &pool->lock), pool->sleeping--;
    pthread_mutex_unlock(&pool->lock);
    return NULL;
}

/* ---- the messages; all that follows is of the main thread */

/* A call of the main thread that a program which keeps its rules does not see refused. */
static void must(const gerfmuod_mpi_pool *pool, uint32_t refused) {
    if (refused) MPI_Abort(gerfmuod_mpi_detector_communicator(&pool->detector), (int)refused);
}

/* Frees the items that were sent. */
static void forget_sent(gerfmuod_mpi_pool *pool) {
    for (item **at = &pool->sending, *i; (i = *at);) {
        int is_complete;
        MPI_Test(&i->request, &is_complete, MPI_STATUS_IGNORE);
        if (is_complete) *at = i->next, free(i);
        else at = &i->next;
    }
}

/* Sends what the threads left for it, once all of it is counted. Returns whether there was something. */
static bool send_due(gerfmuod_mpi_pool *pool) {
    pthread_mutex_lock(&pool->lock);
    item *due = pool->due;
    for (item *i = due; i; i = i->next) must(pool, gerfmuod_tasks_send(&pool->tasks, &pool->detector.process));
    pool->due = NULL, pool->last_due = &pool->due;
    pthread_mutex_unlock(&pool->lock);
    for (item *i = due, *next; i; i = next) {
        next = i->next;
        MPI_Isend(i->arguments, i->size, MPI_BYTE, i->to, i->tag, gerfmuod_mpi_detector_communicator(&pool->detector), &i->request);
        i->next = pool->sending, pool->sending = i;
        pool->sent += i->tag != STOP;
    }
    return due != NULL;
}

/* Receives the message that the detector found. It is counted before another thread sees its task. */
static void receive(gerfmuod_mpi_pool *pool, const MPI_Status *status) {
    int size;
    MPI_Get_count(status, MPI_BYTE, &size);
    item *i = new_item(pool->me, status->MPI_TAG, NULL, (size_t)size);
    if (!i) must(pool, GERFMUOD_REFUSED_NO_MEMORY);
    AWAIT(MPI_Irecv(i->arguments, size, MPI_BYTE, status->MPI_SOURCE, status->MPI_TAG,
                    gerfmuod_mpi_detector_communicator(&pool->detector), &request));
    int64_t failure = NO_FAILURE;
    if (i->tag == STOP) memcpy(&failure, i->arguments, sizeof failure);
    pthread_mutex_lock(&pool->lock);
    must(pool, gerfmuod_tasks_receive(&pool->tasks, &pool->detector.process, pool->detector.process.epoch));
    leave(pool, i);
    if (failure != NO_FAILURE || pool->is_stopped) stop(pool, failure);
    pthread_mutex_unlock(&pool->lock);
}

/* Runs a task, if one waits; returns whether it did. */
static bool advance(gerfmuod_mpi_pool *pool) {
    pthread_mutex_lock(&pool->lock);
    bool is_more = turn(pool);
    pthread_mutex_unlock(&pool->lock);
    return is_more;
}

/* Finishes the work of this process, if no task is left here. Returns whether it has work. */
static bool is_working(gerfmuod_mpi_pool *pool) {
    pthread_mutex_lock(&pool->lock);
    uint32_t settled = gerfmuod_tasks_settle(&pool->tasks, &pool->detector.process);
    pthread_mutex_unlock(&pool->lock);
    must(pool, settled > 1 ? settled : GERFMUOD_OK);
    return gerfmuod_process_pending(&pool->detector.process) != 0;
}

/* Sleeps until a thread leaves something, but not long: a message may come. */
static void nap(gerfmuod_mpi_pool *pool) {
    struct timespec until;
    clock_gettime(CLOCK_MONOTONIC, &until);
    until.tv_nsec += NAP;
    if (until.tv_nsec >= SECOND) until.tv_nsec -= SECOND, until.tv_sec++;
    pthread_mutex_lock(&pool->lock);
    pool->sleeping++;
    if (!pool->ready && !pool->due && gerfmuod_tasks_running(&pool->tasks)) pthread_cond_timedwait(&pool->work, &pool->lock, &until);
    pool->sleeping--;
    pthread_mutex_unlock(&pool->lock);
}

/* Runs tasks, sends and receives until the detector knows the end. */
static void communicate(gerfmuod_mpi_pool *pool) {
    for (bool has_ended = false; !has_ended;) {
        bool is_more = advance(pool);
        int has_message = 0;
        MPI_Status status;
        is_more |= send_due(pool);
        forget_sent(pool);
        if (is_working(pool)) must(pool, gerfmuod_mpi_detector_test(&pool->detector, &has_message, &status));
        else must(pool, gerfmuod_mpi_detector_wait(&pool->detector, &has_message, &status)), has_ended = !has_message;
        if (has_message) receive(pool, &status);
        else if (!is_more && !has_ended) nap(pool);
    }
}

/* ---- a run */

/* What all processes return, if one of them may not run. */
static uint32_t agree_to_run(gerfmuod_mpi_pool *pool, uint32_t refused) {
    int64_t mine[3] = {refused ? (int64_t)(pool->processes - pool->me) << 32 | refused : 0, pool->kinds_count, -(int64_t)pool->kinds_count};
    int64_t all[3];
    AWAIT(MPI_Iallreduce(mine, all, 3, MPI_INT64_T, MPI_MAX, gerfmuod_mpi_detector_communicator(&pool->detector), &request));
    if (all[0]) return (uint32_t)all[0];
    return all[1] == -all[2] ? GERFMUOD_OK : GERFMUOD_REFUSED_DIFFERENT;
}

/* Starts the threads beside this one; returns how many. They begin when the lock is free. */
static uint32_t start(gerfmuod_mpi_pool *pool, pthread_t *started, uint32_t others) {
    uint32_t begun = 0;
    while (started && begun < others && !pthread_create(&started[begun], NULL, work, pool)) begun++;
    return begun;
}

/* Runs until the end; returns the failure that all agree on. */
static int64_t run_all(gerfmuod_mpi_pool *pool) {
    int64_t failure;
    communicate(pool);
    for (; pool->sending; forget_sent(pool)) gerfmuod_mpi_await(&pool->sending->request); /* all of them were received */
    AWAIT(MPI_Iallreduce(&pool->failure, &failure, 1, MPI_INT64_T, MPI_MIN, gerfmuod_mpi_detector_communicator(&pool->detector), &request));
    return failure;
}

uint32_t gerfmuod_mpi_pool_run(gerfmuod_mpi_pool *pool, uint32_t threads) {
    uint32_t others = threads ? threads - 1 : 0, refused = GERFMUOD_OK;
    pthread_t *started = malloc((others + 1) * sizeof *started);
    pthread_mutex_lock(&pool->lock); /* the threads begin when all processes may run */
    uint32_t begun = start(pool, started, others);
    if (pool->lacks_kind || !keep_stops(pool)) refused = GERFMUOD_REFUSED_NO_MEMORY;
    else if (!threads) refused = GERFMUOD_REFUSED_NO_THREAD;
    else if (!started || begun < others) refused = GERFMUOD_REFUSED_NOT_STARTED;
    refused = agree_to_run(pool, refused);
    pool->is_over = refused != 0, pool->is_stopped = false, pool->failure = NO_FAILURE;
    if (!refused) must(pool, gerfmuod_tasks_close(&pool->tasks));
    pthread_mutex_unlock(&pool->lock);
    int64_t failure = refused ? NO_FAILURE : run_all(pool);
    pthread_mutex_lock(&pool->lock);
    pool->is_over = true, pool->is_stopped = false, pool->failure = failure;
    if (!refused) must(pool, gerfmuod_tasks_reopen(&pool->tasks, &pool->detector.process));
    pthread_cond_broadcast(&pool->work);
    pthread_mutex_unlock(&pool->lock);
    for (uint32_t k = 0; k < begun; k++) pthread_join(started[k], NULL);
    free(started);
    return failure == NO_FAILURE ? refused : GERFMUOD_REFUSED_STOPPED;
}

void gerfmuod_mpi_pool_failed(const gerfmuod_mpi_pool *pool, int *process, uint32_t *number) {
    *process = (int)(pool->failure >> 32), *number = (uint32_t)pool->failure;
}

uint64_t gerfmuod_mpi_pool_ran(const gerfmuod_mpi_pool *pool) { return pool->ran; }
uint64_t gerfmuod_mpi_pool_sent(const gerfmuod_mpi_pool *pool) { return pool->sent; }
int gerfmuod_mpi_pool_rank(const gerfmuod_mpi_pool *pool) { return pool->me; }
int gerfmuod_mpi_pool_size(const gerfmuod_mpi_pool *pool) { return pool->processes; }

void gerfmuod_mpi_pool_close(gerfmuod_mpi_pool *pool) {
    if (!pool) return;
    drop_all(&pool->ready);
    drop_all(&pool->due);
    drop_all(&pool->stops);
    gerfmuod_mpi_detector_close(&pool->detector);
    pthread_cond_destroy(&pool->work);
    pthread_mutex_destroy(&pool->lock);
    free(pool->kinds);
    free(pool);
}
