/* gerfmuod/mpi.c: a task graph over the processes of a communicator. What runs next and what is sent where is decided by the proved
 * calls of gerfmuod/part.h. This file has the data, the threads and the messages. It is tested, not proved.
 *
 * A datum is the caller's memory where it lives, and a copy for each version elsewhere: from the message that brings it until the last
 * task here that reads it. The graph has a task for each datum, its initial value. A message has the versions that one task wrote
 * and another process reads, in the order in which the graph's tasks name them. Its tag is the number of the task, from 1.
 *
 * A message of one version is sent from the caller's memory: the next task that writes it waits for the tasks that read it, also elsewhere.
 * The message of such a task is reported to the part only once the sends with what it read are complete, as MPI asks of who writes a
 * buffer; they were received, so this takes no time. */
#define _POSIX_C_SOURCE 200809L
#include <gerfmuod/mpi.h>
#include <gerfmuod/part.h>

#include <limits.h>
#include <pthread.h>
#include <sched.h>
#include <stdbool.h>
#include <stdlib.h>
#include <string.h>
#include <time.h>

/* The tags of messages: that the graph was stopped, and the first with a value. */
enum { STOP = 0, FIRST_VALUE = 1 };
/* After SPINS polls in vain the main thread yields its processor between them, after POLLS it sleeps, each time longer, at most 1 << NAPS
 * microseconds. If a yield takes LONG nanoseconds, other threads need the processor: then CROWDED pauses are sleeps instead of yields. A
 * thread that wakes gets the processor soon, one that yielded only after the others. */
enum { SPINS = 50, POLLS = 250, NAPS = 6, LONG = 200000, CROWDED = 300 };
/* The values of a body for which there is room on the stack; the alignment of its arguments. */
enum { FEW_VALUES = 8, ALIGNMENT = _Alignof(max_align_t) };
/* The bytes of a short message, at most; the bytes of a unit of one for which an int has no number. */
enum { SHORT = 1024, UNIT = 1 << 20 };
/* How many hashes of the description are kept, at most; the hash of none. */
enum { MOST_HASHES = 1 << 15 };
static const uint64_t hash_of_none = 0xcbf29ce484222325u;

/* A version of a datum that comes from another process. */
typedef struct copy {
    void *at;
    size_t size;
    uint32_t readers; /* how many accesses of tasks here have not read it */
} copy;

/* The message of a task brings a copy. */
typedef struct {
    uint32_t task, place; /* among all copies, in the order of the description */
    copy *of;
} arrival;

typedef struct {
    int owner;
    void *at; /* in the process of the owner */
    size_t size;
    uint32_t first;  /* the task of its initial value */
    uint32_t writer; /* the newest task that writes it */
    copy *newest;    /* elsewhere: the copy of this version, if a task here reads it */
} datum;

/* A message with versions that a task wrote. */
typedef struct message {
    int to;
    uint32_t count, *data;
    size_t size;
    char *block; /* while it is sent: several values, one after the other */
    struct message *next, *next_sent;
    MPI_Request request; /* once it was sent */
} message;

/* A task of another process reads what a message has. */
typedef struct { uint32_t reader; message *of; } receipt;

/* One value that a body gets: of a datum, or of a copy. */
typedef struct { void **at; copy *from; } value;

/* A task of this process. */
typedef struct {
    uint32_t number;
    uint32_t count;
    gerfmuod_mpi_body body; /* NULL: the initial value of a datum */
    void *arguments;
    value *values;
    message *messages;
} task;

typedef struct { task *from; int to; } letter;
typedef struct { letter *at; uint32_t count, room; } letters;

struct gerfmuod_mpi {
    MPI_Comm communicator;
    int me, processes;
    uint32_t refused; /* the first refusal of a description */
    uint64_t hash;    /* of the description */
    uint64_t *hashes; /* of the first `stride` data and tasks, of twice as many, and so on */
    uint32_t hashes_count, stride;
    bool has_run;
    datum **data;
    uint32_t data_count;
    task *tasks; /* their numbers ascend */
    uint32_t tasks_count, described;
    arrival *arrivals; /* in a run their tasks ascend */
    uint32_t arrivals_count;
    receipt *receipts; /* their readers ascend */
    uint32_t receipts_count;
    /* one lock protects the part, and all below; `work` is signalled when a task may be ready */
    pthread_mutex_t lock;
    pthread_cond_t work;
    gerfmuod_part part;
    uint32_t sleeping;
    uint32_t task_found; /* the places that were found last, here and of the main thread alone */
    bool is_over, is_stopped;
    int64_t failure;  /* the process and the task whose body failed, or NO_FAILURE */
    letters due;      /* messages for the main thread */
    /* of the main thread alone */
    letters taken;    /* those of `due` that it sends now */
    message *sending; /* whose sends are perhaps not complete */
    message *stops;
    uint32_t arrival_found, receipt_found;
    bool are_short; /* all messages that come; then `expected` is the next one, which comes to `block` */
    char block[SHORT];
    MPI_Request expected;
    uint64_t *sent_to, *received_from;
    int64_t announced; /* the failure that was sent to the others, or NO_FAILURE */
};

/* Signed, as MPICH compares MPI_UINT64_T too. */
#define NO_FAILURE INT64_MAX

static void *refuse(gerfmuod_mpi *graph, uint32_t refused) {
    if (!graph->refused) graph->refused = refused;
    return NULL;
}

/* A block with room for one more element: it grows at powers of two. NULL if memory ran out, and the old block stays. */
static void *grown(void *block, uint32_t count, size_t size) {
    return count & (count - 1) ? block : realloc(block, (count ? 2 * (size_t)count : 1) * size);
}

/* ---- waiting */

/* Pauses after some polls in vain. */
static void pause_after(uint32_t *polls) {
    static _Thread_local uint32_t crowded; /* how many pauses are still sleeps */
    uint32_t naps = ++*polls > POLLS ? *polls - POLLS : crowded && *polls > SPINS ? *polls - SPINS : 0;
    struct timespec before, after;
    if (naps) {
        nanosleep(&(struct timespec){.tv_nsec = 1000L << (naps < NAPS ? naps : NAPS)}, NULL);
        if (crowded) crowded--;
    } else if (*polls > SPINS) {
        clock_gettime(CLOCK_MONOTONIC, &before);
        sched_yield();
        clock_gettime(CLOCK_MONOTONIC, &after);
        if ((after.tv_sec - before.tv_sec) * 1000000000 + after.tv_nsec - before.tv_nsec > LONG) crowded = CROWDED;
    }
}

/* Waits for a request as MPI_Wait does, but that may keep the processor from the process that it waits for. It sleeps only if others need
 * the processor: a message that is on its way may need this process. mpi_pool.c calls it, too. */
void gerfmuod_mpi_await(MPI_Request *request) {
    int is_complete = 1; /* also if MPI fails, and returns that */
    for (uint32_t polls = 0; MPI_Test(request, &is_complete, MPI_STATUS_IGNORE), !is_complete; is_complete = 1, pause_after(&polls))
        if (polls == POLLS) polls = SPINS;
}

/* Begins what has a request, and waits for it. */
#define AWAIT(begin) do { MPI_Request request = MPI_REQUEST_NULL; begin; gerfmuod_mpi_await(&request); } while (0)

/* ---- the description */
uint32_t gerfmuod_mpi_open(gerfmuod_mpi **opened, MPI_Comm communicator) {
    gerfmuod_mpi *graph = calloc(1, sizeof *graph);
    uint64_t *hashes = malloc(MOST_HASHES * sizeof *hashes);
    int lacks = !graph || !hashes, lack;
    AWAIT(MPI_Iallreduce(&lacks, &lack, 1, MPI_INT, MPI_MAX, communicator, &request));
    *opened = lack ? NULL : graph;
    if (lack) return free(graph), free(hashes), (uint32_t)GERFMUOD_REFUSED_NO_MEMORY;
    AWAIT(MPI_Comm_idup(communicator, &graph->communicator, &request));
    MPI_Comm_rank(graph->communicator, &graph->me);
    MPI_Comm_size(graph->communicator, &graph->processes);
    gerfmuod_part_open(&graph->part, (uint32_t)graph->me, (uint32_t)graph->processes);
    pthread_mutex_init(&graph->lock, NULL);
    pthread_cond_init(&graph->work, NULL);
    graph->failure = graph->announced = NO_FAILURE;
    graph->expected = MPI_REQUEST_NULL;
    graph->hash = hash_of_none, graph->hashes = hashes, graph->stride = 1;
    return GERFMUOD_OK;
}

uint32_t gerfmuod_mpi_open_fortran(gerfmuod_mpi **opened, MPI_Fint communicator) {
    return gerfmuod_mpi_open(opened, MPI_Comm_f2c(communicator));
}

/* The hash of Fowler, Noll and Vo (FNV-1a), over words. */
static uint64_t mixed(uint64_t hash, uint64_t word) { return (hash ^ word) * 0x100000001b3u; }

/* Keeps the hash. Once there is no room, every second hash is dropped, and from then on not kept. */
static void keep_hash(gerfmuod_mpi *graph) {
    if (graph->hashes_count < MOST_HASHES) graph->hashes[graph->hashes_count++] = graph->hash;
    else for (graph->hashes_count = 0, graph->stride *= 2; graph->hashes_count < MOST_HASHES / 2; graph->hashes_count++)
        graph->hashes[graph->hashes_count] = graph->hashes[2 * graph->hashes_count + 1];
}

/* Describes a task to the part. Returns its number, or none if the description was refused. */
static inline uint32_t described(gerfmuod_mpi *graph, uint32_t class_, const gerfmuod_access *accesses, size_t count, int owner) {
    uint64_t hash = mixed(graph->hash, (uint64_t)owner << 32 | (uint32_t)count << 2 | class_); /* a class above 3, or so many, is refused */
    for (size_t k = 0; k < count; k++) hash = mixed(hash, (uint64_t)accesses[k].handle << 32 | accesses[k].mode);
    graph->hash = hash;
    gerfmuod_part_result result = gerfmuod_part_shared_task(&graph->part, class_, accesses, count, (uint32_t)owner);
    if (result.refused) return refuse(graph, result.refused), GERFMUOD_GRAPH_NONE;
    graph->described = result.number + 1;
    if (!(graph->described & (graph->stride - 1))) keep_hash(graph);
    return result.number;
}

/* One more task of this process, which the part has. NULL if memory ran out. */
static task *own_task(gerfmuod_mpi *graph, uint32_t number, gerfmuod_mpi_body body, const void *arguments, size_t size, size_t count) {
    task *tasks = grown(graph->tasks, graph->tasks_count, sizeof *tasks);
    if (!tasks) return refuse(graph, GERFMUOD_REFUSED_NO_MEMORY);
    graph->tasks = tasks;
    task *added = &tasks[graph->tasks_count++];
    *added = (task){.number = number, .count = (uint32_t)count, .body = body};
    size_t pointers = count > FEW_VALUES ? count * sizeof(void *) : 0; /* see run_body */
    size_t before = (count * sizeof *added->values + pointers + ALIGNMENT - 1) / ALIGNMENT * ALIGNMENT;
    if (!(added->values = calloc(1, before + size + !size))) return refuse(graph, GERFMUOD_REFUSED_NO_MEMORY);
    added->arguments = (char *)added->values + before;
    if (size) memcpy(added->arguments, arguments, size);
    return added;
}

uint32_t gerfmuod_mpi_data(gerfmuod_mpi *graph, int owner, void *at, size_t size) {
    uint32_t handle = graph->data_count;
    if (graph->refused) return handle;
    if (owner < 0 || owner >= graph->processes) return refuse(graph, GERFMUOD_REFUSED_NO_NODE), handle;
    if (size > INT_MAX) return refuse(graph, GERFMUOD_REFUSED_BAD_SPEC), handle;
    datum *added = calloc(1, sizeof *added), **data = grown(graph->data, handle, sizeof *data);
    if (data) graph->data = data;
    if (!added || !data) return free(added), refuse(graph, GERFMUOD_REFUSED_NO_MEMORY), handle;
    data[graph->data_count++] = added;
    graph->hash = mixed(graph->hash, (uint64_t)1 << 63 | size);
    gerfmuod_part_result result = gerfmuod_part_call(&graph->part, GERFMUOD_PART_HANDLE, 0);
    if (result.refused) return refuse(graph, result.refused), handle;
    gerfmuod_access writes = GERFMUOD_WRITES(handle);
    *added = (datum){.owner = owner, .at = owner == graph->me ? at : NULL, .size = size};
    added->first = added->writer = described(graph, 0, &writes, 1, owner);
    if (owner == graph->me && !graph->refused) own_task(graph, added->writer, NULL, NULL, 0, 0);
    return handle;
}

/* The place of the first of some elements that has at least this number: each begins with its own one, and they ascend. It is looked for
 * from where the last one was found, since most are asked for in their order. */
static uint32_t find(const void *elements, uint32_t count, size_t size, uint32_t number, uint32_t *found) {
    const uint32_t *numbers = elements;
    uint32_t low = *found, high = low, words = (uint32_t)(size / sizeof *numbers), step;
    for (step = 1; high < count && numbers[(size_t)high * words] < number; step *= 2)
        low = high + 1, high = count - low > step ? low + step : count;
    for (step = 1; low && numbers[(size_t)(low - 1) * words] >= number; step *= 2) high = low - 1, low = high > step ? high - step : 0;
    while (low < high) {
        uint32_t middle = low + (high - low) / 2;
        if (numbers[(size_t)middle * words] < number) low = middle + 1;
        else high = middle;
    }
    return *found = low;
}

/* The task of this process with a number. In a run the lock is held. */
static task *find_task(gerfmuod_mpi *graph, uint32_t number) {
    return &graph->tasks[find(graph->tasks, graph->tasks_count, sizeof *graph->tasks, number, &graph->task_found)];
}

/* The message of a list that goes to a process; a new one if there is none. NULL if memory ran out. */
static message *message_to(message **list, int to) {
    message *m = *list;
    while (m && m->to != to) m = m->next;
    if (m || !(m = malloc(sizeof *m))) return m;
    *m = (message){.to = to, .next = *list, .request = MPI_REQUEST_NULL};
    return *list = m;
}

/* Remembers that a task of another process reads what a message has, once. Returns whether there was memory. */
static bool is_read(gerfmuod_mpi *graph, message *m, uint32_t reader) {
    uint32_t count = graph->receipts_count;
    for (uint32_t k = count; k && graph->receipts[k - 1].reader == reader; k--)
        if (graph->receipts[k - 1].of == m) return true;
    receipt *receipts = grown(graph->receipts, count, sizeof *receipts);
    if (receipts) graph->receipts = receipts, receipts[graph->receipts_count++] = (receipt){reader, m};
    return receipts;
}

/* The present version of an own datum goes to a process, once, where a task reads it. */
static void goes(gerfmuod_mpi *graph, uint32_t handle, int to, uint32_t reader) {
    message *m = message_to(&find_task(graph, graph->data[handle]->writer)->messages, to);
    bool has_room = m && is_read(graph, m, reader);
    for (uint32_t k = 0; has_room && k < m->count; k++)
        if (m->data[k] == handle) return;
    uint32_t *data = has_room ? grown(m->data, m->count, sizeof *data) : NULL;
    if (data) m->data = data, data[m->count++] = handle, m->size += graph->data[handle]->size;
    else refuse(graph, GERFMUOD_REFUSED_NO_MEMORY);
}

/* The copy of the present version of another process's datum. NULL if memory ran out. */
static copy *comes(gerfmuod_mpi *graph, datum *d) {
    if (d->newest) return d->newest;
    uint32_t count = graph->arrivals_count;
    copy *added = calloc(1, sizeof *added);
    arrival *arrivals = grown(graph->arrivals, count, sizeof *arrivals);
    if (arrivals) graph->arrivals = arrivals;
    if (!added || !arrivals) return free(added), refuse(graph, GERFMUOD_REFUSED_NO_MEMORY);
    added->size = d->size;
    arrivals[graph->arrivals_count++] = (arrival){d->writer, count, added};
    return d->newest = added;
}

/* Where a task of this process finds the present version of a datum. */
static void give(gerfmuod_mpi *graph, value *v, datum *d) {
    if (d->owner == graph->me) v->at = &d->at;
    else if (comes(graph, d)) *v = (value){&d->newest->at, d->newest}, d->newest->readers++;
}

/* The process where a task runs, or -1, with the reason in the graph. */
static int process_of(gerfmuod_mpi *graph, const gerfmuod_access *accesses, size_t count) {
    int owner = -1;
    for (size_t k = 0; k < count; k++) {
        if (accesses[k].handle >= graph->data_count) return refuse(graph, GERFMUOD_REFUSED_BAD_SPEC), -1;
        int lives = graph->data[accesses[k].handle]->owner;
        if (accesses[k].mode == GERFMUOD_READ) continue;
        if (owner >= 0 && lives != owner) return refuse(graph, GERFMUOD_REFUSED_NO_NODE), -1;
        owner = lives;
    }
    if (!count) return refuse(graph, GERFMUOD_REFUSED_BAD_SPEC), -1;
    return owner < 0 ? graph->data[accesses[0].handle]->owner : owner;
}

void gerfmuod_mpi_task_on(gerfmuod_mpi *graph, uint32_t class_, gerfmuod_mpi_body body, const void *arguments, size_t size,
                          const gerfmuod_access *accesses, size_t count) {
    int owner = graph->refused ? -1 : process_of(graph, accesses, count);
    uint32_t number = owner < 0 ? GERFMUOD_GRAPH_NONE : described(graph, class_, accesses, count, owner);
    if (graph->refused) return;
    task *added = owner == graph->me ? own_task(graph, number, body, arguments, size, count) : NULL;
    for (size_t k = 0; k < count; k++) {
        datum *d = graph->data[accesses[k].handle];
        if (added) give(graph, &added->values[k], d);
        else if (d->owner == graph->me && accesses[k].mode != GERFMUOD_WRITE) goes(graph, accesses[k].handle, owner, number);
    }
    for (size_t k = 0; k < count; k++)
        if (accesses[k].mode != GERFMUOD_READ) {
            datum *d = graph->data[accesses[k].handle];
            d->writer = number, d->newest = NULL;
        }
}

/* ---- the threads */

/* The failure of a task of this process. */
static int64_t failure_of(const gerfmuod_mpi *graph, uint32_t number) { return (int64_t)graph->me << 32 | number; }

/* Ends the run here because of a process and a task, the lowest of them. The lock is held. */
static void stop(gerfmuod_mpi *graph, int64_t failure) {
    if (failure < graph->failure) graph->failure = failure;
    graph->is_stopped = true;
    pthread_cond_broadcast(&graph->work);
}

/* Runs the body of a task; returns whether it succeeded. */
static bool run_body(const task *t) {
    void *few[FEW_VALUES], **values = t->count > FEW_VALUES ? (void **)(t->values + t->count) : few;
    for (uint32_t k = 0; k < t->count; k++) values[k] = *t->values[k].at;
    return !t->body || t->body(t->arguments, values) == 0;
}

/* Frees the copies that the task was the last to read. The lock is held. */
static void leave_copies(const task *t) {
    for (uint32_t k = 0; k < t->count; k++) {
        copy *c = t->values[k].from;
        if (c && --c->readers == 0) free(c->at), c->at = NULL;
    }
}

/* Runs a task that the part returned, and reports it. The lock is held, but not while the body runs. */
static void run_task(gerfmuod_mpi *graph, uint32_t number) {
    task *t = find_task(graph, number);
    if (graph->sleeping) pthread_cond_signal(&graph->work); /* another may be ready */
    pthread_mutex_unlock(&graph->lock);
    bool is_well = run_body(t);
    pthread_mutex_lock(&graph->lock);
    leave_copies(t);
    if (!is_well) stop(graph, failure_of(graph, number));
    else if (gerfmuod_part_call(&graph->part, GERFMUOD_PART_DONE, number).refused) stop(graph, failure_of(graph, number));
}

/* Leaves a message to the main thread. The lock is held. */
static void leave_letter(gerfmuod_mpi *graph, letter l) {
    letters *due = &graph->due;
    if (due->count == due->room) {
        uint32_t room = 2 * due->room + 8;
        letter *at = realloc(due->at, room * sizeof *at);
        if (at) due->at = at, due->room = room;
    }
    if (due->count < due->room) due->at[due->count++] = l;
    else stop(graph, failure_of(graph, l.from->number));
}

/* What the part returns next, after all messages that are due, which are left to the main thread. The lock is held. */
static gerfmuod_part_result next_of(gerfmuod_mpi *graph) {
    gerfmuod_part_result next;
    while ((next = gerfmuod_part_call(&graph->part, GERFMUOD_PART_NEXT, 0)).next == GERFMUOD_PART_SEND)
        leave_letter(graph, (letter){find_task(graph, next.number), (int)next.to});
    if (next.next == GERFMUOD_PART_OVER) graph->is_over = true, pthread_cond_broadcast(&graph->work);
    return next;
}

/* A thread beside the main thread, until the part is over or the run was stopped. */
static void *work(void *context) {
    gerfmuod_mpi *graph = context;
    pthread_mutex_lock(&graph->lock);
    while (!graph->is_over && !graph->is_stopped) {
        gerfmuod_part_result next = next_of(graph);
        if (next.next == GERFMUOD_PART_RUN) run_task(graph, next.number);
        else if (!graph->is_over && !graph->is_stopped)
            graph->sleeping++, pthread_cond_wait(&graph->work, &graph->lock), graph->sleeping--;
    }
    pthread_mutex_unlock(&graph->lock);
    return NULL;
}

/* ---- the messages; all that follows is of the main thread */

/* Memory of the main thread, without which a run cannot go on. */
static void *must_have(const gerfmuod_mpi *graph, void *block) {
    if (!block) MPI_Abort(graph->communicator, GERFMUOD_REFUSED_NO_MEMORY);
    return block;
}

/* A block for several values. MPI counts no more than INT_MAX units: a larger block has room for whole units of UNIT bytes. */
static void *new_block(const gerfmuod_mpi *graph, size_t size) { return must_have(graph, malloc(size + (size > INT_MAX ? UNIT : 1))); }

/* How many units MPI has to count, and their type. */
static int units_of(size_t size, MPI_Datatype *type) {
    *type = MPI_BYTE;
    if (size <= INT_MAX) return (int)size;
    MPI_Type_contiguous(UNIT, MPI_BYTE, type);
    MPI_Type_commit(type);
    return (int)((size + UNIT - 1) / UNIT);
}

/* The type is freed once no message uses it. */
static void free_type(MPI_Datatype *type) {
    if (*type != MPI_BYTE) MPI_Type_free(type);
}

/* Sends a message of a list, which has one to each process at most. */
static void send(gerfmuod_mpi *graph, message *m, const void *at, size_t size, int tag) {
    MPI_Datatype type;
    int count = units_of(size, &type);
    MPI_Isend(at, count, type, m->to, tag, graph->communicator, &m->request);
    free_type(&type);
    m->next_sent = graph->sending, graph->sending = m;
    graph->sent_to[m->to]++;
}

/* Sends one value from where it is, several in a block, and none if a task there only waits until this one has read. */
static void send_letter(gerfmuod_mpi *graph, letter l) {
    message *m = must_have(graph, message_to(&l.from->messages, l.to));
    void *at = m->count ? graph->data[m->data[0]]->at : NULL;
    if (m->count > 1) at = m->block = new_block(graph, m->size);
    char *next = m->block;
    for (uint32_t k = 0; next && k < m->count; k++) {
        const datum *d = graph->data[m->data[k]];
        if (d->size) memcpy(next, d->at, d->size), next += d->size;
    }
    send(graph, m, at, m->size, FIRST_VALUE + (int)l.from->number);
}

/* Sends the others the failure that stopped the run. */
static void announce(gerfmuod_mpi *graph) {
    for (int p = 0; p < graph->processes; p++)
        if (p != graph->me)
            send(graph, must_have(graph, message_to(&graph->stops, p)), &graph->announced, sizeof graph->announced, STOP);
}

static int by_task(const void *one, const void *other) {
    const arrival *a = one, *b = other;
    if (a->task != b->task) return a->task < b->task ? -1 : 1;
    return a->place < b->place ? -1 : a->place > b->place;
}

/* Waits until the sends with what a task of another process read are complete. */
static void await_sends(gerfmuod_mpi *graph, uint32_t reader) {
    const receipt *all = graph->receipts;
    uint32_t k = find(all, graph->receipts_count, sizeof *all, reader, &graph->receipt_found);
    for (; k < graph->receipts_count && all[k].reader == reader; k++) gerfmuod_mpi_await(&all[k].of->request);
}

/* Receives the values that the message of a task brings, if they are not in `block` already, one after the other, and reports it. */
static void receive_value(gerfmuod_mpi *graph, int from, uint32_t number, const char *block) {
    const arrival *all = graph->arrivals, *end = all + graph->arrivals_count, *a;
    const arrival *first = &all[find(all, graph->arrivals_count, sizeof *all, number, &graph->arrival_found)];
    size_t size = 0;
    for (a = first; a < end && a->task == number; a++) a->of->at = must_have(graph, malloc(a->of->size + 1)), size += a->of->size;
    char *own = block || a - first == 1 ? NULL : new_block(graph, size);
    if (!block) {
        MPI_Datatype type;
        int count = units_of(size, &type);
        void *at = own ? own : first->of->at;
        AWAIT(MPI_Irecv(at, count, type, from, FIRST_VALUE + (int)number, graph->communicator, &request));
        free_type(&type);
        block = own;
    }
    for (a = first; block && a < end && a->task == number; a++) memcpy(a->of->at, block, a->of->size), block += a->of->size;
    free(own);
    await_sends(graph, number);
    pthread_mutex_lock(&graph->lock);
    uint32_t refused = gerfmuod_part_call(&graph->part, GERFMUOD_PART_ARRIVED, number).refused;
    if (graph->sleeping) pthread_cond_signal(&graph->work);
    pthread_mutex_unlock(&graph->lock);
    if (refused) MPI_Abort(graph->communicator, (int)refused); /* the processes described the same graph, so nothing else comes */
}

/* Receives one message, if one came; returns whether it did. If all are short, MPI always expects the next one, which takes it less time
 * than a message that nobody waits for. */
static bool receive(gerfmuod_mpi *graph) {
    int is_there;
    MPI_Status status;
    char *block = graph->are_short ? graph->block : NULL;
    if (block && graph->expected == MPI_REQUEST_NULL)
        MPI_Irecv(block, SHORT, MPI_BYTE, MPI_ANY_SOURCE, MPI_ANY_TAG, graph->communicator, &graph->expected);
    if (block) MPI_Test(&graph->expected, &is_there, &status);
    else MPI_Iprobe(MPI_ANY_SOURCE, MPI_ANY_TAG, graph->communicator, &is_there, &status);
    if (!is_there) return false;
    graph->received_from[status.MPI_SOURCE]++;
    if (status.MPI_TAG != STOP) {
        receive_value(graph, status.MPI_SOURCE, (uint32_t)(status.MPI_TAG - FIRST_VALUE), block);
        return true;
    }
    int64_t failure;
    if (block) memcpy(&failure, block, sizeof failure);
    else MPI_Recv(&failure, sizeof failure, MPI_BYTE, status.MPI_SOURCE, STOP, graph->communicator, MPI_STATUS_IGNORE);
    pthread_mutex_lock(&graph->lock);
    stop(graph, failure);
    pthread_mutex_unlock(&graph->lock);
    return true;
}

/* Drops the messages whose sends are complete. */
static void forget_sent(gerfmuod_mpi *graph) {
    for (message **at = &graph->sending, *m; (m = *at);) {
        int is_complete;
        MPI_Test(&m->request, &is_complete, MPI_STATUS_IGNORE);
        if (is_complete) *at = m->next_sent, free(m->block), m->block = NULL;
        else at = &m->next_sent;
    }
}

/* Runs a task, if one is ready and no message is due before it, and sends what is due: what the task wrote goes before anything else is
 * done. The task that the part returns after it is kept in `next` until then. Returns whether there was something. */
static bool advance(gerfmuod_mpi *graph, gerfmuod_part_result *next, bool *has_ended, int64_t *failure) {
    pthread_mutex_lock(&graph->lock);
    if (next->next != GERFMUOD_PART_RUN && !graph->is_over && !graph->is_stopped) *next = next_of(graph);
    bool runs = next->next == GERFMUOD_PART_RUN && !graph->is_stopped && !graph->due.count;
    if (runs) {
        run_task(graph, next->number);
        *next = (gerfmuod_part_result){0};
        if (!graph->is_over && !graph->is_stopped) *next = next_of(graph);
    }
    *has_ended = graph->is_over || graph->is_stopped; /* nothing is due any more once the part is over and this was sent */
    *failure = graph->is_stopped ? graph->failure : NO_FAILURE;
    letters due = graph->due;
    graph->due = graph->taken, graph->taken = due, graph->due.count = 0;
    bool announces = graph->announced == NO_FAILURE && graph->is_stopped && graph->failure >> 32 == graph->me;
    if (announces) graph->announced = graph->failure;
    pthread_mutex_unlock(&graph->lock);
    for (uint32_t k = 0; k < due.count; k++) send_letter(graph, due.at[k]);
    if (announces) announce(graph);
    return runs || due.count || announces || next->next == GERFMUOD_PART_RUN;
}

/* Runs tasks, sends and receives until this process is over or stopped, and then until all are. Leaves in `failure` what all agree on.
 * It does not wait for its sends: after a stop, their receivers may take them only in `drain`. */
static void communicate(gerfmuod_mpi *graph, bool is_alone, int64_t *failure) {
    MPI_Request agreed = MPI_REQUEST_NULL;
    gerfmuod_part_result next = {0};
    bool has_ended = false, is_more = true;
    int agree = 0;
    int64_t mine = NO_FAILURE;
    for (uint32_t polls = 0; !agree;) {
        if (has_ended) MPI_Test(&agreed, &agree, MPI_STATUS_IGNORE), is_more = false;
        else if (is_more || !is_alone) { /* without other threads there is news only after a message */
            is_more = advance(graph, &next, &has_ended, &mine);
            if (has_ended) MPI_Iallreduce(&mine, failure, 1, MPI_INT64_T, MPI_MIN, graph->communicator, &agreed);
        }
        forget_sent(graph);
        if (receive(graph)) is_more = true;
        if (is_more) polls = 0;
        else if (!agree) pause_after(&polls);
    }
}

/* After a stop: receives what is still in flight, so that nothing of this run is left in the communicator. */
static void drain(gerfmuod_mpi *graph) {
    uint64_t *sent = must_have(graph, calloc((size_t)graph->processes, sizeof *sent));
    AWAIT(MPI_Ialltoall(graph->sent_to, 1, MPI_UINT64_T, sent, 1, MPI_UINT64_T, graph->communicator, &request));
    for (int p = 0; p < graph->processes; p++)
        for (uint32_t polls = 0; graph->received_from[p] < sent[p];)
            if (!receive(graph)) pause_after(&polls);
    free(sent);
}

/* ---- a run */

/* Whether a hash is the same in all processes. */
static bool is_common(const gerfmuod_mpi *graph, uint64_t hash) {
    uint64_t mine[2] = {hash, ~hash}, all[2];
    AWAIT(MPI_Iallreduce(mine, all, 2, MPI_UINT64_T, MPI_MAX, graph->communicator, &request));
    return all[0] == ~all[1];
}

/* The hash of the first data and tasks, as many as a multiple of the stride; another number if fewer were described. */
static uint64_t hash_of(const gerfmuod_mpi *graph, uint32_t count) {
    if (count >= graph->described) return count == graph->described ? graph->hash : ~graph->hash;
    return count ? graph->hashes[count / graph->stride - 1] : hash_of_none;
}

/* Leaves as the failure where the descriptions begin to differ, and the lowest process whose one is not that of process 0. */
static void find_difference(gerfmuod_mpi *graph) {
    uint32_t mine[2] = {graph->described, graph->stride}, most[2];
    AWAIT(MPI_Iallreduce(mine, most, 2, MPI_UINT32_T, MPI_MAX, graph->communicator, &request));
    uint32_t stride = most[1], low = 0, high = most[0] / stride + 1; /* how many strides are the same, and how many are not */
    while (high - low > 1) {
        uint32_t middle = low + (high - low) / 2;
        if (is_common(graph, hash_of(graph, middle * stride))) low = middle;
        else high = middle;
    }
    uint64_t hash = hash_of(graph, high * stride), first = hash;
    MPI_Bcast(&first, 1, MPI_UINT64_T, 0, graph->communicator);
    int64_t different = hash == first ? NO_FAILURE : failure_of(graph, low * stride);
    AWAIT(MPI_Iallreduce(&different, &graph->failure, 1, MPI_INT64_T, MPI_MIN, graph->communicator, &request));
}

/* What all processes return, if one of them may not run. */
static uint32_t agree_to_run(gerfmuod_mpi *graph, uint32_t refused) {
    uint64_t mine[3] = {refused ? (uint64_t)(graph->processes - graph->me) << 32 | refused : 0, graph->hash, ~graph->hash}, all[3];
    AWAIT(MPI_Iallreduce(mine, all, 3, MPI_UINT64_T, MPI_MAX, graph->communicator, &request));
    if (all[0]) return (uint32_t)all[0];
    if (all[1] == ~all[2]) return GERFMUOD_OK;
    find_difference(graph);
    return GERFMUOD_REFUSED_DIFFERENT;
}

/* Whether values come, and no message with them has more than SHORT bytes. (If none can come, nothing is to be expected: in MPICH 4.0.2
 * MPI_Ialltoall of a single process never ends meanwhile.) */
static bool are_short(const arrival *all, uint32_t count) {
    size_t size = 0;
    for (uint32_t k = 0; k < count && size <= SHORT; k++)
        size = all[k].of->size + (k && all[k].task == all[k - 1].task ? size : 0);
    return count && size <= SHORT;
}

/* Allocates what a run needs; returns the refusal. */
static uint32_t prepare(gerfmuod_mpi *graph, uint32_t threads) {
    int *most, is_set;
    MPI_Comm_get_attr(graph->communicator, MPI_TAG_UB, &most, &is_set);
    if (graph->has_run) return GERFMUOD_REFUSED_WRONG_LIFE;
    if (graph->refused) return graph->refused;
    if (!threads) return GERFMUOD_REFUSED_NO_THREAD;
    if (is_set && graph->described > (uint32_t)*most) return GERFMUOD_REFUSED_HISTORY_FULL;
    size_t processes = (size_t)graph->processes;
    graph->sent_to = calloc(processes, sizeof *graph->sent_to);
    graph->received_from = calloc(processes, sizeof *graph->received_from);
    if (!graph->sent_to || !graph->received_from) return GERFMUOD_REFUSED_NO_MEMORY;
    if (graph->arrivals_count) qsort(graph->arrivals, graph->arrivals_count, sizeof *graph->arrivals, by_task);
    graph->are_short = are_short(graph->arrivals, graph->arrivals_count);
    return gerfmuod_part_call(&graph->part, GERFMUOD_PART_START, 0).refused;
}

uint32_t gerfmuod_mpi_run(gerfmuod_mpi *graph, uint32_t threads) {
    uint32_t refused = prepare(graph, threads), begun = 0, others = threads - 1;
    pthread_t *started = refused ? NULL : malloc((others + 1) * sizeof *started);
    if (!refused && !started) refused = GERFMUOD_REFUSED_NO_MEMORY;
    pthread_mutex_lock(&graph->lock); /* the threads begin when all processes may run */
    while (!refused && begun < others && !pthread_create(&started[begun], NULL, work, graph)) begun++;
    if (!refused && begun < others) refused = GERFMUOD_REFUSED_NOT_STARTED;
    refused = agree_to_run(graph, refused);
    graph->has_run = true;
    graph->is_stopped = refused != 0;
    pthread_mutex_unlock(&graph->lock);
    int64_t failure = NO_FAILURE;
    if (!refused) communicate(graph, !others, &failure);
    for (uint32_t k = 0; k < begun; k++) pthread_join(started[k], NULL);
    free(started);
    if (failure != NO_FAILURE) drain(graph), graph->failure = failure, refused = GERFMUOD_REFUSED_STOPPED;
    for (message *m = graph->sending; m; m = m->next_sent) gerfmuod_mpi_await(&m->request); /* all are received, or being received */
    if (graph->expected != MPI_REQUEST_NULL) MPI_Cancel(&graph->expected), MPI_Wait(&graph->expected, MPI_STATUS_IGNORE);
    return refused;
}

void gerfmuod_mpi_failed(const gerfmuod_mpi *graph, int *process, uint32_t *number) {
    uint32_t initial = 0;
    while (initial < graph->data_count && graph->data[initial]->first < (uint32_t)graph->failure) initial++;
    *process = (int)(graph->failure >> 32), *number = (uint32_t)graph->failure - initial;
}

uint64_t gerfmuod_mpi_messages(const gerfmuod_mpi *graph) {
    uint64_t sum = 0;
    for (int p = 0; graph->sent_to && p < graph->processes; p++) sum += graph->sent_to[p];
    return sum;
}

static void free_messages(message *first) {
    for (message *m = first, *next; m; m = next) next = m->next, free(m->data), free(m->block), free(m);
}

static void free_task(task *t) {
    free_messages(t->messages);
    free(t->values);
}

void gerfmuod_mpi_close(gerfmuod_mpi *graph) {
    if (!graph) return;
    (void)!gerfmuod_part_call(&graph->part, GERFMUOD_PART_CLOSE, 0).refused;
    for (uint32_t k = 0; k < graph->tasks_count; k++) free_task(&graph->tasks[k]);
    for (uint32_t k = 0; k < graph->data_count; k++) free(graph->data[k]);
    for (uint32_t k = 0; k < graph->arrivals_count; k++) free(graph->arrivals[k].of->at), free(graph->arrivals[k].of);
    free(graph->tasks), free(graph->data), free(graph->arrivals), free(graph->receipts), free(graph->hashes);
    free(graph->due.at), free(graph->taken.at);
    free_messages(graph->stops);
    free(graph->sent_to), free(graph->received_from);
    pthread_cond_destroy(&graph->work);
    pthread_mutex_destroy(&graph->lock);
    MPI_Comm_free(&graph->communicator);
    free(graph);
}

/* ---- the detector */
uint32_t gerfmuod_mpi_detector_open(gerfmuod_mpi_detector *detector, MPI_Comm communicator) {
    int me, processes;
    for (int k = 0; k < 2; k++) AWAIT(MPI_Comm_idup(communicator, &detector->communicators[k], &request));
    for (int k = 0; k < 4; k++) detector->requests[k] = MPI_REQUEST_NULL;
    MPI_Comm_rank(communicator, &me);
    MPI_Comm_size(communicator, &processes);
    return gerfmuod_process_init(&detector->process, (uint32_t)me, (uint32_t)processes);
}

MPI_Comm gerfmuod_mpi_detector_communicator(const gerfmuod_mpi_detector *detector) {
    return detector->communicators[detector->process.epoch & 1];
}

/* Sends a control message from a place that is free, or becomes free: a process has few in flight. */
static void send_control(gerfmuod_mpi_detector *detector, const gerfmuod_control_message *message) {
    int k, is_free = 0;
    for (k = 0; k < 4 && !is_free; k++) MPI_Test(&detector->requests[k], &is_free, MPI_STATUS_IGNORE);
    if (is_free) k--;
    else MPI_Waitany(4, detector->requests, &k, MPI_STATUS_IGNORE);
    detector->control[k] = *message;
    MPI_Isend(&detector->control[k], sizeof *message, MPI_BYTE, (int)message->to, GERFMUOD_MPI_FIRST_TAG,
              gerfmuod_mpi_detector_communicator(detector), &detector->requests[k]);
}

/* Sends what is due; returns what gerfmuod_process_next returned last. */
static uint32_t send_all_due(gerfmuod_mpi_detector *detector) {
    gerfmuod_control_message message;
    uint32_t next;
    while ((next = gerfmuod_process_next(&detector->process, &message)) == GERFMUOD_PROCESS_SEND) send_control(detector, &message);
    return next;
}

/* Looks for a message, and takes control messages; *has_ended says whether the epoch has ended. */
static uint32_t look(gerfmuod_mpi_detector *detector, int *has_message, MPI_Status *status, bool *has_ended) {
    MPI_Comm communicator = gerfmuod_mpi_detector_communicator(detector);
    gerfmuod_control_message message;
    for (uint32_t next, refused;;) {
        *has_message = 0;
        if ((next = send_all_due(detector)) > 100) return next;
        if ((*has_ended = next == GERFMUOD_PROCESS_ENDED)) return GERFMUOD_OK;
        MPI_Iprobe(MPI_ANY_SOURCE, MPI_ANY_TAG, communicator, has_message, status);
        if (!*has_message || status->MPI_TAG != GERFMUOD_MPI_FIRST_TAG) return GERFMUOD_OK;
        MPI_Recv(&message, sizeof message, MPI_BYTE, status->MPI_SOURCE, GERFMUOD_MPI_FIRST_TAG, communicator, MPI_STATUS_IGNORE);
        if ((refused = gerfmuod_process_take(&detector->process, &message))) return refused;
    }
}

uint32_t gerfmuod_mpi_detector_test(gerfmuod_mpi_detector *detector, int *has_message, MPI_Status *status) {
    bool has_ended;
    return look(detector, has_message, status, &has_ended);
}

uint32_t gerfmuod_mpi_detector_wait(gerfmuod_mpi_detector *detector, int *has_message, MPI_Status *status) {
    uint32_t polls = SPINS, refused;
    for (bool has_ended = false;; pause_after(&polls))
        if ((refused = look(detector, has_message, status, &has_ended)) || *has_message || has_ended) return refused;
}

uint32_t gerfmuod_mpi_detector_reopen(gerfmuod_mpi_detector *detector) { return gerfmuod_process_reopen(&detector->process); }

void gerfmuod_mpi_detector_close(gerfmuod_mpi_detector *detector) {
    for (int k = 0; k < 4; k++) gerfmuod_mpi_await(&detector->requests[k]);
    for (int k = 0; k < 2; k++) MPI_Comm_free(&detector->communicators[k]);
}
