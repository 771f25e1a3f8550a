/* gerfmuod/graph.h: the decisions of a task graph that runs on threads: which task a thread runs, when it waits, and which
 * waiting threads are signalled. It has no lock, starts no thread and never waits: that is for the caller. gerfmuod/team.h has
 * all of it over POSIX threads; begin there. This header is for programs with their own locks and threads.
 *
 * You describe a graph: tasks, and for each task the earlier tasks that it reads (its inputs). Or you name the data that each task
 * reads and writes by handles, and the graph infers its inputs. A task may also wait for inputs from outside, such as a message or
 * a timer. Then each thread takes turns. A turn reports the task that the thread ran, and
 * returns what it is to do next: run a task, spin, sleep, or leave. Each call also returns how many sleeping threads the caller
 * has to signal. The graph never sees your data.
 *
 * Proved, for every sequence of calls that come one at a time, whatever their arguments:
 *   - in each run, a task is returned at most once, and only after each of its inputs was reported as done and each of its
 *     inputs from outside was released. Of the ready tasks it is one of the lowest class;
 *   - a turn returns OVER only if each task was returned and reported as done, and every turn does once that is so, unless the
 *     graph was ended by a fault; a turn returns SPIN or SLEEP only if no task is ready and not all are done;
 *   - no silent wait: if no task runs, none awaits an input from outside and not all are done, then some task is ready;
 *   - no lost wake-up: if a task is ready and a thread sleeps, then some thread spins or was signalled; once the run or the
 *     graph has ended, each sleeping thread was signalled. This counts threads that come back as their turns returned;
 *   - a task that accesses handles waits for what the order of the description needs: one that reads a handle, for its last writer; one
 *     that writes it, for the tasks that read it since or, if there are none, for that writer. If each body touches only what its task
 *     names, every run leaves in the data what the sequential program leaves;
 *   - a call is refused exactly if a reason named below applies, the first that does, or if memory ran out, and then changes
 *     nothing. First NO_POOL if the graph is not open; then, except for CLOSE, RESET and the readers, the fault that ended the graph, if
 *     there is one. Only a turn that reports a task that does not run changes the graph: it ends it;
 *   - each field of a result is as described below.
 *
 * Not proved: anything about time, or that a thread makes a call. Tested: ready tasks of one class are returned in the order in
 * which they became ready. Preconditions, which nothing checks:
 *   - one call on a graph at a time: protect the calls with a mutex. Different graphs may be used at the same time;
 *   - the memory of a graph that was opened, at an address that is a multiple of 8. No other code reads or writes it;
 *   - an array has the length that is passed with it. NULL is valid if that is 0;
 *   - a turn is made after the last write of the body that it reports, and before the first read of the body that it returns. The
 *     mutex then orders them (happens-before).
 *
 * Tasks are counted from 0 in the order in which they were added. All is here since 0.1.0. Link with -lgerfmuod.
 */
#ifndef GERFMUOD_GRAPH_H
#define GERFMUOD_GRAPH_H

#include "refusals.h"

#include <stdbool.h>
#include <stddef.h>
#include <stdint.h>

#ifdef __cplusplus
extern "C" {
#endif

/* The classes of tasks, 0 to 3. Of the tasks that are ready, those of a lower class are returned first. */
#define GERFMUOD_GRAPH_CLASSES 4u
/* No task has this number. */
#define GERFMUOD_GRAPH_NONE UINT32_MAX
/* The most tasks, and the most inputs, of a graph; the most inputs from outside that a task awaits. */
#define GERFMUOD_GRAPH_MAX_TASKS 134217728u
#define GERFMUOD_GRAPH_MAX_INPUTS 536870912u
#define GERFMUOD_GRAPH_MAX_OUTSIDE 1048576u
/* The most data handles. */
#define GERFMUOD_GRAPH_MAX_HANDLES 134217728u
/* The most steps of a traced run: 3 for each task and 10, so that 349,522 tasks fit. */
#define GERFMUOD_GRAPH_MAX_STEPS 1048576u
/* The most threads that wait after a turn. */
#define GERFMUOD_GRAPH_MAX_THREADS 4194304u

/* The memory of a graph: on the stack, in a struct, or on the heap. */
typedef struct gerfmuod_graph {
    uint64_t words[64];
} gerfmuod_graph;

/* What a turn returns to its thread. */
enum gerfmuod_graph_next {
    GERFMUOD_GRAPH_NOTHING = 0, /* the call was no turn, or it was refused */
    GERFMUOD_GRAPH_RUN = 1,     /* run the task `number`, and report it in the next turn */
    GERFMUOD_GRAPH_SPIN = 2,    /* unlock, pause, lock, and come back by GERFMUOD_GRAPH_TURN_SPUN */
    GERFMUOD_GRAPH_SLEEP = 3,   /* wait for the condition variable, and come back by GERFMUOD_GRAPH_TURN_WOKEN */
    GERFMUOD_GRAPH_OVER = 4     /* leave: all tasks are done */
};

/* The result of a call, by value. A refused call has `next` and `signals` 0, except a turn, which may have signals. */
typedef struct gerfmuod_graph_result {
    uint32_t refused; /* GERFMUOD_OK, or an enum gerfmuod_refusal: why the call was refused */
    uint32_t next;    /* an enum gerfmuod_graph_next, or as the call says */
    uint32_t number;  /* as the call says; if another call than a turn or describe is refused as HISTORY_FULL, the limit; else 0 */
    uint32_t signals; /* how many sleeping threads to signal before the mutex is unlocked */
} gerfmuod_graph_result;

/* Opens a graph without a task, for a machine that runs `processors` threads at once: a turn returns SPIN only if the run has no
 * more threads. If `is_traced` is not 0, the graph keeps the events of each run. Allocates nothing. Do not open a graph that is
 * open: what it allocated would be lost. */
void gerfmuod_graph_open(gerfmuod_graph *graph, uint32_t is_traced, uint32_t processors);

/* Describes a whole graph of offsets_count - 1 tasks, all or nothing. Task t is of class classes[t], or of class 0 if there are no
 * classes, and reads the tasks inputs[offsets[t]] to inputs[offsets[t + 1] - 1]. Refused, for the first reason that applies, with
 * 0 in `number`: WRONG_LIFE if a run was started or there is a task; BAD_SPEC if there is no offset, or if there are classes but not
 * one for each task. Then with the first task that cannot be added in `number`: BAD_SPEC if its class is above 3, or its offsets
 * decrease or pass the end of `inputs`; NO_TASK if an input is not below its number; HISTORY_FULL if there are too many tasks
 * or inputs. NO_MEMORY, with any number. */
GERFMUOD_CHECKED gerfmuod_graph_result gerfmuod_graph_describe(gerfmuod_graph *graph, const uint8_t *classes, size_t classes_count,
                                                               const uint32_t *offsets, size_t offsets_count,
                                                               const uint32_t *inputs, size_t inputs_count);

/* Adds one task, before a run or in it, with all that it waits for: all or nothing. It reads `count` earlier tasks; those that are
 * done count as nothing. It awaits `outside` inputs from outside. `number` of the result is its number. Refused, for the
 * first reason that applies: ENDED if all tasks of a run are done; BAD_SPEC if the class is above 3; NO_TASK if an input is not
 * the number of an earlier task; HISTORY_FULL with GERFMUOD_GRAPH_MAX_OUTSIDE, MAX_TASKS or MAX_INPUTS, or with MAX_STEPS if the
 * graph is traced, was started and the trace of the run would have more; NO_MEMORY. */
GERFMUOD_CHECKED gerfmuod_graph_result gerfmuod_graph_spawn(gerfmuod_graph *graph, uint32_t class_, const uint32_t *inputs,
                                                            size_t count, uint32_t outside);

/* What a task does with a handle. It may name a handle several times: then it does all of that. */
enum gerfmuod_mode {
    GERFMUOD_READ = 1,  /* reads the value, and leaves it */
    GERFMUOD_WRITE = 2, /* writes the whole value, and does not read the one before. A task that writes a part updates */
    GERFMUOD_UPDATE = 3 /* reads the value, and writes one */
};

typedef struct gerfmuod_access {
    uint32_t handle; /* as GERFMUOD_GRAPH_HANDLE returned it */
    uint32_t mode;   /* an enum gerfmuod_mode */
} gerfmuod_access;

/* Adds one task as gerfmuod_graph_spawn does. Its inputs are inferred from its `count` accesses and those of the tasks that this call
 * added before. Refused: BAD_SPEC if a mode is none or there is no such handle; then as gerfmuod_graph_spawn with these inputs, but
 * NO_MEMORY also before its other reasons. */
GERFMUOD_CHECKED gerfmuod_graph_result gerfmuod_graph_task(gerfmuod_graph *graph, uint32_t class_, const gerfmuod_access *accesses,
                                                           size_t count, uint32_t outside);

/* The other calls, with their two arguments; one that a call does not have is ignored. */
enum gerfmuod_graph_call {
    /* Frees what the graph allocated. It is then not open, and may be opened again. */
    GERFMUOD_GRAPH_CLOSE = 0,
    /* threads. Starts a run on `threads` threads: tasks may be returned. Signals all that sleep. Refused: if a run was started, RUNNING
     * if a turn has not returned or a task runs, else ENDED if all tasks are done, else WRONG_LIFE; NO_THREAD if `threads` is
     * 0; if the graph is traced, HISTORY_FULL with MAX_STEPS if the trace of all tasks would have more, and NO_MEMORY. */
    GERFMUOD_GRAPH_START = 1,
    /* done, polls. A turn of a thread that ran a task, or is new: reports task `done`, or GERFMUOD_GRAPH_NONE, and returns what
     * the thread does next. It is SPIN only if `polls` is not 0. A turn that began before the start waits for it. Once there
     * is a fault, every turn is refused as that fault, with its task, or GERFMUOD_GRAPH_NONE, in `number`. A task that does not
     * run is a fault: NO_TASK or WRONG_LIFE. HISTORY_FULL, with GERFMUOD_GRAPH_NONE, if a turn has to wait and MAX_THREADS do: the
     * graph goes on without this thread. */
    GERFMUOD_GRAPH_TURN = 2,
    /* done, polls. The same, of a thread whose turn returned SPIN. */
    GERFMUOD_GRAPH_TURN_SPUN = 3,
    /* done, polls. The same, of a thread whose turn returned SLEEP, and that was signalled or woke by itself. */
    GERFMUOD_GRAPH_TURN_WOKEN = 4,
    /* task, or GERFMUOD_GRAPH_NONE. Ends the graph because of it, with the fault STOPPED, and signals all that sleep. If all tasks
     * are done or there is a fault, nothing changes. Never refused but as NO_POOL. */
    GERFMUOD_GRAPH_STOP = 5,
    /* The same graph once more: START may be called again. Inputs from outside have to be announced again. Refused: RUNNING
     * if a turn has not returned or a task runs; WRONG_LIFE if not all tasks of a run are done, or if a task was added in it. */
    GERFMUOD_GRAPH_AGAIN = 6,
    /* task. One more input from outside for a task. Refused: NO_TASK; WRONG_LIFE if the task was returned, or if a run was started
     * and it is ready, so that it may be returned at any time; HISTORY_FULL with MAX_OUTSIDE if it awaits that many. */
    GERFMUOD_GRAPH_OUTSIDE = 7,
    /* task. One input from outside of a task is there. Refused: NO_TASK; WRONG_LIFE if the task awaits none. */
    GERFMUOD_GRAPH_RELEASE = 8,
    /* Refused exactly if no caller may begin or end to record times now: RUNNING if a turn has not returned or a task runs;
     * WRONG_LIFE if a run was started. Changes nothing. */
    GERFMUOD_GRAPH_MAY_RECORD = 9,
    /* A reader: `refused` is the fault and `number` its task or GERFMUOD_GRAPH_NONE; or GERFMUOD_OK and 0. */
    GERFMUOD_GRAPH_FAULT = 10,
    /* A reader: `number` is the number of tasks, and `next` that of the ready ones. */
    GERFMUOD_GRAPH_COUNT = 11,
    /* k. A reader: event k of this run, from 0, if the graph is traced. `next` is 1 if task `number` was returned, 2 if it was
     * reported as done, and 0 if there is no such event. */
    GERFMUOD_GRAPH_EVENT = 12,
    /* As AGAIN, also before a run, in one that was not finished and after a fault, which is forgotten: tasks count as never returned.
     * After a fault the graph does not know which bodies still run: make the call when all have returned. Refused: RUNNING if a turn has
     * not returned, or if a task runs and there is no fault; WRONG_LIFE if a task was added in a run. */
    GERFMUOD_GRAPH_RESET = 13,
    /* A reader: `number` is the number of tasks that are not done. */
    GERFMUOD_GRAPH_LEFT = 14,
    /* One more data handle, before a run or in it: `number` is its number, counted from 0. Refused: HISTORY_FULL with MAX_HANDLES;
     * NO_MEMORY. */
    GERFMUOD_GRAPH_HANDLE = 15
};

/* Makes a call that is named above. Refused: BAD_SPEC if there is none of this number. */
GERFMUOD_CHECKED gerfmuod_graph_result gerfmuod_graph_call(gerfmuod_graph *graph, uint32_t call, uint32_t first, uint32_t second);

/* ---- A graph whose threads share no lock
 *
 * The two functions below are for threads with a list of ready tasks each, as gerfmuod/workers.h has them: they replace all calls above.
 * The whole graph is known before it runs. gerfmuod_graph_link writes, for each task, the number of its missing inputs, and the chain of
 * the places in `inputs` that name it. The tasks with missing[t] == 0 are ready. A thread that has run a task passes that on:
 *
 *     for (uint32_t k = newest[task]; k != GERFMUOD_GRAPH_NO_INPUT; k = older[k]) {
 *         uint32_t reader = readers[k];
 *         lock(reader);
 *         bool is_ready = gerfmuod_graph_arrive(&missing[reader]);
 *         unlock(reader);
 *         if (is_ready) put(reader); // into a list of ready tasks, once
 *     }
 *
 * Tasks may share locks, as long as that of a task is the same for all threads. Proved, for every graph and every order in which threads
 * run ready tasks and pass on each one that is done, once:
 *   - a chain has each place in `inputs` that names its task, once, and no other, and ends with GERFMUOD_GRAPH_NO_INPUT;
 *   - a task becomes ready once, after each of its inputs is done. When nothing that is ready or has to be passed on is left, all tasks
 *     are done;
 *   - missing[t] is the number of inputs of task t that have not arrived; each call returns what is described below.
 * Not proved: that calls for a task come one at a time (its lock is for that), where ready tasks are kept, or how the end is noticed. */

/* No place in `inputs`: the end of a chain. */
#define GERFMUOD_GRAPH_NO_INPUT UINT32_MAX
/* The most tasks, and the most inputs, of a graph that is linked. */
#define GERFMUOD_GRAPH_MAX_LINKED 536870912u

/* Links a graph of offsets_count - 1 tasks: task t reads the tasks inputs[offsets[t]] to inputs[offsets[t + 1] - 1]. Writes the number of
 * missing inputs of each task to `missing`; the last place in `inputs` that names the task to `newest`; for each place in `inputs`, the
 * last one before it that names the same task to `older`, and the task that reads it to `readers`. The arrays do not overlap. Allocates
 * nothing. Refused, and nothing changes, for the first reason that applies. With 0 in `number`: BAD_SPEC if there is no offset, the first
 * one is not 0, the last one is not `inputs_count`, or an array that is written does not have the length of the tasks or the inputs;
 * HISTORY_FULL if there are more than GERFMUOD_GRAPH_MAX_LINKED. Then with the first task that has one in `number`: BAD_SPEC if its offsets
 * decrease or pass the end of `inputs`; NO_TASK if an input is not below its number. */
GERFMUOD_CHECKED gerfmuod_graph_result gerfmuod_graph_link(const uint32_t *offsets, size_t offsets_count, const uint32_t *inputs,
                                                           size_t inputs_count, uint32_t *missing, size_t missing_count,
                                                           uint32_t *newest, size_t newest_count, uint32_t *older, size_t older_count,
                                                           uint32_t *readers, size_t readers_count);

/* An input of a task has arrived: one less is missing, unless none is. Returns whether it was the last one, so that the task is ready. */
GERFMUOD_CHECKED bool gerfmuod_graph_arrive(uint32_t *missing);

/* With ThreadSanitizer, each of these two first reports what it reads and writes. */
#if defined(__SANITIZE_THREAD__)
#include "tsan.h"
#elif defined(__has_feature)
#if __has_feature(thread_sanitizer)
#include "tsan.h"
#endif
#endif

/* The library has the same sizes, which are proved. */
GERFMUOD_ASSERT(gerfmuod_graph_has_512_bytes, sizeof(gerfmuod_graph) == 512);
GERFMUOD_ASSERT(gerfmuod_graph_result_has_16_bytes, sizeof(gerfmuod_graph_result) == 16);
GERFMUOD_ASSERT(gerfmuod_access_has_8_bytes, sizeof(gerfmuod_access) == 8);

#ifdef __cplusplus
}
#endif
#endif
