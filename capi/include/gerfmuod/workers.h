/* gerfmuod/workers.h: runs tasks that make tasks, and task graphs, on workers: threads of one process with a list of tasks and a lock
 * each. A worker whose list is empty takes tasks from those of others, so short bodies do not wait for one lock. Over processes:
 * gerfmuod/mpi_pool.h.
 *
 *     static int visit(gerfmuod_worker *worker, void *node) { .. return gerfmuod_worker_spawn(worker, visit, child) != 0; }
 *
 *     gerfmuod_workers *workers;
 *     uint32_t refused = gerfmuod_workers_open(&workers, 4);
 *     if (!refused) refused = gerfmuod_workers_spawn(workers, visit, root);
 *     if (!refused) refused = gerfmuod_workers_run(workers);
 *     gerfmuod_workers_close(workers);
 *
 * A task runs once, on any worker; of its own tasks a worker runs the newest first. Each worker is a process of gerfmuod/process.h, and a
 * task that goes to another worker is a message: so the counts and the detector of that header, where it says what is proved, decide
 * when no task is left. The lists, the locks and the waiting are C in gerfmuod_workers.c, tested and not proved.
 *
 * A graph of tasks that wait for each other's results runs by gerfmuod_workers_run_graph, without one lock for which all threads wait. When
 * a task of it is ready is decided by gerfmuod_graph_arrive of gerfmuod/graph.h, which says what is proved. A team of gerfmuod/team.h has
 * what workers lack: tasks of a graph that are added in a run, classes, data handles, inputs from outside, and records.
 *
 * One thread at a time calls open, spawn of workers, run, run_graph and close, and no body does. Each call returns GERFMUOD_OK or the
 * refusal, an enum gerfmuod_refusal. A refused call changes nothing, but for a run. All is here since 0.1.0. Link with -lgerfmuod -pthread.
 */
#ifndef GERFMUOD_WORKERS_H
#define GERFMUOD_WORKERS_H

#include "graph.h"
#include "process.h"

#ifdef __cplusplus
extern "C" {
#endif

typedef struct gerfmuod_workers gerfmuod_workers;
typedef struct gerfmuod_worker gerfmuod_worker;

/* A body: runs a task. It may make others by `worker`, until it returns. Returns 0, or another number if it failed: the run is then
 * stopped. It returns to its caller. */
typedef int (*gerfmuod_worker_body)(gerfmuod_worker *worker, void *argument);

/* Opens workers without tasks: `threads` threads, with the caller's, which stay until they are closed. Refused: NO_THREAD if `threads` is
 * 0; NO_MEMORY; NOT_STARTED if the operating system started too few threads. *workers is then NULL. */
GERFMUOD_CHECKED uint32_t gerfmuod_workers_open(gerfmuod_workers **workers, uint32_t threads);

/* Frees the workers, with the tasks that were made after the last run. NULL is ignored. */
void gerfmuod_workers_close(gerfmuod_workers *workers);

/* Makes a task before a run; the workers get such tasks in turn. Refused: NO_MEMORY. */
GERFMUOD_CHECKED uint32_t gerfmuod_workers_spawn(gerfmuod_workers *workers, gerfmuod_worker_body body, void *argument);

/* Makes a task in a body, on its thread. Refused: STOPPED if a body of this run failed, as far as this worker knows; NO_MEMORY. */
GERFMUOD_CHECKED uint32_t gerfmuod_worker_spawn(gerfmuod_worker *worker, gerfmuod_worker_body body, void *argument);

/* The number of the worker that runs a body, from 0, for memory that no other body uses at the same time. */
uint32_t gerfmuod_worker_number(const gerfmuod_worker *worker);

/* Runs all tasks, and those that they make. Returns when none is left, or when a body failed and those that ran have returned: tasks
 * that did not run are then dropped. Workers may run several times. Refused: STOPPED if a body failed. */
GERFMUOD_CHECKED uint32_t gerfmuod_workers_run(gerfmuod_workers *workers);

/* The body of all tasks of a graph: runs one of them, and makes none. Returns 0 if the task is done, or another number if it failed: the
 * run is then stopped. It returns to its caller. (The type is that of gerfmuod_team_body.) */
typedef int (*gerfmuod_graph_body)(void *context, uint32_t task);

/* Runs a graph of `tasks` tasks, and the tasks that were made by spawn, with all that these make. Task t reads what the tasks
 * inputs[offsets[t]] to inputs[offsets[t + 1] - 1] make, whose numbers are below t: it runs once, after their bodies have returned 0, on
 * any worker, and sees what they wrote. `offsets` has tasks + 1 elements, from 0 on; `inputs` may be NULL if there are none. No array is
 * read once a body runs. Returns as gerfmuod_workers_run does. Workers may run any number of graphs, each by a call that describes it.
 *
 * Refused before any body runs, for the first reason that applies; tasks made by spawn are then kept. BAD_SPEC if the first offset is not
 * 0, or the last one is not and `inputs` is NULL; HISTORY_FULL if there are more than GERFMUOD_GRAPH_MAX_LINKED tasks or inputs. Then, for
 * the first task that cannot be added: BAD_SPEC if its offsets decrease or pass the last one; NO_TASK if an input is not below its number.
 * NO_MEMORY, also before the others. The first task that cannot be added, or 0, is written to *at, unless that is NULL.
 *
 * After bodies ran: STOPPED if one failed. Then no task has run that reads what the failed one makes, nor one that waits for such a task.
 * Other tasks of the graph may have run, or may not; those that did not are dropped. */
GERFMUOD_CHECKED uint32_t gerfmuod_workers_run_graph(gerfmuod_workers *workers, uint32_t tasks, const uint32_t *offsets,
                                                     const uint32_t *inputs, gerfmuod_graph_body body, void *context, uint32_t *at);

/* After a run that returned STOPPED: which body failed first. It is that of the task of this argument, unless it is that of a graph's
 * task: then `failed` is NULL, and `failed_task` its number. Otherwise `failed_task` is GERFMUOD_GRAPH_NONE. */
void *gerfmuod_workers_failed(const gerfmuod_workers *workers);
uint32_t gerfmuod_workers_failed_task(const gerfmuod_workers *workers);

/* Between runs: how many tasks ran, of graphs too, and how many tasks went to another worker before they ran, over all runs. */
uint64_t gerfmuod_workers_ran(const gerfmuod_workers *workers);
uint64_t gerfmuod_workers_moved(const gerfmuod_workers *workers);

#ifdef __cplusplus
}
#endif
#endif
