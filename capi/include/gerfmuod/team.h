/* gerfmuod/team.h: runs a task graph on POSIX threads. A team is a graph of gerfmuod/graph.h with a lock and threads that wait.
 *
 *     gerfmuod_team *team;
 *     uint32_t root, last;
 *     if (gerfmuod_team_open(&team)) return 1;
 *     uint32_t refused = gerfmuod_team_task(team, 0, NULL, 0, &root);
 *     if (!refused) refused = gerfmuod_team_task(team, 0, &root, 1, &last); // reads what root makes
 *     if (!refused) refused = gerfmuod_team_run(team, 4, body, context);
 *     if (refused) printf("task %u: %s\n", gerfmuod_team_failed(team), gerfmuod_refusal_text(refused));
 *     gerfmuod_team_close(team);
 *
 * Which task a thread runs, when it waits and whom it wakes is decided by gerfmuod/graph.h, which says what is proved. This
 * file and gerfmuod_team.c have the lock, the waiting and the times; they are C, tested and not proved. Every function except
 * open, close, record, run, run_async, again, reset, clear, profile and summary may be called by several threads at once, also from
 * a body, and by threads that run no tasks. Each returns GERFMUOD_OK or the refusal, an enum gerfmuod_refusal. A refused call changes
 * nothing, unless it says so.
 *
 * A body returns to its caller. One that leaves by longjmp or pthread_exit does not end its task, and the run never ends; a fork in
 * a body is fine if the child calls nothing of this library.
 *
 * All is here since 0.1.0. Link with -lgerfmuod -pthread.
 */
#ifndef GERFMUOD_TEAM_H
#define GERFMUOD_TEAM_H

#include "graph.h"

#include <stdio.h>

#ifdef __cplusplus
extern "C" {
#endif

typedef struct gerfmuod_team gerfmuod_team;

/* The body of all tasks: runs one of them. Returns 0 if the task is done; another value if it failed, and the team stops. */
typedef int (*gerfmuod_team_body)(void *context, uint32_t task);

/* Opens a team with an empty graph. Refused: NO_MEMORY. *team is then NULL. */
GERFMUOD_CHECKED uint32_t gerfmuod_team_open(gerfmuod_team **team);

/* The same, but the team keeps the events of each run for gerfmuod_team_trace: a run may have at most 349,522 tasks. */
GERFMUOD_CHECKED uint32_t gerfmuod_team_open_traced(gerfmuod_team **team);

/* Frees the team. A run of gerfmuod_team_run_async is stopped. No thread may be in a call on it. NULL is ignored. */
void gerfmuod_team_close(gerfmuod_team *team);

/* ---- describing */

/* Adds a task of a class 0 to 3 that reads what `count` earlier tasks make, before a run or in it, and writes its number to
 * *number, unless that is NULL. Refused: the fault that ended the team; and as gerfmuod_graph_spawn. */
GERFMUOD_CHECKED uint32_t gerfmuod_team_task(gerfmuod_team *team, uint32_t class_, const uint32_t *inputs, size_t count,
                                             uint32_t *number);

/* Describes a whole graph as arrays, all or nothing. Task t is of class classes[t], or of class 0 if `classes` is NULL, and reads
 * what the tasks inputs[offsets[t]] to inputs[offsets[t + 1] - 1] make, whose numbers are below t. `offsets` has tasks + 1
 * elements. Refused as gerfmuod_graph_describe; the first task that cannot be added, or 0, is written to *at, unless that is NULL. */
GERFMUOD_CHECKED uint32_t gerfmuod_team_describe(gerfmuod_team *team, uint32_t tasks, const uint8_t *classes,
                                                 const uint32_t *offsets, const uint32_t *inputs, uint32_t *at);

/* Called with the number of a new task, before it can run and while the team's lock is held: stores what its body needs. It
 * makes no call on the team. */
typedef void (*gerfmuod_team_attach)(void *data, uint32_t task);

/* gerfmuod_team_task for a task that also awaits `outside` inputs from outside, or whose body needs data of its own: before the
 * task can run, attach(data, its number) is called, unless `attach` is NULL. Bodies call this to make further tasks. A body that
 * is refused can do the work of the task itself. */
GERFMUOD_CHECKED uint32_t gerfmuod_team_spawn(gerfmuod_team *team, uint32_t class_, const uint32_t *inputs, size_t count,
                                              uint32_t outside, gerfmuod_team_attach attach, void *data, uint32_t *number);

/* One more data handle, before a run or in it: a piece of data that tasks access by gerfmuod_team_task_on. Its number is written to
 * *handle. Refused: the fault that ended the team; and as GERFMUOD_GRAPH_HANDLE. */
GERFMUOD_CHECKED uint32_t gerfmuod_team_handle(gerfmuod_team *team, uint32_t *handle);

/* gerfmuod_team_spawn for a task that names the data it accesses, instead of its inputs: it waits for what the sequential program
 * needs, whose tasks are those of this function in the order of the calls. Threads that make such tasks at once are in no order
 * unless the program orders them. A recorded run with such a task has no critical path in its texts. Refused: as gerfmuod_graph_task,
 * BAD_SPEC before the fault that ended the team. */
GERFMUOD_CHECKED uint32_t gerfmuod_team_task_on(gerfmuod_team *team, uint32_t class_, const gerfmuod_access *accesses, size_t count,
                                                uint32_t outside, gerfmuod_team_attach attach, void *data, uint32_t *number);

/* One more input from outside for a task, such as a message, a timer or a device: the task does not run before
 * gerfmuod_team_release was called once for each of them. The call is valid before a run, and in it for a task that still waits:
 * a body can begin a transfer, and let a task that reads what the body makes wait for the transfer, too. Refused: the fault that
 * ended the team; and as GERFMUOD_GRAPH_OUTSIDE. */
GERFMUOD_CHECKED uint32_t gerfmuod_team_outside(gerfmuod_team *team, uint32_t task);

/* One input from outside of a task is there. The task sees what the calling thread wrote before. While inputs are awaited,
 * threads that find no task sleep; if an input never comes, gerfmuod_team_run returns only after gerfmuod_team_stop. Refused: the
 * fault that ended the team; and as GERFMUOD_GRAPH_RELEASE. */
GERFMUOD_CHECKED uint32_t gerfmuod_team_release(gerfmuod_team *team, uint32_t task);

/* ---- running */

/* Runs all tasks on `threads` threads, the caller among them, and returns when all are done. The others are created by the
 * first run that needs them, and stay until the team is closed: between runs they sleep. Refused before any body runs: as
 * GERFMUOD_GRAPH_START, and NOT_STARTED or NO_MEMORY, after which the team may be run again. After bodies ran: the fault that
 * ended the team, STOPPED if a body failed. */
GERFMUOD_CHECKED uint32_t gerfmuod_team_run(gerfmuod_team *team, uint32_t threads, gerfmuod_team_body body, void *context);

/* The same on `threads` other threads: it returns at once. Until these have left the run, gerfmuod_team_run, again, reset, clear and
 * record are refused as RUNNING. Refused as gerfmuod_team_run before any body runs. */
GERFMUOD_CHECKED uint32_t gerfmuod_team_run_async(gerfmuod_team *team, uint32_t threads, gerfmuod_team_body body, void *context);

/* Waits until the threads of gerfmuod_team_run_async have left the run, or for that number of milliseconds. Not for a body. Returns as
 * gerfmuod_team_run after bodies ran, or RUNNING if the time is over. */
#define GERFMUOD_TEAM_NO_LIMIT UINT32_MAX
GERFMUOD_CHECKED uint32_t gerfmuod_team_wait(gerfmuod_team *team, uint32_t milliseconds);

/* Returns the number of tasks that are not done, such as for a line of progress. */
GERFMUOD_CHECKED uint32_t gerfmuod_team_left(gerfmuod_team *team);

/* The same graph once more, after a run that ended: gerfmuod_team_run or gerfmuod_team_start may be called again, with any
 * number of threads. Inputs from outside have to be announced again, by gerfmuod_team_outside after this call. The trace is that of
 * the new run. Refused: as GERFMUOD_GRAPH_AGAIN. */
GERFMUOD_CHECKED uint32_t gerfmuod_team_again(gerfmuod_team *team);

/* The same, also after a run that was stopped or failed: its fault is forgotten, and its tasks count as never run. With threads of your
 * own: call it when none of them runs a body. Refused: RUNNING if the run has not ended; WRONG_LIFE if a task was added in a run. */
GERFMUOD_CHECKED uint32_t gerfmuod_team_reset(gerfmuod_team *team);

/* An empty graph again, for a new description: as a team that was just opened, but its threads stay, and so does that it records. For
 * the time after a run, or before one, whatever came of it; with threads of your own, when none of them runs a body. Handles count from
 * 0 again. Refused: RUNNING if a run has not ended. */
GERFMUOD_CHECKED uint32_t gerfmuod_team_clear(gerfmuod_team *team);

/* Ends the team because of a task, or of none (GERFMUOD_GRAPH_NONE): each turn, also one that waits, is then refused as STOPPED.
 * If all tasks are done, or the team has ended, nothing changes. */
void gerfmuod_team_stop(gerfmuod_team *team, uint32_t task);

/* Returns the fault that ended the team, or GERFMUOD_OK; and the task that it is about, or GERFMUOD_GRAPH_NONE. */
GERFMUOD_CHECKED uint32_t gerfmuod_team_fault(gerfmuod_team *team);
GERFMUOD_CHECKED uint32_t gerfmuod_team_failed(gerfmuod_team *team);

/* ---- with your own threads, such as those of OpenMP or Python, instead of gerfmuod_team_run */

/* All tasks are described, and will run on `threads` of your threads. Turns that began earlier wait for this call. Refused: as
 * GERFMUOD_GRAPH_START; NO_MEMORY if the team records. */
GERFMUOD_CHECKED uint32_t gerfmuod_team_start(gerfmuod_team *team, uint32_t threads);

/* One turn of a thread: reports the task that it ran as done (or GERFMUOD_GRAPH_NONE: none), and returns the next one. It waits
 * until a task is ready or the run is over: `next` of the result is GERFMUOD_GRAPH_RUN, with the task in `number`, or OVER. A
 * refused turn has the fault in `refused` and its task in `number`: the thread has to leave. To report a task that does not run is
 * a fault, which ends the team. */
GERFMUOD_CHECKED gerfmuod_graph_result gerfmuod_team_turn(gerfmuod_team *team, uint32_t done);

/* The same in two calls, for a thread that holds what others need, such as the lock of an interpreter, and lets go of it to wait. The
 * first one never waits for a task: if none is ready, `next` is GERFMUOD_GRAPH_SLEEP, and the turn goes on in the second call, which
 * the thread has to make. Else the turn is over, and the result is that of gerfmuod_team_turn, as that of the second call always is. */
GERFMUOD_CHECKED gerfmuod_graph_result gerfmuod_team_try_turn(gerfmuod_team *team, uint32_t done);
GERFMUOD_CHECKED gerfmuod_graph_result gerfmuod_team_await_turn(gerfmuod_team *team);

/* ---- what a run did */

/* Writes the events of the run as a trace of one node, which `tp audit` judges: at most `length` bytes with a zero byte at the
 * end. Returns the length of the whole text without that byte, as snprintf does. A task that was added in the run is inserted at the
 * beginning. The text is empty if the team is not traced. */
size_t gerfmuod_team_trace(gerfmuod_team *team, char *buffer, size_t length);

/* Records each later run: when each body begins and ends and on which thread, and when threads wait. A thread writes into memory
 * of its own, while it holds the team's lock, and keeps its newest `slices` bodies and waits, of 24 bytes each. 0 ends recording.
 * While a team records, its graph takes 2 bytes more for a task and 8 for an input, and a run is also refused as NO_MEMORY if
 * there is no memory for the slices. Refused: as GERFMUOD_GRAPH_MAY_RECORD; WRONG_LIFE if there is a task; NO_MEMORY. */
GERFMUOD_CHECKED uint32_t gerfmuod_team_record(gerfmuod_team *team, uint32_t slices);

/* Writes the last run in Chrome's trace event format, JSON for viewers of timelines: a track for each thread that was announced,
 * with a slice for each body (its task and class) and for each wait. Times are microseconds since the run's start, which
 * `otherData` has as `start_ns` of CLOCK_MONOTONIC. It also has the numbers of gerfmuod_team_summary; `lost_slices`, the number of
 * those that newer ones replaced; and `clock_went_back`: how often a thread read a time before its last one, which was taken
 * instead, so that no duration is negative. Refused: RUNNING if the run has not ended; WRONG_LIFE if no run was recorded, or if
 * gerfmuod_team_again was called since; NO_MEMORY, and nothing was written; NOT_WRITTEN if the stream fails, which may have taken a
 * part. */
GERFMUOD_CHECKED uint32_t gerfmuod_team_profile(gerfmuod_team *team, FILE *file);

/* Prints a line for each thread of the last run: the number of its tasks, and which shares of its time, since its first turn,
 * were bodies, waiting for a task, and the rest: taking and reporting tasks, and waiting for the lock. The last line has the
 * time of the run and, if the times of all bodies are known, that of the critical path: the longest chain of bodies that wait
 * for each other. With any number of threads, a run of these bodies takes at least as long. Refused as gerfmuod_team_profile. */
GERFMUOD_CHECKED uint32_t gerfmuod_team_summary(gerfmuod_team *team, FILE *file);

#ifdef __cplusplus
}
#endif
#endif
