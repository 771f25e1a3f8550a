/* gerfmuod/parts.h: runs a task graph on threads in 1 to 64 parts of one process. Each part has a lock, a mailbox and threads of its
 * own, and no lock is common to all: for a machine whose threads would wait for the one lock of a team (gerfmuod/team.h), and for
 * tasks that should stay near their data.
 *
 *     gerfmuod_parts *parts;
 *     uint32_t value, refused = gerfmuod_parts_open(&parts, 2);
 *     if (!refused) refused = gerfmuod_parts_handle(parts, &value);
 *     if (!refused) refused = gerfmuod_parts_task_on(parts, 0, 0, (gerfmuod_access[]){{value, GERFMUOD_WRITE}}, 1, NULL);
 *     if (!refused) refused = gerfmuod_parts_task_on(parts, 1, 0, (gerfmuod_access[]){{value, GERFMUOD_READ}}, 1, NULL);
 *     if (!refused) refused = gerfmuod_parts_run(parts, 2, body, context); // 2 threads in each part
 *     gerfmuod_parts_close(parts);
 *
 * A task runs once, on a thread of the part that it was described for, after the tasks that it waits for, also those of other parts: their
 * part then sends a message with the number of the task. All bodies use the same memory, so a message carries no value, and nothing is
 * copied. What runs next, and which message goes where, is decided by gerfmuod/part.h, which says what is proved. This file and
 * gerfmuod_parts.c have the locks, the messages and the waiting; they are C, tested and not proved.
 *
 * One call on a graph at a time. Each returns GERFMUOD_OK or the refusal, an enum gerfmuod_refusal. A refused call changes nothing, but
 * for a run.
 * All is here since 0.1.0. Link with -lgerfmuod -pthread.
 */
#ifndef GERFMUOD_PARTS_H
#define GERFMUOD_PARTS_H

#include "part.h"
#include "team.h"

#ifdef __cplusplus
extern "C" {
#endif

/* The most parts of a graph. */
#define GERFMUOD_MAX_PARTS 64u

typedef struct gerfmuod_parts gerfmuod_parts;

/* Opens a graph without tasks, over parts that are numbered from 0. Refused: BAD_SPEC if `count` is not 1 to 64; NO_MEMORY. *parts is then
 * NULL. */
GERFMUOD_CHECKED uint32_t gerfmuod_parts_open(gerfmuod_parts **parts, uint32_t count);

/* Frees the graph. NULL is ignored. */
void gerfmuod_parts_close(gerfmuod_parts *parts);

/* One more data handle. Its number is written to *handle. Refused: as GERFMUOD_PART_HANDLE. */
GERFMUOD_CHECKED uint32_t gerfmuod_parts_handle(gerfmuod_parts *parts, uint32_t *handle);

/* Adds a task of a part and of a class 0 to 3 that reads what `count` earlier tasks make, and writes its number to *number, unless that
 * is NULL. Refused: as gerfmuod_part_task (NO_NODE if there is no such part). */
GERFMUOD_CHECKED uint32_t gerfmuod_parts_task(gerfmuod_parts *parts, uint32_t part, uint32_t class_, const uint32_t *inputs,
                                              size_t count, uint32_t *number);

/* The same for a task that names the data it accesses, instead of its inputs. Refused: as gerfmuod_part_shared_task. */
GERFMUOD_CHECKED uint32_t gerfmuod_parts_task_on(gerfmuod_parts *parts, uint32_t part, uint32_t class_, const gerfmuod_access *accesses,
                                                 size_t count, uint32_t *number);

/* The threads of the run will be bound to one processor each: those of part 0 to the first ones that this process may use, then those of
 * part 1, and so on; after the last processor from the first one on. The first ones are one of each core, by packages and cores, then come
 * the second ones of each core. Linux alone; elsewhere nothing happens. */
void gerfmuod_parts_bind(gerfmuod_parts *parts);

/* Runs the graph on `threads` threads in each part, one of which, in part 0, is the caller's. Returns when all tasks are done, or when a
 * body returned another number than 0 and all bodies have returned. A graph runs once: also after a run that was refused for one of
 * the last three reasons. Refused, with no body run but for the last one: WRONG_LIFE if the graph ran; NO_THREAD if `threads` is 0;
 * NO_MEMORY; NOT_STARTED if the operating system started too few threads; STOPPED if a body failed. */
GERFMUOD_CHECKED uint32_t gerfmuod_parts_run(gerfmuod_parts *parts, uint32_t threads, gerfmuod_team_body body, void *context);

/* After a run that returned STOPPED: the task whose body failed first; else GERFMUOD_GRAPH_NONE. */
uint32_t gerfmuod_parts_failed(const gerfmuod_parts *parts);

/* After a run: how many messages went from part to part. */
uint64_t gerfmuod_parts_messages(const gerfmuod_parts *parts);

#ifdef __cplusplus
}
#endif
#endif
