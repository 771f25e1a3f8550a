/* gerfmuod/part.h: one part of a task graph that several processes run together: which task of this part runs next, which value goes
 * to which other part, and when the part is done. It has no lock, starts no thread, never waits and sends nothing: that is for the
 * caller. gerfmuod/mpi.h has all of it over MPI; begin there. This header is for programs with another transport.
 *
 * Each part describes all tasks of the graph, in the same order: for each its class, the part that owns it, and the earlier tasks
 * that it reads. Or it names the data that the task reads and writes by handles, and the inputs are inferred. A task runs at its
 * owner. If it reads a task of another part, that part sends it a message with the number of the task and its value. A task of
 * another part that concerns no task of this one costs no memory.
 *
 *     while ((r = gerfmuod_part_call(&part, GERFMUOD_PART_NEXT, 0)).next != GERFMUOD_PART_OVER) ..
 *
 * Proved, for every graph, all owners, any number of parts that describe it, and messages in any order, lost and doubled ones
 * included, if each part takes only messages that a call returned at some part:
 *   - over all parts, each task is returned at most once, at its owner, and each message is returned at most once;
 *   - a task is returned only after each task that it reads was reported as done at its owner and its value arrived here;
 *   - a part whose newest call returned OVER may leave: each message to it that a call returned at any part arrived;
 *   - no silent wait: if the newest call at each part returned WAIT or OVER, no task runs and no message is in flight, then each
 *     task of the graph is done, and each of these calls returned OVER;
 *   - all parts together return and take at most 2 calls for each task and 2 for each message. With the line above: all end;
 *   - the inputs of a task that accesses handles are those of gerfmuod/graph.h;
 *   - a call is refused exactly if a reason named below applies, the first that does, or if memory ran out, and then changes
 *     nothing. First NO_POOL if the part is not open. Parts that describe the same tasks refuse the same ones, but for memory;
 *   - each field of a result is as described below.
 *
 * Preconditions, which nothing checks: one call on a part at a time; the memory of a part that was opened, at an address that is a
 * multiple of 8, which no other code reads or writes; an array has the length that is passed with it. All parts describe the same
 * graph: a hash of the descriptions, compared before the start, finds out.
 *
 * Tasks are counted from 0 in the order in which they were described. All is here since 0.1.0. Link with -lgerfmuod.
 */
#ifndef GERFMUOD_PART_H
#define GERFMUOD_PART_H

#include "graph.h"

#ifdef __cplusplus
extern "C" {
#endif

/* The memory of a part: on the stack, in a struct, or on the heap. */
typedef struct gerfmuod_part {
    uint64_t words[64];
} gerfmuod_part;

/* What GERFMUOD_PART_NEXT returns. */
enum gerfmuod_part_next {
    GERFMUOD_PART_NOTHING = 0, /* the call was another, or it was refused */
    GERFMUOD_PART_RUN = 1,     /* run the task `number`, and report it by GERFMUOD_PART_DONE */
    GERFMUOD_PART_SEND = 2,    /* send the value of the task `number` to the part `to`, with this number */
    GERFMUOD_PART_WAIT = 3,    /* wait for a task that runs, or for a message */
    GERFMUOD_PART_OVER = 4     /* stop: all tasks of this part are done, all its messages were returned, and none is in flight to it */
};

/* The result of a call, by value. A refused call has `next` and `to` 0. */
typedef struct gerfmuod_part_result {
    uint32_t refused; /* GERFMUOD_OK, or an enum gerfmuod_refusal: why the call was refused */
    uint32_t next;    /* an enum gerfmuod_part_next */
    uint32_t number;  /* as the call says; if the call is refused as HISTORY_FULL, the limit; else 0 */
    uint32_t to;      /* at SEND the part that gets the message; else 0 */
} gerfmuod_part_result;

/* Opens part `number` of `parts`, without a task. Allocates nothing. Do not open a part that is open: what it allocated would be
 * lost. */
void gerfmuod_part_open(gerfmuod_part *part, uint32_t number, uint32_t parts);

/* Describes one more task of the whole graph: its class, the `count` tasks that it reads, and the part that owns it. `number` of the
 * result is its number. Refused, for the first reason that applies: WRONG_LIFE if the part was started; NO_NODE if there is no
 * such owner; BAD_SPEC if the class is above 3; NO_TASK if an input was not described before; HISTORY_FULL with
 * GERFMUOD_GRAPH_MAX_OUTSIDE if the task has more inputs, with MAX_TASKS if that many were described, with MAX_INPUTS if these would
 * have more inputs in all; NO_MEMORY. */
GERFMUOD_CHECKED gerfmuod_part_result gerfmuod_part_task(gerfmuod_part *part, uint32_t class_, const uint32_t *inputs, size_t count,
                                                         uint32_t owner);

/* Describes one more task, which accesses data: its inputs are inferred from its `count` accesses and those of the tasks that this
 * call described before. Refused: BAD_SPEC if a mode is none or there is no such handle; then as gerfmuod_part_task with these
 * inputs, but NO_MEMORY also before its other reasons. */
GERFMUOD_CHECKED gerfmuod_part_result gerfmuod_part_shared_task(gerfmuod_part *part, uint32_t class_, const gerfmuod_access *accesses,
                                                                size_t count, uint32_t owner);

/* The other calls; `task` is ignored by one that has none. */
enum gerfmuod_part_call {
    /* Frees what the part allocated. It is then not open, and may be opened again. */
    GERFMUOD_PART_CLOSE = 0,
    /* One more data handle: `number` is its number, counted from 0. Every part adds the same ones in the same order. Refused:
     * HISTORY_FULL with MAX_HANDLES; NO_MEMORY. */
    GERFMUOD_PART_HANDLE = 1,
    /* All tasks of the graph are described. Refused: WRONG_LIFE if the part was started. */
    GERFMUOD_PART_START = 2,
    /* What the part is to do next. Messages that are due come first, in the order in which their tasks were done; then a ready task of
     * the lowest class that has one. Refused: WRONG_LIFE if the part was not started. */
    GERFMUOD_PART_NEXT = 3,
    /* task. It ran and is done; messages with its value are due. Refused: NO_TASK if it is no task of this part; WRONG_LIFE if it does
     * not run. */
    GERFMUOD_PART_DONE = 4,
    /* task. A message with its value arrived, and the value is where tasks of this part read it. Refused: WRONG_LIFE if the part was
     * not started; NO_TASK if no task of this part reads it, or it is an own one; WRONG_LIFE if it arrived before, so that a doubled
     * message does no harm. */
    GERFMUOD_PART_ARRIVED = 5
};

/* Makes a call that is named above. Refused: BAD_SPEC if there is none of this number. */
GERFMUOD_CHECKED gerfmuod_part_result gerfmuod_part_call(gerfmuod_part *part, uint32_t call, uint32_t task);

/* The library has the same sizes, which are proved. */
GERFMUOD_ASSERT(gerfmuod_part_has_512_bytes, sizeof(gerfmuod_part) == 512);
GERFMUOD_ASSERT(gerfmuod_part_result_has_16_bytes, sizeof(gerfmuod_part_result) == 16);

#ifdef __cplusplus
}
#endif
#endif
