/* gerfmuod/process.h: termination detection for a distributed program, one process's part of it, with the code proved; and, at the end,
 * for one whose work is tasks that make tasks.
 *
 * Each of n processes, numbered 0 to n - 1, holds one gerfmuod_process: 96 bytes of plain data, without a pointer. The
 * library starts no thread, takes no lock and no memory, and does no input or output. Your transport (MPI, sockets,
 * shared memory) carries your own messages and the detector's control messages of 56 bytes.
 *
 *   begin       gerfmuod_process_init(&p, number, n): one piece of work is open, the beginning of the process.
 *   work        gerfmuod_process_add_work(&p) before another piece of work; gerfmuod_process_finish_work(&p) after each.
 *   send        gerfmuod_process_count_sent(&p). If it returns 0, pass the message to the transport, with p.epoch.
 *   receive     gerfmuod_process_count_received(&p, epoch of the message), before the message has any effect: it is a piece
 *               of work. After its last effect (work added, replies counted as sent): gerfmuod_process_finish_work(&p).
 *   a control   gerfmuod_process_take(&p, &message). NOT_DUE and LATE are no errors: the message came late, or twice. For NOT_YET
 *   message     see below. MISMATCHED and MALFORMED are bugs of the program.
 *   after each  while ((next = gerfmuod_process_next(&p, &message)) == GERFMUOD_PROCESS_SEND)
 *   of these        send it to process message.to, all sizeof message bytes;
 *               NOTHING: go on with open work, or, if there is none, wait until a message or a control message comes.
 *               AGAIN: see whether a message has come, then call again, at once or after a pause. ENDED: in this epoch no
 *               process has work, and no counted message is in flight. A loop also has to stop at a refusal, above 100.
 *   once more   after ENDED, gerfmuod_process_reopen(&p) begins the next epoch. It waits for no other process. If a message
 *               or control message is refused as NOT_YET, keep it and pass it again after gerfmuod_process_reopen: it is
 *               of the next epoch, never of a later one. Drop a control message that is refused as LATE. No counted
 *               message is ever late. A program of one epoch ignores epochs: all of them are 0.
 *
 * Proved, for every n, in each epoch, whichever control messages come, in whatever order, twice, late or never:
 *   - if gerfmuod_process_next returns ENDED, or gerfmuod_process_knows_end returns true, no process has open work of this
 *     epoch and no counted message of it is in flight, then and later;
 *   - once that is so, process 0 starts at most two more waves, and at most 14n - 11 more events do anything;
 *   - at most (2 waves + 1)(n - 1) control messages are sent in an epoch;
 *   - if n <= 2^20, then until ENDED is returned everywhere, a call of gerfmuod_process_next or a control message that was
 *     sent does something; and one that has come need not come again;
 *   - if n <= 2^20, over a network that brings each control message once, in any order: if nothing is left to do, all
 *     processes have come to the last epoch and know its end; no control message is refused as LATE; and at most two
 *     control messages of an epoch are on their way to a process, or kept there until it reopens (for static buffers).
 *
 * Preconditions, which nothing checks:
 *   - pass a message to the transport after gerfmuod_process_count_sent, and only if that returned 0;
 *   - count a message as received once, at its destination, after it came and before it has an effect. If a data message
 *     is duplicated and counted twice, nothing is guaranteed;
 *   - outside open work a process sends no counted message. Messages that create no work, such as a request for work, need
 *     not be counted;
 *   - every process gives its own number, and the same n. A control message carries n, and a process with another n refuses it as
 *     MISMATCHED, so unequal n are found as soon as such processes exchange one. A process that gives n = 1 exchanges none;
 *   - no control message is forged or altered. No message goes with another epoch than its sender's at the time of
 *     gerfmuod_process_count_sent, no control message with another than gerfmuod_process_next wrote into it;
 *   - one call on a process at a time. The struct may be copied as bytes between two calls; use one of the copies;
 *   - no pointer is NULL, pointers to structs are multiples of 8, and two arguments do not overlap. Any bytes may be in a
 *     struct: without the mark of an open process, every call refuses it.
 * A lost control message, or a lost message, delays the end for ever; it never makes it early.
 *
 * All is here since 0.1.0. Link with -lgerfmuod.
 */
#ifndef GERFMUOD_PROCESS_H
#define GERFMUOD_PROCESS_H

#include "refusals.h"

#include <stdbool.h>
#include <stddef.h>
#include <stdint.h>

#ifdef __cplusplus
extern "C" {
#endif

/* The most pieces of work open, messages sent and messages received, of one process in one epoch: 2^43. */
#define GERFMUOD_PROCESS_MAX_COUNT ((uint64_t)1 << 43)

/* What gerfmuod_process_next returns, if it is not refused: the refusals of processes are above 100. */
enum {
    GERFMUOD_PROCESS_NOTHING = 0, /* wait for a message, for a control message, or until the process is idle */
    GERFMUOD_PROCESS_SEND = 1,    /* send the control message that was written, to process message.to */
    GERFMUOD_PROCESS_AGAIN = 2,   /* call again, at once or after a pause: process 0 has just judged a wave */
    GERFMUOD_PROCESS_ENDED = 3    /* nothing: the epoch has terminated, and the process has notified its children */
};

/* One process. Read its fields, but leave writing to the library. A struct of zeros is not open. */
typedef struct gerfmuod_process {
    uint64_t mark;           /* says that the process is open */
    uint64_t epoch;          /* from 0 */
    uint32_t number;         /* below processes */
    uint32_t processes;      /* at most 2^20 for the guarantee that all learn of the end */
    uint64_t pending;        /* open pieces of work: the process is idle if there are none */
    uint64_t sent;           /* messages counted as sent in this epoch */
    uint64_t received;       /* messages counted as received in this epoch */
    uint64_t wave;           /* the newest wave that came here in this epoch, from 1 */
    uint64_t taken_sent;     /* messages sent by all processes below this one, as its children have reported in that wave */
    uint64_t taken_received; /* messages received by them */
    uint64_t last_received;  /* at process 0: messages received by all processes, as counted by the wave that was judged last */
    uint8_t known;           /* at process 0: a wave was judged in this epoch. A flag, set if it is not 0; so are the bytes below */
    uint8_t here;            /* the newest wave is here: the process has not passed it up */
    uint8_t down_left;
    uint8_t down_right;
    uint8_t up_left;
    uint8_t up_right;
    uint8_t over; /* the process knows that the epoch has terminated */
    uint8_t over_left;
    uint8_t over_right;
} gerfmuod_process;

/* What a control message carries. */
enum {
    GERFMUOD_PROCESS_TOKEN_DOWN = 0, /* the wave, down the tree */
    GERFMUOD_PROCESS_TOKEN_UP = 1,   /* the wave, back up, with sums */
    GERFMUOD_PROCESS_TOKEN_OVER = 2  /* termination was detected */
};

/* A control message as the transport carries it, between machines of one byte order. */
typedef struct gerfmuod_control_message {
    uint64_t epoch;
    uint64_t from;
    uint64_t to;
    uint64_t wave;
    uint32_t token;     /* 0, 1 or 2, as above */
    uint32_t processes; /* the sender's number of processes */
    uint64_t sent;      /* at token 1: messages sent by `from` and all processes below it */
    uint64_t received;  /* at token 1: messages received by them */
} gerfmuod_control_message;

/* The tasks of one process, if running tasks make tasks. Read its fields, but leave writing to the library. */
typedef struct gerfmuod_tasks {
    uint64_t waiting; /* tasks that wait here */
    uint64_t running; /* tasks that run here */
    uint64_t due;     /* tasks that were made here for other processes, and are not sent */
    uint8_t opening;  /* what the process does before its first task has not ended. A flag, set if it is not 0 */
} gerfmuod_tasks;

/* The library has the same sizes and places, which are proved. */
GERFMUOD_ASSERT(gerfmuod_bool_has_1_byte, sizeof(bool) == 1);
GERFMUOD_ASSERT(gerfmuod_process_has_96_bytes, sizeof(gerfmuod_process) == 96);
GERFMUOD_ASSERT(gerfmuod_control_message_has_56_bytes, sizeof(gerfmuod_control_message) == 56);
GERFMUOD_ASSERT(gerfmuod_tasks_has_32_bytes, sizeof(gerfmuod_tasks) == 32);
#define GERFMUOD_PROCESS_AT(field, offset) \
    GERFMUOD_ASSERT(gerfmuod_process_##field##_at_##offset, offsetof(gerfmuod_process, field) == (offset))
#define GERFMUOD_CONTROL_AT(field, offset) \
    GERFMUOD_ASSERT(gerfmuod_control_message_##field##_at_##offset, offsetof(gerfmuod_control_message, field) == (offset))
#define GERFMUOD_TASKS_AT(field, offset) \
    GERFMUOD_ASSERT(gerfmuod_tasks_##field##_at_##offset, offsetof(gerfmuod_tasks, field) == (offset))
GERFMUOD_PROCESS_AT(mark, 0);
GERFMUOD_PROCESS_AT(epoch, 8);
GERFMUOD_PROCESS_AT(number, 16);
GERFMUOD_PROCESS_AT(processes, 20);
GERFMUOD_PROCESS_AT(pending, 24);
GERFMUOD_PROCESS_AT(sent, 32);
GERFMUOD_PROCESS_AT(received, 40);
GERFMUOD_PROCESS_AT(wave, 48);
GERFMUOD_PROCESS_AT(taken_sent, 56);
GERFMUOD_PROCESS_AT(taken_received, 64);
GERFMUOD_PROCESS_AT(last_received, 72);
GERFMUOD_PROCESS_AT(known, 80);
GERFMUOD_PROCESS_AT(here, 81);
GERFMUOD_PROCESS_AT(down_left, 82);
GERFMUOD_PROCESS_AT(down_right, 83);
GERFMUOD_PROCESS_AT(up_left, 84);
GERFMUOD_PROCESS_AT(up_right, 85);
GERFMUOD_PROCESS_AT(over, 86);
GERFMUOD_PROCESS_AT(over_left, 87);
GERFMUOD_PROCESS_AT(over_right, 88);
GERFMUOD_CONTROL_AT(epoch, 0);
GERFMUOD_CONTROL_AT(from, 8);
GERFMUOD_CONTROL_AT(to, 16);
GERFMUOD_CONTROL_AT(wave, 24);
GERFMUOD_CONTROL_AT(token, 32);
GERFMUOD_CONTROL_AT(processes, 36);
GERFMUOD_CONTROL_AT(sent, 40);
GERFMUOD_CONTROL_AT(received, 48);
GERFMUOD_TASKS_AT(waiting, 0);
GERFMUOD_TASKS_AT(running, 8);
GERFMUOD_TASKS_AT(due, 16);
GERFMUOD_TASKS_AT(opening, 24);
#undef GERFMUOD_TASKS_AT
#undef GERFMUOD_CONTROL_AT
#undef GERFMUOD_PROCESS_AT

/* A refused call changes nothing; gerfmuod_process_init alone leaves a process that is not open. Of two reasons, the one that is
 * listed first below is returned. */

/* Opens process `number` of `processes`, in epoch 0 and with one piece of work open. If it is refused, the struct is not
 * open, and every call refuses it. NO_PROCESS. */
GERFMUOD_CHECKED uint32_t gerfmuod_process_init(gerfmuod_process *process, uint32_t number, uint32_t processes);

/* Opens one more piece of work. NOT_OPEN, NO_WORK, COUNT_FULL. */
GERFMUOD_CHECKED uint32_t gerfmuod_process_add_work(gerfmuod_process *process);

/* Closes a piece of work. NOT_OPEN, NO_WORK. */
GERFMUOD_CHECKED uint32_t gerfmuod_process_finish_work(gerfmuod_process *process);

/* Counts a message as sent, before the transport gets it. NOT_OPEN, NO_WORK, COUNT_FULL. */
GERFMUOD_CHECKED uint32_t gerfmuod_process_count_sent(gerfmuod_process *process);

/* Counts a message of an epoch as received, and opens a piece of work, before the message has an effect. NOT_OPEN, NOT_YET,
 * LATE, COUNT_FULL. */
GERFMUOD_CHECKED uint32_t gerfmuod_process_count_received(gerfmuod_process *process, uint64_t epoch);

/* The three events in a message's life, by the names that task runtimes give them: the same as
 * gerfmuod_process_count_sent, gerfmuod_process_count_received and gerfmuod_process_finish_work. */
GERFMUOD_CHECKED uint32_t gerfmuod_process_outgoing_message_start(gerfmuod_process *process);
GERFMUOD_CHECKED uint32_t gerfmuod_process_incoming_message_start(gerfmuod_process *process, uint64_t epoch);
GERFMUOD_CHECKED uint32_t gerfmuod_process_incoming_message_end(gerfmuod_process *process);

/* Takes a control message. Any bytes are safe to pass, but a forged message voids the guarantees. NOT_OPEN, MALFORMED,
 * NOT_YET, LATE, MISMATCHED, NOT_DUE. */
GERFMUOD_CHECKED uint32_t gerfmuod_process_take(gerfmuod_process *process, const gerfmuod_control_message *message);

/* Returns what to do next. `message` is written only if it returns SEND. NOT_OPEN; MISCOUNTED, at process 0, if fewer messages were
 * counted as sent when a wave passed than as received when the one before it did, which no program shows that keeps the rules. */
GERFMUOD_CHECKED uint32_t gerfmuod_process_next(gerfmuod_process *process, gerfmuod_control_message *message);

/* Begins the next epoch, with one piece of work open. After ENDED the only refusal is COUNT_FULL, in epoch 2^64 - 1. NOT_OPEN,
 * NOT_ENDED, COUNT_FULL. */
GERFMUOD_CHECKED uint32_t gerfmuod_process_reopen(gerfmuod_process *process);

/* These calls only read, and are never refused. gerfmuod_process_knows_end says that the epoch has terminated, and is true before
 * the process has notified its children: a loop ends only when gerfmuod_process_next returns GERFMUOD_PROCESS_ENDED. It is false
 * if the process is not open. */
bool gerfmuod_process_is_open(const gerfmuod_process *process);
bool gerfmuod_process_knows_end(const gerfmuod_process *process);
uint64_t gerfmuod_process_epoch(const gerfmuod_process *process);
uint64_t gerfmuod_process_pending(const gerfmuod_process *process);
uint64_t gerfmuod_process_sent(const gerfmuod_process *process);
uint64_t gerfmuod_process_received(const gerfmuod_process *process);
uint64_t gerfmuod_process_wave(const gerfmuod_process *process);

/* Returns a line for a program that hangs: the number and the counts of the process, and what it waits for, or that a call of
 * gerfmuod_process_next is due. It is valid until this thread calls gerfmuod_process_text again. Tested, not proved. */
const char *gerfmuod_process_text(const gerfmuod_process *process);

/* ---- tasks that make tasks
 *
 * If all work of a program is tasks, and running tasks make tasks, here or for other processes, a gerfmuod_tasks decides for each
 * process when it has work. Your lists have the tasks; the calls below have their numbers. They make all calls on the process that count
 * work and messages: it has one piece of work, as long as it is not idle. You make the others, gerfmuod_process_init, _take and _next.
 *
 *   begin       gerfmuod_tasks_open after gerfmuod_process_init: the opening may make tasks. gerfmuod_tasks_close once it has made all.
 *   a task      gerfmuod_tasks_add if it is for this process, gerfmuod_tasks_add_due if it is for another one: in the opening, or while
 *               the task that makes it runs. gerfmuod_tasks_begin before it runs, gerfmuod_tasks_done after it has made all its tasks.
 *               gerfmuod_tasks_give if one that waits goes to another process.
 *   messages    each message has one task. gerfmuod_tasks_send before the transport gets it; gerfmuod_tasks_receive with its epoch,
 *               after it came and before a thread sees the task, which then waits.
 *   after each  gerfmuod_tasks_settle, then gerfmuod_process_next.
 *   of these
 *   a stop      gerfmuod_tasks_drop_waiting drops all tasks that wait. Those that run end, and those that are due are sent.
 *   once more   gerfmuod_tasks_reopen after ENDED, in the place of gerfmuod_process_reopen.
 *
 * Proved of an epoch, for every n and every order of these calls and of control messages, whichever come, twice, late or never;
 * gerfmuod_tasks_reopen leads to the state in which an epoch begins:
 *   - never early: if gerfmuod_process_next returns ENDED, or gerfmuod_process_knows_end returns true, at no process does a task wait, run
 *     or be due, no opening is open, and no task is in flight, then and later;
 *   - none lost, none doubled: each task that was made waits, runs, is due, is in flight, is done or was dropped; after ENDED it is done,
 *     or was dropped;
 *   - a process has one piece of work unless it is idle, and never more than one;
 *   - never silent: once no task is left, at most 15n - 11 calls and control messages do anything, and if n <= 2^20, until ENDED is
 *     returned everywhere, one of them does something.
 *
 * Preconditions beyond those above: one call on a gerfmuod_tasks at a time, so with threads each is made under the lock of your lists. A
 * call that also has a process is made by the thread that makes the calls on the process. A task runs once for each gerfmuod_tasks_begin,
 * and each task that is counted as sent comes to one process. No other call counts work or messages of the process.
 *
 * A refused call changes neither struct. Any bytes are a valid gerfmuod_tasks. */

/* Makes the counts of a process that was just opened: no task, and the opening. */
void gerfmuod_tasks_open(gerfmuod_tasks *tasks);

/* A task was made for this process: it waits. NO_WORK if the opening has ended and no task runs; COUNT_FULL if 2^43 wait. */
GERFMUOD_CHECKED uint32_t gerfmuod_tasks_add(gerfmuod_tasks *tasks);

/* A task was made for another process: it is due until gerfmuod_tasks_send. NO_WORK if the opening has ended and no task runs; COUNT_FULL
 * if 2^43 are due. */
GERFMUOD_CHECKED uint32_t gerfmuod_tasks_add_due(gerfmuod_tasks *tasks);

/* A task that waits begins to run. NO_WORK if none waits; COUNT_FULL if 2^43 run. */
GERFMUOD_CHECKED uint32_t gerfmuod_tasks_begin(gerfmuod_tasks *tasks);

/* A running task is done: all tasks that it makes were made before. NO_WORK if none runs. */
GERFMUOD_CHECKED uint32_t gerfmuod_tasks_done(gerfmuod_tasks *tasks);

/* All tasks that wait are dropped. */
void gerfmuod_tasks_drop_waiting(gerfmuod_tasks *tasks);

/* A task that waits is given to another process: it is due until gerfmuod_tasks_send. NO_WORK if none waits; COUNT_FULL if 2^43 are
 * due. */
GERFMUOD_CHECKED uint32_t gerfmuod_tasks_give(gerfmuod_tasks *tasks);

/* The opening ends: from now on only running tasks make tasks. NO_WORK if it has ended. */
GERFMUOD_CHECKED uint32_t gerfmuod_tasks_close(gerfmuod_tasks *tasks);

/* A task that is due is sent: counts its message. NO_WORK if none is due; then as gerfmuod_process_count_sent. */
GERFMUOD_CHECKED uint32_t gerfmuod_tasks_send(gerfmuod_tasks *tasks, gerfmuod_process *process);

/* A task comes in a message of an epoch, and waits here. If the process has work, this is a part of it. COUNT_FULL if 2^43 wait; then as
 * gerfmuod_process_count_received. */
GERFMUOD_CHECKED uint32_t gerfmuod_tasks_receive(gerfmuod_tasks *tasks, gerfmuod_process *process, uint64_t epoch);

/* Finishes the work of the process if it has some and is idle. Returns 1 if it did, else 0; or NOT_OPEN, which is above 100. */
GERFMUOD_CHECKED uint32_t gerfmuod_tasks_settle(const gerfmuod_tasks *tasks, gerfmuod_process *process);

/* Begins the next epoch of the process, with an opening. Refused: as gerfmuod_process_reopen. */
GERFMUOD_CHECKED uint32_t gerfmuod_tasks_reopen(gerfmuod_tasks *tasks, gerfmuod_process *process);

/* These calls only read. A process is idle if no task waits, runs or is due here, and the opening has ended. */
uint64_t gerfmuod_tasks_waiting(const gerfmuod_tasks *tasks);
uint64_t gerfmuod_tasks_running(const gerfmuod_tasks *tasks);
uint64_t gerfmuod_tasks_due(const gerfmuod_tasks *tasks);
bool gerfmuod_tasks_is_opening(const gerfmuod_tasks *tasks);
bool gerfmuod_tasks_is_idle(const gerfmuod_tasks *tasks);

/* With ThreadSanitizer, each call above first reports that it reads or writes the process or the tasks. */
#if defined(__SANITIZE_THREAD__)
#include "tsan.h"
#elif defined(__has_feature)
#if __has_feature(thread_sanitizer)
#include "tsan.h"
#endif
#endif

#ifdef __cplusplus
}
#endif
#endif
