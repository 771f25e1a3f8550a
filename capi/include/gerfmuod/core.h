/* gerfmuod/core.h: the proved termination detector of Gerfmuod, for C and every language that can call C.
 *
 * The caller reports each event of a task pool to a core as it happens, one call per event (a step). The core records
 * the steps that it took, refuses a step that is not lawful after them, and detects termination with the four counter
 * method of F. Mattern (1987). Proved, for any sequence of calls: if a step returns GERFMUOD_EVENT_ENDED with the number
 * of a wave, or gerfmuod_core_settle returns one, then no task was unfinished, no action open and no message in flight when
 * that wave ended, and each task of that generation had been inserted, begun and done, each once. The guarantee is about
 * the events that were reported. Report every event: a send before its message can be received, and a receipt before the
 * message has any effect.
 *
 * Preconditions, which nothing checks:
 *   - the address of a gerfmuod_core is a multiple of 8. No other code writes to an open core. Between two calls it may be
 *     moved with memcpy; the old copy must not be used again. Every call refuses a core without the mark of an open one: it
 *     was closed, its opening was refused, or its bytes are 0 or others;
 *   - one call on a core at a time: protect the calls with a mutex. Different cores may be used at the same time. A call that
 *     begins while another one runs that may change the core is refused as BUSY, if it sees the mark of the other one: always
 *     if it is made from inside of the other one, as by a malloc that reports to the core, but not always from another thread;
 *   - a text or a buffer has the length that is passed with it, and does not overlap the core. The two of gerfmuod_audit do
 *     not overlap each other. NULL is valid if the length is 0;
 *   - no call is made from a signal handler, or in the forked child of a process that has threads;
 *   - 16 KB of stack are free; the calls were measured to use 6 KB;
 *   - malloc, realloc and free belong to one allocator. They return NULL or memory that is aligned for every type.
 *     The calls on a core call nothing else, and start no thread.
 * Every other invalid argument is reported by a refusal or an outcome, and then nothing has changed.
 *
 * Out of memory: a call that returns GERFMUOD_REFUSED_NO_MEMORY or GERFMUOD_OUT_OF_MEMORY has changed nothing, and may be
 * repeated; this is proved. Only tested is that an allocation failed then, that the repeated call succeeds with enough
 * memory, and that gerfmuod_core_open allocates nothing.
 *
 * Units: lengths are in bytes. Nodes are numbered from 0, generations from 1, and the waves of each generation from 1.
 * The caller chooses the numbers of tasks, actions and messages, which may be any uint32_t. The tasks of all nodes share
 * one set of numbers, all messages share another, and the actions of each node have one. Texts that are written to a
 * buffer are not terminated by a zero byte: print them by their length. The library is for systems with 64 bits, where a
 * pointer and a size_t have 8 bytes; all sizes are those.
 *
 * Versions: the library has these calls since 0.1.0. A later version may add calls, kinds of steps, refusals and values of
 * `event`, so a program has to handle numbers that it does not know; it may reword texts. It keeps the numbers below, and
 * the sizes and fields of the structs, as long as the name libgerfmuod.so.0 stays. A program may check
 * gerfmuod_version() / 100 == GERFMUOD_VERSION / 100.
 *
 * ThreadSanitizer: if this header is compiled with -fsanitize=thread, each call reports to it that it reads or writes the
 * core. So a missing lock is a data race, although the library itself is not compiled with it.
 *
 * Debuggers: the library has names of functions, but no call frames and no line numbers. Break at a call to see who makes it:
 * where a program stops further inside, as in malloc, a debugger shows a few functions of the library, and loses the stack.
 *
 * Link with -lgerfmuod, or use pkg-config gerfmuod.
 */
#ifndef GERFMUOD_CORE_H
#define GERFMUOD_CORE_H

#include "refusals.h"

#include <stdbool.h>
#include <stddef.h>
#include <stdint.h>

/* A program may define these before it includes this header: GERFMUOD_INLINE, in one file, as nothing, to define the inline
 * functions itself; and GERFMUOD_TRACED, for a program that needs the trace: then the functions for each kind of step, further
 * below, refuse a step that a trace cannot have, as gerfmuod_core_step_traced does. */
#ifndef GERFMUOD_INLINE
#define GERFMUOD_INLINE static inline
#endif

#ifdef __cplusplus
extern "C" {
#endif

/* 0.1.0. gerfmuod_version() returns that of the library. */
#define GERFMUOD_VERSION 100u
#define GERFMUOD_MAX_NODES 8u
/* The number of steps of a core, of all generations together. A task takes 3 steps and one for each input, a message 3,
 * a wave 3 for each node, and gerfmuod_core_settle at most GERFMUOD_SETTLE_STEPS for each node. These are kept free, so that
 * gerfmuod_core_settle always has room. */
#define GERFMUOD_MAX_STEPS 1048576u
#define GERFMUOD_SETTLE_STEPS 9u
#define GERFMUOD_MAX_INPUTS 16u
/* The generation of a pool that was not reopened. */
#define GERFMUOD_FIRST_GENERATION 1u
/* The largest number of a task, an action or a message in a trace. */
#define GERFMUOD_MAX_TRACED 999999u

/* The memory of a core: on the stack, in a struct, or on the heap. */
typedef struct gerfmuod_core {
    uint64_t words[64];
} gerfmuod_core;

/* The kinds of steps, and their arguments in the order in which gerfmuod_core_step takes them. Arguments that a kind does
 * not have are ignored. */
enum {
    GERFMUOD_STEP_INSERT = 0,       /* node, task, inputs */
    GERFMUOD_STEP_SUPPLY = 1,       /* task */
    GERFMUOD_STEP_BEGIN = 2,        /* task */
    GERFMUOD_STEP_DONE = 3,         /* task */
    GERFMUOD_STEP_ACTION_OPEN = 4,  /* node, action */
    GERFMUOD_STEP_ACTION_CLOSE = 5, /* node, action */
    GERFMUOD_STEP_READY = 6,        /* node */
    GERFMUOD_STEP_SEND = 7,         /* from, to, message; generation */
    GERFMUOD_STEP_RECEIVE = 8,      /* node, message; generation */
    GERFMUOD_STEP_MESSAGE_END = 9,  /* node, message; generation */
    GERFMUOD_STEP_START = 10,
    GERFMUOD_STEP_DOWN = 11, /* node */
    GERFMUOD_STEP_GIVE = 12, /* node */
    GERFMUOD_STEP_UP = 13,   /* node */
    GERFMUOD_STEP_JUDGE = 14,
    GERFMUOD_STEP_REOPEN = 15
};

/* What happened with a step that was taken. */
enum {
    GERFMUOD_EVENT_NONE = 0,       /* nothing more */
    GERFMUOD_EVENT_WAVE_ENDED = 1, /* a wave ended: its number, and the messages that it counted as sent and received */
    GERFMUOD_EVENT_NOT_ENDED = 2,  /* the sums of the last two waves do not show termination */
    GERFMUOD_EVENT_ENDED = 3,      /* the pool had terminated when the wave of this number ended */
    GERFMUOD_EVENT_REOPENED = 4,   /* the generation of this number begins */
    GERFMUOD_EVENT_QUIET = 5       /* this step ended the last outstanding work: gerfmuod_core_settle detects the end now */
};

/* What makes a step, for the calls whose names end in _by. */
enum {
    GERFMUOD_BY_TASK = 0,    /* the body of a task that runs, given its number */
    GERFMUOD_BY_ACTION = 1,  /* what happens in an open action of the node, given its number */
    GERFMUOD_BY_MESSAGE = 2, /* the handling of a message that the node has received, given its number */
    GERFMUOD_BY_OPENING = 3, /* the opening of the node, before its gerfmuod_core_ready; the number is ignored */
    GERFMUOD_BY_THREAD = 4   /* a thread of a node, given the number of the node: it only begins and finishes tasks */
};

/* A step: its kind, and its arguments as gerfmuod_core_step takes them. */
typedef struct gerfmuod_step {
    uint32_t kind;
    uint32_t first;
    uint32_t second;
    uint32_t third;
    uint32_t generation;
} gerfmuod_step;

/* The result of a step: 16 bytes, by value. */
typedef struct gerfmuod_step_result {
    uint16_t refused;  /* 0: the step was taken. Else the refusal, and nothing has changed */
    uint16_t event;    /* GERFMUOD_EVENT_NONE to GERFMUOD_EVENT_QUIET; NONE if the step was refused */
    uint32_t number;   /* a wave or a generation; at GERFMUOD_REFUSED_HISTORY_FULL the number of steps that were taken */
    uint32_t sent;     /* messages sent, at GERFMUOD_EVENT_WAVE_ENDED; else 0 */
    uint32_t received; /* messages received, at GERFMUOD_EVENT_WAVE_ENDED; else 0 */
} gerfmuod_step_result;

/* The counters of a node in the present generation. */
typedef struct gerfmuod_counters {
    uint32_t refused;  /* 0, or why the counters are 0 */
    uint32_t pending;  /* tasks that are not done, and actions that are open: the node is idle at 0 */
    uint32_t sent;     /* messages that it sent */
    uint32_t received; /* messages that it received */
} gerfmuod_counters;

/* Why a task is left. */
enum {
    GERFMUOD_LEFT_NONE = 0,    /* no task of the range is left, or the call was refused: all else is 0 */
    GERFMUOD_LEFT_WAITING = 1, /* it waits for inputs */
    GERFMUOD_LEFT_READY = 2,   /* it has all its inputs, and was not begun */
    GERFMUOD_LEFT_RUNNING = 3  /* it was begun, and is not done */
};

/* A task that was inserted in the present generation and is not done: 16 bytes, by value. */
typedef struct gerfmuod_left_task {
    uint16_t refused; /* 0, or why there is none */
    uint16_t state;   /* GERFMUOD_LEFT_NONE to GERFMUOD_LEFT_RUNNING */
    uint32_t number;  /* the number of the task */
    uint32_t node;    /* its home node */
    uint32_t missing; /* inputs that it still waits for: 1 to 16 if it waits, else 0 */
} gerfmuod_left_task;

/* The pool as a whole. */
typedef struct gerfmuod_status {
    uint32_t steps;      /* steps that were taken, of all generations; without a list of them, 0 */
    uint32_t steps_left; /* steps that can still be reported, without those that are kept for gerfmuod_core_settle; without
                          * a list, always the number of those of a new core */
    uint32_t in_flight;  /* messages that were sent and not received */
    bool is_quiet;       /* no task is unfinished, no action is open, no message is in flight */
} gerfmuod_status;

/* The result of gerfmuod_core_settle. */
typedef struct gerfmuod_settled {
    uint32_t refused; /* 0: termination was detected. Else the refusal, and nothing has changed */
    uint32_t wave;    /* the pool had terminated when this wave ended */
    uint32_t steps;   /* the steps that it took; at GERFMUOD_REFUSED_HISTORY_FULL the steps taken before */
} gerfmuod_settled;

/* The library has the same sizes, which are proved. */
GERFMUOD_ASSERT(gerfmuod_core_has_512_bytes, sizeof(gerfmuod_core) == 512);
GERFMUOD_ASSERT(gerfmuod_step_has_20_bytes, sizeof(gerfmuod_step) == 20);
GERFMUOD_ASSERT(gerfmuod_step_result_has_16_bytes, sizeof(gerfmuod_step_result) == 16);
GERFMUOD_ASSERT(gerfmuod_counters_have_16_bytes, sizeof(gerfmuod_counters) == 16);
GERFMUOD_ASSERT(gerfmuod_left_task_has_16_bytes, sizeof(gerfmuod_left_task) == 16);
GERFMUOD_ASSERT(gerfmuod_status_has_16_bytes, sizeof(gerfmuod_status) == 16);
GERFMUOD_ASSERT(gerfmuod_settled_has_12_bytes, sizeof(gerfmuod_settled) == 12);

/* The version of the library: 10000 * major + 100 * minor + patch. */
uint32_t gerfmuod_version(void);

/* The number of bytes of a gerfmuod_core that the library uses, at most 512. */
size_t gerfmuod_core_size(void);

/* Opens a core with the nodes 0 to nodes - 1. It allocates nothing. Each node begins with one pending action, its
 * opening, which gerfmuod_core_ready closes. Refused: BAD_SPEC if nodes is not 1 to 8; the core is then closed. Do not open a
 * core that is open: what it allocated would be lost. */
GERFMUOD_CHECKED uint32_t gerfmuod_core_open(gerfmuod_core *core, uint32_t nodes);

/* Opens a core as gerfmuod_core_open does, but one that keeps no list of its steps: it takes any number of them, and all that is
 * proved holds of all of them. It has no trace, allocates nothing for steps, and never returns HISTORY_FULL. A step is refused as
 * STORE_FULL, after the checks of its kind, if a counter of the generation is at its limit: 4,294,967,295 tasks and actions are
 * left, or that many messages are in flight, or the node has sent or received 536,870,911 messages; a start, before its checks,
 * after 1,048,577 waves, and gerfmuod_core_settle after 1,048,576; and a reopening of generation 4,294,967,295.
 * Nodes and inputs have the limits of any core: both kinds take the same steps, and a step is what a trace can say. Of a task with more
 * inputs let the last one stand for the rest, and supply it when the last of these is there. */
GERFMUOD_CHECKED uint32_t gerfmuod_core_open_unrecorded(gerfmuod_core *core, uint32_t nodes);

/* Frees what the core allocated. It is then closed, and may be opened again. Returns 0, or the refusal, and nothing has
 * changed: NO_POOL, as for a core that is closed; BUSY. No compiler warns if it is ignored. */
uint32_t gerfmuod_core_close(gerfmuod_core *core);

/* Begins anew with no steps, as a new core of the same nodes and kind, and gives back the memory of the steps: for programs that
 * need no trace of the generations that ended. gerfmuod_core_reopen keeps them. Refused: NO_POOL; BUSY; WRONG_LIFE if
 * termination was not detected. */
GERFMUOD_CHECKED uint32_t gerfmuod_core_restart(gerfmuod_core *core);

/* Reserves memory for `steps` more steps, for tasks with numbers below `tasks` and for messages with numbers below
 * `messages`. Until that many more steps are taken, the calls that take steps allocate nothing, except at a task or a message
 * with a higher number, or at an action that is opened: this is tested, not proved. All steps count: a task takes 3 and one
 * for each input, an action 2, a message 3, gerfmuod_core_ready 1, a wave 3 for each node, and gerfmuod_core_settle at most
 * GERFMUOD_SETTLE_STEPS for each node. Numbers from 1,048,576 on, and steps beyond GERFMUOD_MAX_STEPS, are ignored.
 * It takes no step, and no other call shows a difference. gerfmuod_core_reopen keeps the room for steps, and drops the places of
 * tasks and messages: reserve these again after it. gerfmuod_core_restart drops both. Refused: NO_POOL; BUSY; NO_MEMORY if an
 * allocation fails: what was reserved until then stays reserved. */
GERFMUOD_CHECKED uint32_t gerfmuod_core_reserve(gerfmuod_core *core, uint32_t steps, uint32_t tasks, uint32_t messages);

/* Takes the next step, if it is lawful and there is room for it. Refused for the first reason that applies: NO_POOL; BUSY;
 * BAD_SPEC for a kind above 15 or an insert with more than 16 inputs; HISTORY_FULL if only the steps that are kept for
 * gerfmuod_core_settle are left; the checks of its kind, in the order that is given at the calls below; NO_MEMORY if an
 * allocation fails. Allocations are for a task, for an action that is opened, for a message that is sent, and once in
 * 1,024 steps, if gerfmuod_core_reserve did not reserve memory for them. */
GERFMUOD_CHECKED gerfmuod_step_result gerfmuod_core_step(gerfmuod_core *core, uint32_t kind, uint32_t first, uint32_t second,
                                                         uint32_t third, uint32_t generation);

/* Takes steps in order, up to the first one that is refused: as gerfmuod_core_step for each of them, but under one lock. Returns
 * how many steps were taken. Their results are written to the first places of `results`, and that of the refused step to
 * the next one; the other places do not change. A step without a place for its result is not taken. If the core is closed
 * or busy, no step is taken, and the first result is NO_POOL or BUSY. */
GERFMUOD_CHECKED size_t gerfmuod_core_steps(gerfmuod_core *core, const gerfmuod_step *steps, size_t steps_length,
                                            gerfmuod_step_result *results, size_t results_length);

/* The same step, with what makes it: a GERFMUOD_BY_* and a number. An insert, an opened action and a send are made at the
 * node of the step (a send at its sender); a supply, a begin and a done at the home of the task. Refused for the first
 * reason that applies: NO_POOL; BUSY; BAD_SPEC for what gerfmuod_core_step refuses so, for another maker kind, and for any other
 * kind of step; NO_MAKER if the maker is not running or open at that node, or if that node or task is not there; then as
 * gerfmuod_core_step, which it is otherwise. */
GERFMUOD_CHECKED gerfmuod_step_result gerfmuod_core_step_by(gerfmuod_core *core, uint32_t maker_kind, uint32_t maker, uint32_t kind,
                                                            uint32_t first, uint32_t second, uint32_t third, uint32_t generation);

/* The counters of a node. Refused: NO_POOL, BUSY, NO_NODE. */
GERFMUOD_CHECKED gerfmuod_counters gerfmuod_core_counters(const gerfmuod_core *core, uint32_t node);

/* The task with the lowest number from `from` on and below `end` that is not done; GERFMUOD_LEFT_NONE if there is none. So a loop
 * lists what is left, for a program that hangs: begin with 0, and go on with the number that was returned + 1. A call looks up each
 * number up to that of the task, so it takes time in proportion to end - from at most. Task 4,294,967,295 is in no range. Refused:
 * NO_POOL, BUSY. */
GERFMUOD_CHECKED gerfmuod_left_task gerfmuod_core_left(const gerfmuod_core *core, uint32_t from, uint32_t end);

/* The pool as a whole. `is_quiet` says at once whether all is over: once it is true, it stays so until the pool is reopened or
 * restarted. If the core is closed or busy, all is 0, and it is not quiet. */
gerfmuod_status gerfmuod_core_status(const gerfmuod_core *core);

/* Runs waves until termination is detected, if the pool is quiet: at most two waves, and GERFMUOD_SETTLE_STEPS steps for
 * each node, for which there is always room. Refused for the first reason that applies: NO_POOL; BUSY; ENDED if termination
 * was detected before; NOT_IDLE if the pool is not quiet, which costs no step; NO_MEMORY. */
GERFMUOD_CHECKED gerfmuod_settled gerfmuod_core_settle(gerfmuod_core *core);

/* Writes the steps that were taken as a trace, which gerfmuod_audit and `tp audit` judge: 16 bytes, and at most 24 for
 * each step. If buffer_length is 0, returns the length only. NO_TEXT if a number above GERFMUOD_MAX_TRACED was used, if the
 * core keeps no list of its steps, or if it is closed or busy. */
GERFMUOD_CHECKED gerfmuod_written gerfmuod_core_trace(const gerfmuod_core *core, char *buffer, size_t buffer_length);

/* Judges a trace as `tp audit` does, and writes the same text: WRITTEN or COMPLAINT. 256 bytes are enough. */
GERFMUOD_CHECKED gerfmuod_written gerfmuod_audit(const char *text, size_t text_length, char *buffer, size_t buffer_length);

/* With ThreadSanitizer, each call above on a core first reports that it reads or writes it. */
#if defined(__SANITIZE_THREAD__)
#include "tsan.h"
#elif defined(__has_feature)
#if __has_feature(thread_sanitizer)
#include "tsan.h"
#endif
#endif

/* ---- Steps that a trace can have: for programs that want to know at once that a number has too many digits. */

/* Whether a trace can have this step, given as gerfmuod_core_step takes it: the number of its task, action or message is at most
 * GERFMUOD_MAX_TRACED. */
GERFMUOD_CHECKED GERFMUOD_INLINE bool gerfmuod_core_is_traceable(uint32_t kind, uint32_t first, uint32_t second, uint32_t third) {
    uint32_t number = second;
    if (kind == GERFMUOD_STEP_READY || kind > GERFMUOD_STEP_MESSAGE_END) number = 0;
    else if (kind == GERFMUOD_STEP_SEND) number = third;
    else if (kind == GERFMUOD_STEP_SUPPLY || kind == GERFMUOD_STEP_BEGIN || kind == GERFMUOD_STEP_DONE) number = first;
    return number <= GERFMUOD_MAX_TRACED;
}

/* Why a step that a trace cannot have is not taken: BAD_SPEC. */
GERFMUOD_INLINE gerfmuod_step_result gerfmuod_core_not_traceable(void) {
    gerfmuod_step_result result = {GERFMUOD_REFUSED_BAD_SPEC, GERFMUOD_EVENT_NONE, 0, 0, 0};
    return result;
}

/* As gerfmuod_core_step, but first of all BAD_SPEC if a trace cannot have the step. */
GERFMUOD_CHECKED GERFMUOD_INLINE gerfmuod_step_result gerfmuod_core_step_traced(gerfmuod_core *core, uint32_t kind, uint32_t first,
                                                                                uint32_t second, uint32_t third,
                                                                                uint32_t generation) {
    if (!gerfmuod_core_is_traceable(kind, first, second, third)) return gerfmuod_core_not_traceable();
    return gerfmuod_core_step(core, kind, first, second, third, generation);
}

/* As gerfmuod_core_step_by, but first of all BAD_SPEC if a trace cannot have the step. */
GERFMUOD_CHECKED GERFMUOD_INLINE gerfmuod_step_result gerfmuod_core_step_by_traced(gerfmuod_core *core, uint32_t maker_kind,
                                                                                   uint32_t maker, uint32_t kind, uint32_t first,
                                                                                   uint32_t second, uint32_t third,
                                                                                   uint32_t generation) {
    if (!gerfmuod_core_is_traceable(kind, first, second, third)) return gerfmuod_core_not_traceable();
    return gerfmuod_core_step_by(core, maker_kind, maker, kind, first, second, third, generation);
}

#ifdef GERFMUOD_TRACED
#define GERFMUOD_TAKE gerfmuod_core_step_traced
#define GERFMUOD_TAKE_BY gerfmuod_core_step_by_traced
#else
#define GERFMUOD_TAKE gerfmuod_core_step
#define GERFMUOD_TAKE_BY gerfmuod_core_step_by
#endif

/* ---- One function for each kind of step, with the refusals of its checks, in order. They are inline functions over
 * gerfmuod_core_step, and the library has a symbol for each of them, for languages that do not read this header: these take a step
 * with any number. */

/* Inserts a task at its home node, which must be active. It waits for 0 to 16 inputs, and is ready if there are none. It stays there: a
 * task that another node takes is a message to that node, which inserts a task when it came (four steps: send, receive, insert,
 * message end; gerfmuod_core_steps takes them in one call). BAD_SPEC, NO_NODE, TASK_KNOWN, INACTIVE. */
GERFMUOD_CHECKED GERFMUOD_INLINE gerfmuod_step_result gerfmuod_core_insert(gerfmuod_core *core, uint32_t node, uint32_t task,
                                                                           uint32_t inputs) {
    return GERFMUOD_TAKE(core, GERFMUOD_STEP_INSERT, node, task, inputs, 0);
}

/* A waiting task gets one input. NO_TASK, WRONG_LIFE. */
GERFMUOD_CHECKED GERFMUOD_INLINE gerfmuod_step_result gerfmuod_core_supply(gerfmuod_core *core, uint32_t task) {
    return GERFMUOD_TAKE(core, GERFMUOD_STEP_SUPPLY, task, 0, 0, 0);
}

/* A ready task begins to run. NO_TASK, WRONG_LIFE. */
GERFMUOD_CHECKED GERFMUOD_INLINE gerfmuod_step_result gerfmuod_core_begin(gerfmuod_core *core, uint32_t task) {
    return GERFMUOD_TAKE(core, GERFMUOD_STEP_BEGIN, task, 0, 0, 0);
}

/* A running task is done: GERFMUOD_EVENT_QUIET if nothing is left. NO_TASK, WRONG_LIFE. */
GERFMUOD_CHECKED GERFMUOD_INLINE gerfmuod_step_result gerfmuod_core_done(gerfmuod_core *core, uint32_t task) {
    return GERFMUOD_TAKE(core, GERFMUOD_STEP_DONE, task, 0, 0, 0);
}

/* An action opens at an active node, which stays active until it closes. NO_NODE, ACTION_KNOWN, INACTIVE. */
GERFMUOD_CHECKED GERFMUOD_INLINE gerfmuod_step_result gerfmuod_core_action_open(gerfmuod_core *core, uint32_t node,
                                                                                uint32_t action) {
    return GERFMUOD_TAKE(core, GERFMUOD_STEP_ACTION_OPEN, node, action, 0, 0);
}

/* An action closes: GERFMUOD_EVENT_QUIET if nothing is left. NO_NODE, NO_ACTION. */
GERFMUOD_CHECKED GERFMUOD_INLINE gerfmuod_step_result gerfmuod_core_action_close(gerfmuod_core *core, uint32_t node,
                                                                                 uint32_t action) {
    return GERFMUOD_TAKE(core, GERFMUOD_STEP_ACTION_CLOSE, node, action, 0, 0);
}

/* The opening of a node closes: its first tasks are inserted. GERFMUOD_EVENT_QUIET if nothing is left. NO_NODE, NO_ACTION. */
GERFMUOD_CHECKED GERFMUOD_INLINE gerfmuod_step_result gerfmuod_core_ready(gerfmuod_core *core, uint32_t node) {
    return GERFMUOD_TAKE(core, GERFMUOD_STEP_READY, node, 0, 0, 0);
}

/* An active node sends a message to another node. A number is used once in a generation.
 * NO_NODE, STRANGER, SAME_NODE, MESSAGE_KNOWN, INACTIVE. */
GERFMUOD_CHECKED GERFMUOD_INLINE gerfmuod_step_result gerfmuod_core_send(gerfmuod_core *core, uint32_t from, uint32_t to,
                                                                         uint32_t message, uint32_t generation) {
    return GERFMUOD_TAKE(core, GERFMUOD_STEP_SEND, from, to, message, generation);
}

/* A node receives a message, which opens an action there. NO_NODE, STRANGER, NO_MESSAGE. */
GERFMUOD_CHECKED GERFMUOD_INLINE gerfmuod_step_result gerfmuod_core_receive(gerfmuod_core *core, uint32_t node, uint32_t message,
                                                                            uint32_t generation) {
    return GERFMUOD_TAKE(core, GERFMUOD_STEP_RECEIVE, node, message, 0, generation);
}

/* A received message has had its effects, and its action closes: GERFMUOD_EVENT_QUIET if nothing is left.
 * NO_NODE, STRANGER, NO_ACTION. */
GERFMUOD_CHECKED GERFMUOD_INLINE gerfmuod_step_result gerfmuod_core_message_end(gerfmuod_core *core, uint32_t node,
                                                                                uint32_t message, uint32_t generation) {
    return GERFMUOD_TAKE(core, GERFMUOD_STEP_MESSAGE_END, node, message, 0, generation);
}

/* The next wave starts at node 0. The nodes form a tree: the parent of node i is node (i - 1) / 2. ENDED, WAVE_OPEN. */
GERFMUOD_CHECKED GERFMUOD_INLINE gerfmuod_step_result gerfmuod_core_start(gerfmuod_core *core) {
    return GERFMUOD_TAKE(core, GERFMUOD_STEP_START, 0, 0, 0, 0);
}

/* A node other than 0 takes the token of the wave from its parent. NO_NODE, ENDED, NO_TOKEN. */
GERFMUOD_CHECKED GERFMUOD_INLINE gerfmuod_step_result gerfmuod_core_down(gerfmuod_core *core, uint32_t node) {
    return GERFMUOD_TAKE(core, GERFMUOD_STEP_DOWN, node, 0, 0, 0);
}

/* An idle node reports its counters, after its children did; at node 0 the wave ends, with GERFMUOD_EVENT_WAVE_ENDED.
 * NO_NODE, ENDED, NO_TOKEN, NOT_IDLE. */
GERFMUOD_CHECKED GERFMUOD_INLINE gerfmuod_step_result gerfmuod_core_give(gerfmuod_core *core, uint32_t node) {
    return GERFMUOD_TAKE(core, GERFMUOD_STEP_GIVE, node, 0, 0, 0);
}

/* The parent of a node takes what the node reported. NO_NODE, ENDED, NO_TOKEN. */
GERFMUOD_CHECKED GERFMUOD_INLINE gerfmuod_step_result gerfmuod_core_up(gerfmuod_core *core, uint32_t node) {
    return GERFMUOD_TAKE(core, GERFMUOD_STEP_UP, node, 0, 0, 0);
}

/* Judges the wave that ended: GERFMUOD_EVENT_NOT_ENDED or GERFMUOD_EVENT_ENDED. ENDED, WAVE_NOT_ENDED. */
GERFMUOD_CHECKED GERFMUOD_INLINE gerfmuod_step_result gerfmuod_core_judge(gerfmuod_core *core) {
    return GERFMUOD_TAKE(core, GERFMUOD_STEP_JUDGE, 0, 0, 0, 0);
}

/* Begins the next generation: GERFMUOD_EVENT_REOPENED. Everything is as in a new core, except the list of steps, which goes
 * on. WRONG_LIFE if termination was not detected. */
GERFMUOD_CHECKED GERFMUOD_INLINE gerfmuod_step_result gerfmuod_core_reopen(gerfmuod_core *core) {
    return GERFMUOD_TAKE(core, GERFMUOD_STEP_REOPEN, 0, 0, 0, 0);
}

/* ---- The calls of steps with what makes them. The core alone asks only that a node is busy; these calls also refuse work
 * that is made by what is over, or at another node (NO_MAKER). They are inline, over gerfmuod_core_step_by. */

/* As gerfmuod_core_insert, made at the home node of the task. */
GERFMUOD_CHECKED GERFMUOD_INLINE gerfmuod_step_result gerfmuod_core_insert_by(gerfmuod_core *core, uint32_t maker_kind,
                                                                              uint32_t maker, uint32_t node, uint32_t task,
                                                                              uint32_t inputs) {
    return GERFMUOD_TAKE_BY(core, maker_kind, maker, GERFMUOD_STEP_INSERT, node, task, inputs, 0);
}

/* As gerfmuod_core_supply, made at the home node of the task. */
GERFMUOD_CHECKED GERFMUOD_INLINE gerfmuod_step_result gerfmuod_core_supply_by(gerfmuod_core *core, uint32_t maker_kind,
                                                                              uint32_t maker, uint32_t task) {
    return GERFMUOD_TAKE_BY(core, maker_kind, maker, GERFMUOD_STEP_SUPPLY, task, 0, 0, 0);
}

/* As gerfmuod_core_send, made at the sender. */
GERFMUOD_CHECKED GERFMUOD_INLINE gerfmuod_step_result gerfmuod_core_send_by(gerfmuod_core *core, uint32_t maker_kind,
                                                                            uint32_t maker, uint32_t from, uint32_t to,
                                                                            uint32_t message, uint32_t generation) {
    return GERFMUOD_TAKE_BY(core, maker_kind, maker, GERFMUOD_STEP_SEND, from, to, message, generation);
}

/* As gerfmuod_core_action_open, made at the node. */
GERFMUOD_CHECKED GERFMUOD_INLINE gerfmuod_step_result gerfmuod_core_action_open_by(gerfmuod_core *core, uint32_t maker_kind,
                                                                                   uint32_t maker, uint32_t node,
                                                                                   uint32_t action) {
    return GERFMUOD_TAKE_BY(core, maker_kind, maker, GERFMUOD_STEP_ACTION_OPEN, node, action, 0, 0);
}

/* As gerfmuod_core_begin, by a thread of this node, which has to be the home node of the task. */
GERFMUOD_CHECKED GERFMUOD_INLINE gerfmuod_step_result gerfmuod_core_begin_at(gerfmuod_core *core, uint32_t node, uint32_t task) {
    return GERFMUOD_TAKE_BY(core, GERFMUOD_BY_THREAD, node, GERFMUOD_STEP_BEGIN, task, 0, 0, 0);
}

/* As gerfmuod_core_done, by a thread of this node, which has to be the home node of the task. */
GERFMUOD_CHECKED GERFMUOD_INLINE gerfmuod_step_result gerfmuod_core_done_at(gerfmuod_core *core, uint32_t node, uint32_t task) {
    return GERFMUOD_TAKE_BY(core, GERFMUOD_BY_THREAD, node, GERFMUOD_STEP_DONE, task, 0, 0, 0);
}

#ifdef __cplusplus
}
#endif
#endif
