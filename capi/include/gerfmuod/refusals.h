/* gerfmuod/refusals.h: why a call of the library was refused. All headers use these numbers, and have them since 0.1.0.
 *
 * A later version may add refusals, so a program has to handle numbers that it does not know. It keeps the numbers below, and may
 * reword the texts.
 */
#ifndef GERFMUOD_REFUSALS_H
#define GERFMUOD_REFUSALS_H

#include <stddef.h>
#include <stdint.h>

/* A program may define this as nothing before it includes a header, so that no compiler warns if the result of a call is ignored. */
#ifndef GERFMUOD_CHECKED
#if defined(__GNUC__)
#define GERFMUOD_CHECKED __attribute__((warn_unused_result))
#else
#define GERFMUOD_CHECKED
#endif
#endif

/* For the headers: the library has the same sizes and places of fields, which are proved. In every C and C++ from C99 and C++98 on. */
#if defined(__cplusplus) && __cplusplus >= 201103L
#define GERFMUOD_ASSERT(name, holds) static_assert(holds, #name)
#elif defined(__STDC_VERSION__) && __STDC_VERSION__ >= 201112L
#define GERFMUOD_ASSERT(name, holds) _Static_assert(holds, #name)
#else
#define GERFMUOD_ASSERT(name, holds) typedef char name[(holds) ? 1 : -1]
#endif

#ifdef __cplusplus
extern "C" {
#endif

/* The refusals, with their names and sentences as gerfmuod_refusal_text returns them. 27, 30 to 63 and 70 to 100 are none. */
enum gerfmuod_refusal {
    GERFMUOD_OK = 0,                      /* Ok: the call was not refused */
    GERFMUOD_REFUSED_NO_NODE = 1,         /* NoNode: there is no node of this number */
    GERFMUOD_REFUSED_SAME_NODE = 2,       /* SameNode: the sender and the receiver are one node */
    GERFMUOD_REFUSED_TASK_KNOWN = 3,      /* TaskKnown: a task of this number was inserted before */
    GERFMUOD_REFUSED_NO_TASK = 4,         /* NoTask: there is no such task, or an input is not lower than its task */
    GERFMUOD_REFUSED_WRONG_LIFE = 5,      /* WrongLife: the task, the core or the graph is not in the state that the call needs */
    GERFMUOD_REFUSED_INACTIVE = 6,        /* Inactive: no task is unfinished and no action is open at the node */
    GERFMUOD_REFUSED_ACTION_KNOWN = 7,    /* ActionKnown: the action is open there */
    GERFMUOD_REFUSED_NO_ACTION = 8,       /* NoAction: the action is not open there */
    GERFMUOD_REFUSED_MESSAGE_KNOWN = 9,   /* MessageKnown: a message of this number was sent before */
    GERFMUOD_REFUSED_NO_MESSAGE = 10,     /* NoMessage: no such message is in flight to that node */
    GERFMUOD_REFUSED_NOT_IDLE = 11,       /* NotIdle: a task is unfinished, an action is open or a message is in flight */
    GERFMUOD_REFUSED_NO_TOKEN = 12,       /* NoToken: the wave has not come so far, or has passed */
    GERFMUOD_REFUSED_WAVE_OPEN = 13,      /* WaveOpen: a wave is open, or has ended and is not judged */
    GERFMUOD_REFUSED_WAVE_NOT_ENDED = 14, /* WaveNotEnded: no ended wave waits for judgement */
    GERFMUOD_REFUSED_ENDED = 15,          /* Ended: termination was detected, or all tasks of the run are done */
    GERFMUOD_REFUSED_HISTORY_FULL = 16,   /* HistoryFull: there is no room for more steps, or a number would be above its limit */
    GERFMUOD_REFUSED_NO_MEMORY = 17,      /* NoMemory: an allocation failed */
    GERFMUOD_REFUSED_STRANGER = 19,       /* Stranger: the message is of another generation */
    GERFMUOD_REFUSED_STORE_FULL = 23,     /* StoreFull: a counter of a core without a list of steps is at its limit */
    GERFMUOD_REFUSED_NO_POOL = 24,        /* NoPool: the core or the graph is not open */
    GERFMUOD_REFUSED_BAD_SPEC = 26,       /* BadSpec: no such step, maker, call or class, or nodes, inputs or arrays are invalid */
    GERFMUOD_REFUSED_BUSY = 28,           /* Busy: another call runs on the core, so the caller's lock is missing */
    GERFMUOD_REFUSED_NO_MAKER = 29,       /* NoMaker: the maker does not run or is not open at the node of the step */
    GERFMUOD_REFUSED_NO_THREAD = 64,      /* NoThread: a run needs a thread */
    GERFMUOD_REFUSED_NOT_STARTED = 65,    /* NotStarted: the operating system started too few threads, and no body ran */
    GERFMUOD_REFUSED_STOPPED = 66,        /* Stopped: the graph was stopped, or a body failed */
    GERFMUOD_REFUSED_RUNNING = 67,        /* Running: a turn has not returned, or a task runs */
    GERFMUOD_REFUSED_NOT_WRITTEN = 68,    /* NotWritten: the stream did not take the whole text */
    GERFMUOD_REFUSED_DIFFERENT = 69,      /* Different: the processes described different graphs */
    GERFMUOD_REFUSED_NO_WORK = 101,       /* NoWork: no piece of work is open at the process */
    GERFMUOD_REFUSED_COUNT_FULL = 102,    /* CountFull: a count or the epoch of the process is at its limit */
    GERFMUOD_REFUSED_NOT_DUE = 103,       /* NotDue: the control message is for another process, of another wave, or was taken before */
    GERFMUOD_REFUSED_NOT_YET = 104,       /* NotYet: the message is of a later epoch, so keep it until the process has reopened */
    GERFMUOD_REFUSED_LATE = 105,          /* Late: the message is of an older epoch */
    GERFMUOD_REFUSED_NOT_ENDED = 106,     /* NotEnded: the process does not know the end of this epoch, or has not notified each child */
    GERFMUOD_REFUSED_NOT_OPEN = 107,      /* NotOpen: the process is not open */
    GERFMUOD_REFUSED_NO_PROCESS = 108,    /* NoProcess: the number of the process is not below the number of processes */
    GERFMUOD_REFUSED_MALFORMED = 109,     /* Malformed: no control message has such a token */
    GERFMUOD_REFUSED_MISCOUNTED = 110,    /* Miscounted: a message was sent uncounted, or its receipt was counted twice */
    GERFMUOD_REFUSED_MISMATCHED = 111     /* Mismatched: the control message is from a process opened with another number of processes */
};

/* The outcomes of writing a text to a buffer. */
enum {
    GERFMUOD_WRITTEN = 0,       /* the text is in the buffer; for an audit: the trace is sound */
    GERFMUOD_COMPLAINT = 1,     /* the text is in the buffer, and says which line of the trace is invalid */
    GERFMUOD_TOO_LONG = 2,      /* the trace has more than 33,554,432 bytes: nothing is written */
    GERFMUOD_OUT_OF_MEMORY = 3, /* an allocation failed: nothing is written */
    GERFMUOD_NO_ROOM = 4,       /* nothing is written: the buffer is shorter than the `length` bytes of the text */
    GERFMUOD_NO_TEXT = 5        /* nothing is written: there is no such text */
};

typedef struct gerfmuod_written {
    uint32_t outcome; /* GERFMUOD_WRITTEN to GERFMUOD_NO_TEXT */
    size_t length;    /* of the text, in bytes. No zero byte follows them */
} gerfmuod_written;

GERFMUOD_ASSERT(gerfmuod_written_has_16_bytes, sizeof(gerfmuod_written) == 16);

/* Returns the name of a refusal and a sentence that explains it, as one static string: also of 0, and of a number that is no
 * refusal. */
const char *gerfmuod_refusal_text(uint32_t refused);

/* Writes the name of a refusal, such as NoMessage: at most 12 bytes. NO_TEXT if there is no such refusal. */
gerfmuod_written gerfmuod_refusal_name(uint32_t refused, char *buffer, size_t buffer_length);

/* Writes a sentence that explains a refusal: at most 128 bytes. NO_TEXT if there is no such refusal. */
gerfmuod_written gerfmuod_refusal_meaning(uint32_t refused, char *buffer, size_t buffer_length);

#ifdef __cplusplus
}
#endif
#endif
