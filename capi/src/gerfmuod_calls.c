/* gerfmuod_calls.c: the library's part of its headers in C. It has the functions that are inline for programs that read core.h, as
 * symbols for all others, the texts of refusals as static strings, which the proved calls write, and what a process waits for. It is
 * tested, not proved. */
#define GERFMUOD_INLINE
#include <gerfmuod/core.h>
#include <gerfmuod/process.h>

#include <inttypes.h>
#include <pthread.h>
#include <stdio.h>

/* The largest refusal, and the length of a text: a name, ": ", a sentence and a zero byte. */
enum { LAST = GERFMUOD_REFUSED_MISMATCHED, LENGTH = 12 + 2 + 128 + 1 };

static char texts[LAST + 1][LENGTH];
static pthread_once_t are_written = PTHREAD_ONCE_INIT;

/* A refusal that there is not has no name: its text stays empty. */
static void write_texts(void) {
    for (uint32_t number = 0; number <= LAST; number++) {
        size_t length = gerfmuod_refusal_name(number, texts[number], LENGTH).length;
        if (length == 0) continue;
        texts[number][length++] = ':', texts[number][length++] = ' ';
        gerfmuod_refusal_meaning(number, texts[number] + length, LENGTH - 1 - length);
    }
}

const char *gerfmuod_refusal_text(uint32_t refused) {
    pthread_once(&are_written, write_texts);
    return refused <= LAST && texts[refused][0] ? texts[refused] : "Unknown: there is no such refusal";
}

/* What the process waits for, or which call of it is due. Writes at most `room` bytes. */
static void write_reason(const gerfmuod_process *p, char *to, size_t room) {
    uint64_t left = 2 * (uint64_t)p->number + 1;
    gerfmuod_process after = *p;
    gerfmuod_control_message message;
    uint32_t next = gerfmuod_process_next(&after, &message);
    if (next == GERFMUOD_PROCESS_ENDED) snprintf(to, room, "knows the end");
    else if (next == GERFMUOD_PROCESS_AGAIN) snprintf(to, room, "gerfmuod_process_next is due, which judges the wave");
    else if (next == GERFMUOD_PROCESS_SEND)
        snprintf(to, room, "gerfmuod_process_next is due, which has a control message for process %" PRIu64, message.to);
    else if (next != GERFMUOD_PROCESS_NOTHING) snprintf(to, room, "refused: %s", gerfmuod_refusal_text(next));
    else if (p->here && p->up_left && p->up_right)
        snprintf(to, room, "waits for the wave to come back from processes %" PRIu64 " and %" PRIu64, left, left + 1);
    else if (p->here && (p->up_left || p->up_right))
        snprintf(to, room, "waits for the wave to come back from process %" PRIu64, left + !p->up_left);
    else if (p->here || p->number == 0) snprintf(to, room, "waits for its open work");
    else snprintf(to, room, "waits for wave %" PRIu64 ", or the end, from process %u", p->wave + 1, (p->number - 1) / 2);
}

const char *gerfmuod_process_text(const gerfmuod_process *process) {
    static __thread char text[384];
    const gerfmuod_process *p = process;
    if (!gerfmuod_process_is_open(p)) return "no process is open";
    int length = snprintf(text, sizeof text,
                          "process %u of %u, epoch %" PRIu64 ": %" PRIu64 " pieces of work open, %" PRIu64 " messages sent, %" PRIu64
                          " received, wave %" PRIu64 "; ",
                          p->number, p->processes, p->epoch, p->pending, p->sent, p->received, p->wave);
    write_reason(p, text + length, sizeof text - (size_t)length);
    return text;
}
