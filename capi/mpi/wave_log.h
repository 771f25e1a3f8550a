/* wave_log.h: the newest waves of a gerfmuod_process with their times and sums. A program keeps this log next to the process:
 *
 *     static wave_log waves;
 *     gerfmuod_process_take(&p, &c);                                   after it
 *     wave_log_note(&waves, &p, GERFMUOD_PROCESS_NOTHING, &c, nanoseconds_now());
 *     next = gerfmuod_process_next(&p, &c);                            after each call
 *     wave_log_note(&waves, &p, next, &c, nanoseconds_now());
 *
 * It only reads the process and the control message. The times of a process are those of its own clock. */
#ifndef WAVE_LOG_H
#define WAVE_LOG_H
#include <gerfmuod/process.h>
#include <time.h>

enum { WAVES_KEPT = 4096 };

/* A wave at this process: it came, and was passed up, or judged by process 0, with the sums of this process and all below it. */
typedef struct logged_wave {
    uint64_t epoch, wave;
    uint64_t begin, end; /* end: 0 until then */
    uint64_t sent, received;
} logged_wave;

typedef struct wave_log {
    uint64_t count; /* all waves that came; the log keeps the newest */
    uint64_t known; /* when the end of the newest epoch was known here, or 0 */
    logged_wave kept[WAVES_KEPT];
} wave_log;

static inline uint64_t nanoseconds_now(void) {
    struct timespec time;
    clock_gettime(CLOCK_MONOTONIC, &time);
    return (uint64_t)time.tv_sec * 1000000000u + (uint64_t)time.tv_nsec;
}

/* Returns the wave with this number in the log, from 0. */
static inline logged_wave *wave_log_at(wave_log *log, uint64_t number) { return &log->kept[number % WAVES_KEPT]; }

/* Notes what a call has changed. `next` is the result of gerfmuod_process_next, or NOTHING after gerfmuod_process_take. */
static inline void wave_log_note(wave_log *log, const gerfmuod_process *p, uint32_t next, const gerfmuod_control_message *c, uint64_t now) {
    logged_wave *newest = log->count ? wave_log_at(log, log->count - 1) : NULL;
    if (p->wave && (!newest || newest->wave != p->wave || newest->epoch != p->epoch)) {
        newest = wave_log_at(log, log->count++);
        *newest = (logged_wave){.epoch = p->epoch, .wave = p->wave, .begin = now};
        log->known = 0;
    }
    bool is_passed = next == GERFMUOD_PROCESS_SEND && c->token == GERFMUOD_PROCESS_TOKEN_UP;
    if (newest && !newest->end && (is_passed || next == GERFMUOD_PROCESS_AGAIN)) {
        newest->end = now > newest->begin ? now : newest->begin;
        newest->sent = is_passed ? c->sent : p->taken_sent + p->sent;
        newest->received = is_passed ? c->received : p->taken_received + p->received;
    }
    if (next == GERFMUOD_PROCESS_ENDED && !log->known) log->known = now;
}
#endif
