/* times.c: the times of a run as trace events, which Perfetto and browsers show: a line for each thread, a bar for each part of a
 * task, for other code, and for each wait. They are kept in memory and written when the program ends. */
#include "tool.h"
#include <stdio.h>
#include <stdlib.h>

enum { FIRST_ROOM = 1 << 12, MOST_BARS = 1 << 22 };

typedef struct bar {
    uint64_t begin, end;
    const site *made_at;
    uint32_t task, thread;
    const char *kind;
} bar;
static bar *bars;
static size_t count, room;
static uint64_t lost;

void note_bar(const worker *w, uint64_t until) {
    if (count == room && room < MOST_BARS) {
        size_t more = room ? 2 * room : FIRST_ROOM;
        bar *at = realloc(bars, more * sizeof *bars);
        if (at) bars = at, room = more;
    }
    if (count == room) {
        lost++;
        return;
    }
    const task *t = w->now;
    bars[count++] = (bar){w->since, until, t->site, t->id, w->number, t->wait ? "wait" : t->is_implicit ? "other" : "task"};
}

static void write_bar(FILE *file, const bar *b, uint64_t start) {
    char name[512];
    fprintf(file, ",\n{\"ph\":\"X\",\"pid\":1,\"tid\":%u,\"ts\":%.3f,\"dur\":%.3f,\"cat\":\"%s\",\"name\":", b->thread,
            (double)(b->begin - start) / 1e3, (double)(b->end - b->begin) / 1e3, b->kind);
    if (*b->kind != 't') fprintf(file, "\"%s\"}", b->kind);
    else fprintf(file, "\"%s\",\"args\":{\"task\":%u}}", place_of(b->made_at->code, name), b->task);
}

void write_times(uint64_t start, uint64_t elapsed) {
    if (!*option.times) return;
    FILE *file = fopen(option.times, "w");
    if (!file) {
        say("the times were not written: %s", option.times);
        return;
    }
    fprintf(file, "{\"displayTimeUnit\":\"ns\",\"otherData\":{\"elapsed_us\":%.3f,\"critical_path_us\":%.3f},\n\"traceEvents\":[\n",
            (double)elapsed / 1e3, (double)total.span / 1e3);
    fprintf(file, "{\"ph\":\"M\",\"pid\":1,\"name\":\"process_name\",\"args\":{\"name\":\"OpenMP\"}}");
    for (uint32_t n = 1; n <= total.threads; n++)
        fprintf(file, ",\n{\"ph\":\"M\",\"pid\":1,\"tid\":%u,\"name\":\"thread_name\",\"args\":{\"name\":\"thread %u\"}}", n, n);
    for (size_t n = 0; n < count; n++) write_bar(file, &bars[n], start);
    fprintf(file, "\n]}\n");
    if (fclose(file)) say("the times were not written: %s", option.times);
    if (lost) say("%llu bars had no room in %s", (unsigned long long)lost, option.times);
}
