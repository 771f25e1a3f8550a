/* report.c: what the tool prints when the program ends: what was judged and what not, the time of tasks by the place that made
 * them, and the longest path. */
#include "tool.h"
#include <stdio.h>
#include <stdlib.h>
#include <string.h>

enum { SITES = 4096 };
static site sites[SITES]; /* a hash table; a place that finds no room shares one */

site *site_of(const void *code) {
    size_t at = (size_t)(((uint64_t)(uintptr_t)code * 0x9E3779B97F4A7C15u) >> 52);
    for (int tries = 0; tries < SITES && sites[at].tasks && sites[at].code != code; tries++) at = (at + 1) % SITES;
    if (!sites[at].tasks) sites[at].code = code;
    return &sites[at];
}

static double ms(uint64_t ns) { return (double)ns / 1e6; }
static double us(uint64_t ns) { return (double)ns / 1e3; }

static int by_time(const void *a, const void *b) {
    const site *first = *(site *const *)a, *second = *(site *const *)b;
    return (first->ns < second->ns) - (first->ns > second->ns);
}

static void print_places(void) {
    static site *order[SITES];
    char room[512];
    for (int n = 0; n < SITES; n++) order[n] = &sites[n];
    qsort(order, SITES, sizeof *order, by_time);
    say("%12s %12s %12s %12s  made at", "tasks", "mean us", "least us", "most us");
    for (int n = 0; n < SITES; n++) {
        const site *s = order[n];
        if (!s->tasks) continue;
        double mean = s->ended ? us(s->ns) / (double)s->ended : 0;
        say("%12llu %12.2f %12.2f %12.2f  %s", (unsigned long long)s->tasks, mean, us(s->least), us(s->most), place_of(s->code, room));
        if (s->early) say("%12s %llu of them ended before their children did", "", (unsigned long long)s->early);
    }
}

/* What was not judged, one sentence each. */
static void print_gaps(void) {
    const struct { uint64_t count; const char *text; } gaps[] = {
        {total.unjudged, "the rest of a region until its next barrier"},
        {total.cancelled, "the barriers of a parallel region that was cancelled"},
        {total.unsent, "dependences that were not sent, or are of a kind that this tool does not know"},
        {total.unended, "the end of a task, which the runtime did not send"},
        {total.ordered, "a dependence of a loop's iteration (doacross)"},
        {total.devices, "what a device did for a target task"},
        {total.orphans, "a task that a thread made which the runtime did not announce"},
    };
    for (size_t n = 0; n < sizeof gaps / sizeof *gaps; n++)
        if (gaps[n].count) say("not judged, times %llu: %s", (unsigned long long)gaps[n].count, gaps[n].text);
}

static void say_count(char *text, uint64_t count, const char *what, const char *end) {
    sprintf(text + strlen(text), "%llu %s%s%s", (unsigned long long)count, what, count == 1 ? "" : "s", end);
}

static void say_bound(const char *of, uint64_t work, uint64_t path) {
    double most = path ? (double)work / (double)path : 0;
    say("%s: work %.3f ms, longest path %.3f ms: at most %.2f times as fast as one thread", of, ms(work), ms(path), most);
}

void print_report(uint64_t elapsed) {
    char text[256] = "";
    say_count(text, total.tasks, "task", ", ");
    say_count(text, total.dependences, "dependence", "; ");
    say_count(text, total.ends, "end", " judged; ");
    say_count(text, total.faults, "fault", "");
    say("%s", text);
    print_gaps();
    if (!option.has_report) return;
    say("%.3f ms with %u threads: %.3f ms in tasks, %.3f ms in other code of parallel regions, %.3f ms outside of them, %.3f ms waiting",
        ms(elapsed), total.threads, ms(total.in_tasks), ms(total.outside), ms(total.serial), ms(total.waiting));
    uint64_t inside = total.in_tasks + total.outside; /* what is outside is on the longest path as a whole */
    say_bound("the program", inside + total.serial, total.span);
    if (total.span > total.serial) say_bound("its parallel regions", inside, total.span - total.serial);
    if (total.tasks) print_places();
}
