/* violations.h: cases that share random runs. The first case makes the runs; each case fails if they violate its own guarantee. */
#ifndef VIOLATIONS_H
#define VIOLATIONS_H
#include "cases.h"
#include <inttypes.h>

/* How often a guarantee was violated, and where for the first time. */
typedef struct {
    uint64_t count;
    char first[400];
} violations;

static jmp_buf after_runs;

/* Of the test that includes this file. */
static void make_runs(void);

/* Counts violations, if there are some; the text says where they are. Only for the thread of the case. */
__attribute__((format(printf, 3, 4)))
static inline void count_violations(violations *of, uint64_t count, const char *format, ...) {
    va_list arguments;
    if (count && !of->count) {
        va_start(arguments, format);
        vsnprintf(of->first, sizeof of->first, format, arguments);
        va_end(arguments);
    }
    of->count += count;
}

/* Counts a violation and ends the runs: what comes after it shows nothing. */
#define end_runs(of, ...) (count_violations(of, 1, __VA_ARGS__), longjmp(after_runs, 1))

/* Makes the runs, unless an earlier case began them. Returns whether they are over: not so if that case did not survive them. */
static inline bool has_made_runs(void) {
    static bool have_begun, are_over;
    if (have_begun) return are_over;
    have_begun = true;
    if (!setjmp(after_runs)) make_runs();
    return are_over = true;
}

/* Fails the case if there are violations. */
#define check_none(of) check_no_violation(__FILE__, __LINE__, of)
static inline void check_no_violation(const char *file, int line, const violations *of) {
    check_text(file, line, has_made_runs(), "the runs were cut off in an earlier case");
    check_text(file, line, !of->count, "violated %" PRIu64 " times, first %s", of->count, of->first);
}
#endif
