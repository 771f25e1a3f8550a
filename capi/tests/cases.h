/* cases.h: cmocka, and what all tests that use it include. CASE begins a case; RUN runs an array of cases. */
#ifndef CASES_H
#define CASES_H
#include <setjmp.h>
#include <stdarg.h>
#include <stdbool.h>
#include <stddef.h>
#include <stdint.h>
#include <stdio.h>
#include <stdlib.h>
#include <string.h>

#include <cmocka.h>

#define CASE(name) static void name(void **unused __attribute__((unused)))
/* Fails the case with a text, unless a condition holds. */
#define check_that(holds, ...) check_text(__FILE__, __LINE__, holds, __VA_ARGS__)
static inline void check_text(const char *file, int line, bool holds, const char *format, ...) {
    char text[512];
    va_list arguments;
    if (holds) return;
    va_start(arguments, format);
    vsnprintf(text, sizeof text, format, arguments);
    va_end(arguments);
    print_error("%s:%d: %s\n", file, line, text); /* if this is not the thread of the case, the program exits at once */
    _assert_true(0, text, file, line);
}

/* Returns how many cases of the array failed. */
#define RUN(cases) cmocka_run_group_tests(cases, NULL, NULL)
#endif
