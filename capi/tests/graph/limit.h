/* limit.h: a time limit for tests of teams. A team that misses a wake-up waits forever, and a test of it would, too. */
#ifndef LIMIT_H
#define LIMIT_H
#include <signal.h>
#include <stdio.h>
#include <unistd.h>

enum { SECONDS_OF_A_HANG = 200, STATUS_OF_A_HANG = 124 /* as `timeout` has it */ };

static void report_hang(int number) {
    static const char text[] = "it did not end within its time limit: a thread waits for news that does not come\n";
    ssize_t written = write(STDOUT_FILENO, text, sizeof text - 1);
    (void)number, (void)written;
    _exit(STATUS_OF_A_HANG);
}

/* Ends the program with a line and status 124 unless the limit is set again within its seconds. What was printed before is kept. */
static inline void limit_time(void) {
    setvbuf(stdout, NULL, _IOLBF, BUFSIZ);
    signal(SIGALRM, report_hang);
    alarm(SECONDS_OF_A_HANG);
}
#endif
