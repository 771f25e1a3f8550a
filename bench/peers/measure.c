/* Runs a program and prints what it took: `measure [--output] PROGRAM ARGUMENTS..`. Its output is dropped, unless --output
 * asks for it; its standard error goes through.
 *
 * Written are nanoseconds, KiB of memory at most, the status as wait tells it, nanoseconds of processor (user and system),
 * context switches and page faults, a line each. A small process does that, since what a child had as memory at most
 * begins with that of its parent. */
#define _GNU_SOURCE
#include <fcntl.h>
#include <stdio.h>
#include <string.h>
#include <sys/resource.h>
#include <sys/wait.h>
#include <time.h>
#include <unistd.h>

static long long nanoseconds(struct timeval it) { return it.tv_sec * 1000000000LL + it.tv_usec * 1000LL; }

static long long now(void) {
    struct timespec it;
    clock_gettime(CLOCK_MONOTONIC, &it);
    return it.tv_sec * 1000000000LL + it.tv_nsec;
}

int main(int count, char **words) {
    int shows = count > 1 && strcmp(words[1], "--output") == 0;
    if (count < 2 + shows) return 2;
    long long from = now();
    pid_t child = fork();
    if (child < 0) return 1;
    if (child == 0) {
        if (!shows) dup2(open("/dev/null", O_WRONLY), 1);
        execvp(words[1 + shows], words + 1 + shows);
        _exit(127);
    }
    int status = 0;
    struct rusage used;
    if (wait4(child, &status, 0, &used) != child) return 1;
    long long to = now();
    printf("time %lld\nmemory %ld\nstatus %d\n", to - from, used.ru_maxrss, status);
    printf("processor %lld\n", nanoseconds(used.ru_utime) + nanoseconds(used.ru_stime));
    printf("switches %ld\nfaults %ld\n", used.ru_nvcsw + used.ru_nivcsw, used.ru_minflt + used.ru_majflt);
    return 0;
}
