/* clauses.c: tasks with each clause and construct that the tool handles; the result of each part is checked. */
#include <omp.h>
#include <stdio.h>
#include <stdlib.h>

enum { TASKS = 40 };
static int wrong;
static void expect(const char *what, int value, int expected) {
    if (value == expected) return;
    printf("%s: %d, not %d\n", what, value, expected);
    wrong++;
}

static void groups(void) { /* all descendants of a taskgroup end before it */
    int sum = 0;
#pragma omp taskgroup
    for (int k = 0; k < TASKS; k++) {
#pragma omp task shared(sum)
        {
#pragma omp task shared(sum)
#pragma omp atomic
            sum++;
        }
    }
    expect("taskgroup", sum, TASKS);
}
static void loops(void) {
    int sum = 0;
#pragma omp taskloop grainsize(3) reduction(+ : sum) priority(2)
    for (int k = 0; k < TASKS; k++) sum += k;
    expect("taskloop", sum, TASKS * (TASKS - 1) / 2);
    sum = 0;
#pragma omp taskgroup
    {
#pragma omp taskloop nogroup num_tasks(7) shared(sum)
        for (int k = 0; k < TASKS; k++) {
#pragma omp atomic
            sum += k;
        }
    }
    expect("taskloop nogroup", sum, TASKS * (TASKS - 1) / 2);
}
static void exclusive(void) { /* without an atomic operation: each excludes the others */
    int sum = 0, result = 0;
#pragma omp task depend(out : sum) shared(sum)
    sum = 1;
    for (int k = 0; k < TASKS; k++) {
#pragma omp task depend(mutexinoutset : sum) shared(sum) priority(k % 3)
        sum += 1;
    }
#pragma omp task depend(in : sum) shared(sum, result)
    result = sum;
#pragma omp taskwait
    expect("mutexinoutset", result, TASKS + 1);
}
static void readers(void) { /* more inputs than a task of the core has */
    int cells[TASKS], sum = 0;
    for (int k = 0; k < TASKS; k++) {
#pragma omp task depend(out : cells[k]) depend(in : sum) shared(cells)
        cells[k] = k;
    }
#pragma omp task depend(inout : sum) shared(sum, cells)
    for (int k = 0; k < TASKS; k++) sum += cells[k];
    int two = 0;
#pragma omp task depend(in : sum) depend(out : two) shared(sum, two)
    two = 2 * sum;
    if (omp_get_num_threads() == 1) { /* (see random.c) */
#pragma omp taskwait depend(in : two)
        expect("taskwait depend", two, TASKS * (TASKS - 1));
    }
#pragma omp taskwait
    expect("more than 16 inputs", two, TASKS * (TASKS - 1));
}
static void kinds(void) { /* undeferred, included, untied, mergeable tasks; a task that yields; one alone after another */
    int chain = 0, sum = 0;
    for (int k = 0; k < TASKS; k++) {
#pragma omp task depend(inout : chain) shared(chain) if (k % 4 || omp_get_num_threads() > 1)
        chain++;
#pragma omp task shared(sum) final(k % 5 == 0) untied mergeable
        {
#pragma omp taskyield
#pragma omp task shared(sum)
#pragma omp atomic
            sum++;
#pragma omp taskwait
        }
    }
#pragma omp taskwait
    expect("if(0), depend(inout)", chain, TASKS);
    expect("final, untied", sum, TASKS);
}
static void detached(void) {
    omp_event_handle_t event = (omp_event_handle_t)0;
    int x = 0, y = 0;
#pragma omp task depend(out : x) detach(event) shared(x)
    x = 1;
#pragma omp task firstprivate(event)
    omp_fulfill_event(event);
#pragma omp task depend(in : x) shared(x, y)
    y = x;
#pragma omp taskwait
    expect("detach", y, 1);
}
static void nested(void) {
    int sum = 0;
#pragma omp parallel num_threads(2)
#pragma omp single
    for (int k = 0; k < TASKS; k++) {
#pragma omp task shared(sum)
#pragma omp atomic
        sum++;
    }
    expect("nested parallel", sum, TASKS);
}

int main(void) {
    omp_set_max_active_levels(2);
#pragma omp parallel
    {
#pragma omp single
        groups();
#pragma omp single
        {
            loops();
            exclusive();
            readers();
        }
#pragma omp barrier
#pragma omp single nowait
        kinds();
#pragma omp single
        nested();
#pragma omp single
        if (omp_get_num_threads() > 1) detached(); /* (libomp 14 aborts after it in a team of one thread, with and without a tool) */
    }
    exclusive(); /* outside of a parallel region */
    printf("%s\n", wrong ? "WRONG" : "as it should be");
    return wrong != 0;
}
