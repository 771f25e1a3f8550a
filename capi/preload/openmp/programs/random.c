/* random.c SEED TASKS: a random program: nested tasks with random clauses on six addresses, taskwaits and taskgroups. Each task that
 * names an address exclusively checks that no other one uses it meanwhile, of its siblings. Threads that wait for dependences are
 * only in a team of one: libomp 14 has what others count for such a wait on the stack of the thread, which goes on too early. */
#include <omp.h>
#include <stdio.h>
#include <stdlib.h>

enum { CELLS = 6, DEPTH = 3 };
typedef struct cell { int value, users; } cell;
static int left, wrong, is_alone;

static unsigned next(unsigned *seed) { return (*seed = *seed * 1664525u + 1013904223u) >> 16; }
static void make(int depth, unsigned seed);

/* A body: `alone` and `both` are the cells that it uses alone, or NULL. */
static void body(int depth, unsigned seed, cell *alone, cell *both) {
    cell *cells[] = {alone, both != alone ? both : NULL};
    for (int k = 0; k < 2; k++)
        if (cells[k] && __sync_fetch_and_add(&cells[k]->users, 1)) __sync_fetch_and_add(&wrong, 1);
    for (volatile unsigned k = next(&seed) % 300; k > 0; k--) {}
    if (depth > 0 && next(&seed) % 4 == 0) make(depth - 1, seed);
    for (int k = 0; k < 2; k++)
        if (cells[k]) __sync_fetch_and_sub(&cells[k]->users, 1);
}

#define TASK(clauses, alone, both) _Pragma(clauses) body(depth, own, alone, both); break
static void make_one(int depth, unsigned *seed, cell *a, cell *b) {
    unsigned own = next(seed) | 1;
    switch (next(seed) % 12) {
    case 0: TASK("omp task", NULL, NULL);
    case 1: TASK("omp task depend(in : *a)", NULL, NULL);
    case 2: TASK("omp task depend(inout : *a) priority(3)", a, NULL);
    case 3: TASK("omp task depend(mutexinoutset : *a)", a, NULL);
    case 4: TASK("omp task depend(in : *a) depend(out : *b)", b, NULL);
    case 5: TASK("omp task depend(in : *a) depend(mutexinoutset : *b)", b, NULL);
    case 6: TASK("omp task depend(inout : *a, *b)", a, b);
    case 7: TASK("omp task depend(mutexinoutset : *a, *b) untied", a, b);
    case 8: TASK("omp task depend(inout : *a) if (!is_alone)", a, NULL);
    case 9: TASK("omp task depend(in : *a, *b) final(1)", NULL, NULL);
    case 10:
#pragma omp taskgroup
        make(depth - 1, own);
        break;
    default:
        if (!is_alone || own % 3 == 0) {
#pragma omp taskwait
        } else {
#pragma omp taskwait depend(in : *a) depend(inout : *b)
        }
    }
}
static void make(int depth, unsigned seed) {
    cell *cells = calloc(CELLS, sizeof *cells);
    for (int k = 0; cells && depth >= 0 && k < 12 && __sync_fetch_and_sub(&left, 1) > 0; k++)
        make_one(depth, &seed, &cells[next(&seed) % CELLS], &cells[next(&seed) % CELLS]);
#pragma omp taskwait
    free(cells);
}

int main(int count, char **arguments) {
    unsigned seed = count > 1 ? (unsigned)atoi(arguments[1]) : 1;
    left = count > 2 ? atoi(arguments[2]) : 500;
#pragma omp parallel
#pragma omp single
    for (is_alone = omp_get_num_threads() == 1; __sync_fetch_and_add(&left, 0) > 0;) make(DEPTH, next(&seed));
    printf("%s\n", wrong ? "WRONG" : "as it should be");
    return wrong != 0;
}
