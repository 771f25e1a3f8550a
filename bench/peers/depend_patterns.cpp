// A grid of Task Bench by OpenMP's tasks with `depend`, made by one thread:
// depend_patterns PATTERN WIDTH STEPS ITERATIONS [--nodes N] [--workers W] [--radius K] [--seed S] [--timing RUNS].
#include "patterns.hpp"
#include "timing.hpp"

#include <omp.h>

int main(int count, char **words) {
    omp_set_num_threads(threads_of(count, words));
    // the threads exist before a time begins
#pragma omp parallel
    {
    }
    Times times(count, words);
    while (times.again()) {
        Grid grid = grid_of(count, words);
#pragma omp parallel
#pragma omp single
        for (uint32_t task = 0; task < grid.tasks(); task++) {
            [[maybe_unused]] uint64_t *own = &grid.values[task], *before = &grid.values[grid.before(task)];
            [[maybe_unused]] const uint32_t *columns = grid.sources(task).data();
            [[maybe_unused]] const int inputs = int(grid.sources(task).size());
#pragma omp task depend(iterator(k = 0 : inputs), in : before[columns[k]]) depend(out : own[0]) firstprivate(task) shared(grid)
            grid.run(task);
        }
        times.end();
        if (times.is_last()) grid.print();
    }
    times.print();
}
