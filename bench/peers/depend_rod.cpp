// A rod by OpenMP's tasks with `depend`, one for each block of each step, made by one thread:
// depend_rod STEPS BLOCK [--nodes N] [--workers W] [--timing RUNS] < CELLS.
#include "rod.hpp"
#include "timing.hpp"

#include <omp.h>

int main(int count, char **words) {
    if (count < 3) return 1;
    const std::vector<int64_t> cells = read_cells();
    omp_set_num_threads(threads_of(count, words));
    // the threads exist before a time begins
#pragma omp parallel
    {
    }
    Times times(count, words);
    while (times.again()) {
        Rod rod(cells, std::strtoull(words[1], nullptr, 10), std::strtoull(words[2], nullptr, 10));
#pragma omp parallel
#pragma omp single
        for (std::size_t task = rod.blocks; task < rod.values.size(); task++) {
            [[maybe_unused]] auto *made = &rod.values[task];
            auto *own = rod.before(task, 0), *left = rod.before(task, -1), *right = rod.before(task, 1);
            if (!left) left = own;
            if (!right) right = own;
#pragma omp task depend(in : left[0], own[0], right[0]) depend(out : made[0]) firstprivate(task) shared(rod)
            rod.run(task);
        }
        times.end();
        if (times.is_last()) rod.print();
    }
    times.print();
}
