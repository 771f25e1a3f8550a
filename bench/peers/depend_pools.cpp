// A sample pool by OpenMP's tasks with `depend`, made by one thread: depend_pools POOL [--nodes N] [--workers W]
// [--timing RUNS].
#include "sample_pools.hpp"
#include "timing.hpp"

#include <omp.h>

// Makes a task that begins once those of its sources are done.
static void make(const Pool &pool, int64_t *cells, uint32_t task) {
    const std::vector<uint32_t> sources = pool.sources(task);
    [[maybe_unused]] int64_t *own = cells + pool.cell(task);
    if (pool.kind == Kind::product || sources.empty()) {
#pragma omp task depend(inout : own[0]) firstprivate(task, cells) shared(pool)
        pool.run(task, cells);
        return;
    }
    const int64_t *one = cells + sources.front(), *other = cells + sources.back();
    if (one == other) {
#pragma omp task depend(in : one[0]) depend(out : own[0]) firstprivate(task, cells) shared(pool)
        pool.run(task, cells);
    } else {
#pragma omp task depend(in : one[0], other[0]) depend(out : own[0]) firstprivate(task, cells) shared(pool)
        pool.run(task, cells);
    }
}

// The task that is made at a turn: of the product first all first ones of a tile, then all second ones, and so on.
static uint32_t task_at(const Pool &pool, uint32_t turn) {
    const uint32_t chains = pool.first * pool.first;
    return pool.kind == Kind::product ? turn % chains * pool.first + turn / chains : turn;
}

int main(int count, char **words) {
    if (count < 2) return 1;
    const Pool pool = pool_of(words[1]);
    omp_set_num_threads(threads_of(count, words));
    // the threads exist before a time begins
#pragma omp parallel
    {
    }
    Times times(count, words);
    while (times.again()) {
        std::vector<int64_t> cells(pool.cells());
#pragma omp parallel
#pragma omp single
        for (uint32_t turn = 0; turn < pool.tasks(); turn++) make(pool, cells.data(), task_at(pool, turn));
        times.end();
        if (times.is_last()) pool.print(cells);
    }
    times.print();
}
