// oneTBB's threads, which a program starts once: before a time is taken each of them has had work.
#pragma once

#include <tbb/parallel_for.h>

inline void start_threads(int threads) {
    tbb::parallel_for(0, 100 * threads, [](int) {
        for (volatile int turn = 0; turn < 10000; turn = turn + 1) {
        }
    });
}
