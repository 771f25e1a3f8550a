// Runs that are repeated and timed in one process: the option --timing RUNS.
#pragma once

#include "words.hpp"

#include <algorithm>
#include <chrono>
#include <cstdio>
#include <vector>

// while (times.again()) { RUN; times.end(); if (times.is_last()) PRINT; } times.print();
// What a run makes is destroyed after its time has ended.
class Times {
    using Clock = std::chrono::steady_clock;
    std::size_t runs;
    bool is_asked;
    Clock::time_point start;
    std::vector<long long> nanoseconds;

  public:
    Times(int count, char **words)
        : runs(std::max(option(count, words, "--timing", 0), 1)), is_asked(option(count, words, "--timing", 0) > 0) {}

    // Whether there is another run. Its time begins now.
    bool again() {
        start = Clock::now();
        return nanoseconds.size() < runs;
    }

    void end() { nanoseconds.push_back(std::chrono::nanoseconds(Clock::now() - start).count()); }

    bool is_last() const { return nanoseconds.size() == runs; }

    void print() const {
        for (long long time : nanoseconds)
            if (is_asked) std::printf("nanoseconds %lld\n", time);
    }
};
