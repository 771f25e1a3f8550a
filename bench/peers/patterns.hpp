// Task Bench's patterns for programs in C++: rows of tasks, in which a relation of columns says which of a row feed which of
// the next. Values lie in one list of cells that the tasks share, row by row.
#pragma once

#include "words.hpp"

#include <algorithm>
#include <cstddef>
#include <cstdint>
#include <cstdio>
#include <cstdlib>
#include <cstring>
#include <vector>

constexpr uint64_t LIMIT = uint64_t(1) << 31;

// One iteration of the kernel.
inline uint64_t stirred(uint64_t x) { return (x * (2 * x + 1) + 1013904223) % LIMIT; }

// What a column makes of the sum of its inputs. The iterations are those of `stirred`, told of y = 2x + 1 mod 2^32: GCC makes
// nearly as short a chain of these as LLVM does of those.
inline uint64_t made(uint64_t iterations, uint32_t column, uint64_t total) {
    uint32_t y = uint32_t(2 * (total + column + 1) + 1);
    for (uint64_t k = 0; k < iterations; k++) y = y * (y - 1) + 2027808447;
    return y / 2;
}

enum class Pattern { trivial, no_comm, stencil, stencil_periodic, dom, tree, fft, all_to_all, nearest, spread, random_nearest };

// Which columns of a row of this width feed which of the next.
struct Relation {
    Pattern pattern;
    uint32_t width, radius, seed;

    // How many of 2, 4, 8 and so on are at most the width, but 1 at least.
    uint32_t doublings() const {
        uint32_t count = 1;
        while (width >> (count + 1) > 0) count++;
        return count;
    }

    // The column so many fifths of a row to the right of a column, moved by one from row to row.
    uint32_t fifth(uint32_t step, uint32_t to, uint32_t fifths) const {
        return (uint64_t(to) + uint64_t(fifths) * width / 5 + (step - 1) + seed) % width;
    }

    // One bit, by chance.
    bool is_drawn(uint32_t step, uint32_t from, uint32_t to) const {
        const uint64_t mixed = seed + uint64_t(7919) * step + uint64_t(104729) * from + uint64_t(1299709) * to;
        return stirred(stirred(mixed % LIMIT)) / 1048576 % 2 == 0;
    }

    // Whether a column of the row before feeds a column of a row, which is 1 or more.
    bool relates(uint32_t step, uint32_t from, uint32_t to) const {
        const uint32_t apart = std::max(from, to) - std::min(from, to);
        switch (pattern) {
            case Pattern::trivial: return false;
            case Pattern::no_comm: return from == to;
            case Pattern::stencil: return apart <= 1;
            case Pattern::stencil_periodic: return apart <= 1 || apart + 1 == width;
            case Pattern::dom: return from == to || from + 1 == to;
            case Pattern::tree: return from == to / 2;
            case Pattern::fft: return from == to || apart == uint32_t(1) << (step - 1) % doublings();
            case Pattern::all_to_all: return true;
            case Pattern::nearest: return apart <= radius;
            case Pattern::random_nearest: return from == to || (apart <= radius && is_drawn(step, from, to));
            case Pattern::spread: break;
        }
        for (uint32_t fifths = 1; fifths <= 4; fifths++)
            if (from == fifth(step, to, fifths)) return true;
        return from == to;
    }

    // After how many rows it comes again: after all of them where chance draws each.
    uint32_t period(uint32_t steps) const {
        switch (pattern) {
            case Pattern::fft: return doublings();
            case Pattern::spread: return width;
            case Pattern::random_nearest: return steps;
            default: return 1;
        }
    }
};

// So many rows of tasks over a relation, which are numbered row by row.
struct Grid {
    Relation relation;
    uint32_t steps;
    uint64_t iterations;
    std::vector<uint64_t> values;
    // which columns feed a column, for the rows from 1 on up to where the relation comes again
    std::vector<std::vector<uint32_t>> inputs;

    Grid(const Relation &relation, uint32_t steps, uint64_t iterations)
        : relation(relation), steps(steps), iterations(iterations), values(std::size_t(steps) * relation.width) {
        for (uint32_t step = 1; step <= std::min(relation.period(steps), steps - 1); step++)
            for (uint32_t to = 0; to < relation.width; to++) {
                inputs.emplace_back();
                for (uint32_t from = 0; from < relation.width; from++)
                    if (relation.relates(step, from, to)) inputs.back().push_back(from);
            }
    }

    uint32_t tasks() const { return uint32_t(values.size()); }

    // The columns of the row before whose values a task takes.
    const std::vector<uint32_t> &sources(uint32_t task) const {
        static const std::vector<uint32_t> none;
        return task < relation.width ? none : inputs[(task - relation.width) % inputs.size()];
    }

    // The first task of the row before; of the first row the first of all.
    uint32_t before(uint32_t task) const { return std::max(task - task % relation.width, relation.width) - relation.width; }

    // Runs a task whose sources have run.
    void run(uint32_t task) {
        uint64_t total = 0;
        for (uint32_t column : sources(task)) total += values[before(task) + column];
        values[task] = made(iterations, task % relation.width, total);
    }

    // Prints the checksum of the last row, and how many tasks there were.
    void print() const {
        uint64_t sum = 0;
        for (uint32_t task = tasks() - relation.width; task < tasks(); task++) sum = (sum + values[task]) % LIMIT;
        std::printf("checksum %llu\ntasks %u\nended\n", (unsigned long long)sum, tasks());
    }
};

// The place of a pattern's name among those of the patterns.
inline Pattern pattern_of(const char *word) {
    const char *names[] = {"trivial", "no_comm", "stencil", "stencil_periodic", "dom", "tree", "fft", "all_to_all", "nearest",
                           "spread", "random_nearest"};
    for (int k = 0; k < 11; k++)
        if (std::strcmp(word, names[k]) == 0) return Pattern(k);
    std::fprintf(stderr, "%s is no pattern\n", word);
    std::exit(1);
}

// The grid of the words PATTERN WIDTH STEPS ITERATIONS [--radius K] [--seed S].
inline Grid grid_of(int count, char **words) {
    const uint32_t width = count > 4 ? std::atoi(words[2]) : 0, steps = count > 4 ? std::atoi(words[3]) : 0;
    if (width == 0 || steps == 0) {
        std::fprintf(stderr, "wanted are PATTERN WIDTH STEPS ITERATIONS, one column and one row at least\n");
        std::exit(1);
    }
    const uint32_t radius = option(count, words, "--radius", 1), seed = option(count, words, "--seed", 0);
    return Grid({pattern_of(words[1]), width, radius, seed}, steps, std::strtoull(words[4], nullptr, 10));
}
