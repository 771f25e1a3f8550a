// A rod of cells in blocks, for programs in C++: each block of each step has a list of its own, as a task's value has.
#pragma once

#include "words.hpp"

#include <algorithm>
#include <cstddef>
#include <cstdint>
#include <cstdio>
#include <cstdlib>
#include <string>
#include <vector>

struct Rod {
    std::size_t steps, block, length, blocks;
    // blocks of the beginning, then those after the first step, and so on
    std::vector<std::vector<int64_t>> values;

    Rod(const std::vector<int64_t> &cells, std::size_t steps, std::size_t block)
        : steps(steps), block(block), length(cells.size()), blocks((length + block - 1) / block), values((steps + 1) * blocks) {
        for (std::size_t k = 0; k < blocks; k++)
            values[k].assign(cells.begin() + k * block, cells.begin() + std::min(length, (k + 1) * block));
    }

    // A block of the step before that lies so far to the left (-1) or to the right (1); nothing beyond the ends.
    std::vector<int64_t> *before(std::size_t task, int away) {
        const std::size_t column = task % blocks;
        if ((away < 0 && column == 0) || (away > 0 && column + 1 == blocks)) return nullptr;
        return &values[task - blocks + away];
    }

    // Makes a block out of those of the step before.
    void run(std::size_t task) {
        const auto *left = before(task, -1), *own = before(task, 0), *right = before(task, 1);
        auto &made = values[task];
        const std::size_t size = own->size();
        made.resize(size);
        for (std::size_t k = 0; k < size; k++) {
            const int64_t one = k > 0 ? (*own)[k - 1] : left ? left->back() : 0;
            const int64_t other = k + 1 < size ? (*own)[k + 1] : right ? right->front() : 0;
            made[k] = one / 3 + (*own)[k] / 3 + other / 3;
        }
    }

    void print() const {
        for (std::size_t k = 0; k < blocks; k++)
            for (int64_t cell : values[steps * blocks + k]) std::printf("%lld\n", (long long)cell);
    }
};

// The cells of standard input, a number a line.
inline std::vector<int64_t> read_cells() {
    std::vector<int64_t> cells;
    char line[64];
    while (std::fgets(line, sizeof line, stdin)) cells.push_back(std::strtoll(line, nullptr, 10));
    return cells;
}
