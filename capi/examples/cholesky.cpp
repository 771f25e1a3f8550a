// cholesky.cpp: Cholesky's factorization in tiles, written as a sequential program whose steps are tasks: each names the tiles that it
// accesses.
#include <gerfmuod/gerfmuod.hpp>
#include "kernels.h"
#include <cstdio>
#include <cstdlib>
#include <deque>

using gerfmuod::priority, gerfmuod::read, gerfmuod::update;
using Tile = gerfmuod::Data<std::vector<double>>; // column by column

static const int count = 8, size = 32;

static double entry(int i, int j) { return i == j ? count * size : 1.0 / (1 + std::abs(i - j)); }

static void factor_tile(std::vector<double> &a) {
    if (factor(size, a.data())) throw std::domain_error("the matrix is not positive definite");
}
static void solve_tile(const std::vector<double> &l, std::vector<double> &b) { solve(size, l.data(), b.data()); }
static void subtract(const std::vector<double> &a, const std::vector<double> &b, std::vector<double> &c) {
    if (&a == &b) subtract_square(size, a.data(), c.data());
    else subtract_product(size, a.data(), b.data(), c.data());
}

int main() {
    gerfmuod::Pool pool;
    std::deque<Tile> tiles; // of the lower half, row by row
    auto tile = [&](int i, int j) -> Tile & { return tiles[i * (i + 1) / 2 + j]; };
    for (int i = 0; i < count; i++)
        for (int j = 0; j <= i; j++) {
            std::vector<double> &a = tiles.emplace_back(pool, size * size).value;
            for (int at = 0; at < size * size; at++) a[at] = entry(i * size + at % size, j * size + at / size);
        }

    for (int k = 0; k < count; k++) {
        pool.task(factor_tile, update(tile(k, k)));
        for (int i = k + 1; i < count; i++) pool.task(solve_tile, read(tile(k, k)), update(tile(i, k)), priority(1));
        for (int i = k + 1; i < count; i++)
            for (int j = k + 1; j <= i; j++)
                pool.task(subtract, read(tile(i, k)), read(tile(j, k)), update(tile(i, j)), priority(2));
    }
    pool.run(4);

    auto lower = [&](int i, int j) { return j > i ? 0 : tile(i / size, j / size).value[j % size * size + i % size]; };
    double distance = 0; // of the product of the factors and the matrix
    for (int i = 0; i < count * size; i++)
        for (int j = 0; j <= i; j++) {
            double sum = 0;
            for (int k = 0; k <= j; k++) sum += lower(i, k) * lower(j, k);
            distance = std::fmax(distance, std::fabs(sum - entry(i, j)));
        }
    std::printf("%zu tasks, the product differs by %s\n", pool.size(), distance < 1e-10 ? "less than 1e-10" : "too much");
    return distance < 1e-10 ? 0 : 1;
}
