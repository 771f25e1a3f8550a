// first.cpp: two tasks, and a third one that waits for both: the C++ program of docs/YOUR-BODIES.md.
#include <gerfmuod/gerfmuod.hpp>
#include <cmath>
#include <cstdio>

int main() {
    double x = 0, y = 0, z = 0;
    gerfmuod::Pool pool;
    auto a = pool.task([&] { x = std::sqrt(2.0); });
    auto b = pool.task([&] { y = std::exp(1.0); });
    pool.task([&] { z = x * y; }, {a, b}); // waits for a and b
    pool.run(4);
    std::printf("%.6f\n", z); // 3.844231
}
