// fibonacci.cpp: tasks that make tasks and wait for their results. A task makes two others and one that adds up: it waits for two
// calls of release(), which the tasks that compute the parts make. The result is compared with a loop's.
//
//   fibonacci NUMBER THREADS
#include <gerfmuod/gerfmuod.hpp>

#include <cstdio>
#include <cstdlib>

// Computes a Fibonacci number, and then releases the task that needs it.
static void compute(gerfmuod::Pool &pool, int number, long *result, gerfmuod::Task reader) {
    if (number < 2) {
        *result = number;
        return pool.release(reader);
    }
    auto parts = std::make_shared<std::pair<long, long>>();
    auto add = [&pool, parts, result, reader] {
        *result = parts->first + parts->second;
        pool.release(reader);
    };
    auto sum = pool.task(add, gerfmuod::releases(2));
    pool.task([=, &pool] { compute(pool, number - 1, &parts->first, sum); });
    pool.task([=, &pool] { compute(pool, number - 2, &parts->second, sum); });
}

int main(int argc, char **argv) {
    int number = argc > 1 ? std::atoi(argv[1]) : 15, threads = argc > 2 ? std::atoi(argv[2]) : 4;
    long result = -1, wanted = 0, next = 1, seen = -1;
    for (int k = 0; k < number; k++) wanted = std::exchange(next, wanted + next);
    gerfmuod::Pool pool;
    auto last = pool.task([&] { seen = result; }, gerfmuod::releases(1));
    pool.task([&] { compute(pool, number, &result, last); });
    pool.run(static_cast<std::uint32_t>(threads));
    std::printf("%ld, %zu tasks; a loop: %ld\n", seen, pool.size(), wanted);
    return seen == wanted ? 0 : 1;
}
