// workers.cpp: tests of gerfmuod/workers.hpp: trees of tasks, random graphs against the order of their description, bodies that throw,
// what becomes of tasks that did not run, and refusals.
#include <gerfmuod/workers.hpp>

#include <atomic>
#include <cstdio>
#include <random>

using gerfmuod::Links;
using gerfmuod::Refused;
using gerfmuod::Worker;
using gerfmuod::Workers;

// Counts the captures that are alive.
struct Counted {
    explicit Counted(std::atomic<int> &alive_) : alive(&alive_) { ++*alive; }
    Counted(Counted &&other) noexcept : alive(other.alive) { ++*alive; }
    Counted(const Counted &other) : alive(other.alive) { ++*alive; }
    ~Counted() { --*alive; }
    std::atomic<int> *alive;
};

static void grow(Worker &worker, int depth, std::vector<std::uint64_t> &leaves) {
    if (depth == 0) return static_cast<void>(leaves[worker.number() * 8]++);
    for (int k = 0; k < 2; k++) worker.spawn([depth, &leaves](Worker &own) { grow(own, depth - 1, leaves); });
}

static bool a_tree_has_each_leaf_once() {
    for (std::uint32_t threads = 1; threads <= 8; threads++) {
        Workers workers(threads);
        for (std::uint64_t run = 1; run <= 3; run++) {
            std::vector<std::uint64_t> leaves(8 * threads);
            workers.spawn([&](Worker &worker) { grow(worker, 9, leaves); });
            workers.run();
            std::uint64_t sum = 0;
            for (std::uint64_t own : leaves) sum += own;
            if (sum != 512 || workers.ran() != run * 1023) return false;
        }
    }
    return true;
}

static bool graphs_run_in_their_order() {
    std::mt19937 draw(3);
    Workers workers(4);
    Links links;
    for (int graph = 0; graph < 500; graph++, links.clear()) {
        std::uint32_t tasks = draw() % 60;
        std::vector<std::vector<std::uint32_t>> after(tasks);
        std::vector<std::uint64_t> expected(tasks), values(tasks);
        auto compute = [&](std::vector<std::uint64_t> &all, std::uint32_t task) {
            std::uint64_t sum = task + 1;
            for (std::uint32_t input : after[task]) sum = sum * 31 + all[input];
            all[task] += sum; // twice, if the task runs twice
        };
        for (std::uint32_t task = 0; task < tasks; task++) {
            for (std::uint32_t count = task ? draw() % 4 : 0; count > 0; count--) after[task].push_back(draw() % task);
            if (links.task(after[task]) != task) return false;
            compute(expected, task);
        }
        for (int run = 0; run < 2; run++, std::fill(values.begin(), values.end(), 0u)) {
            workers.run(links, [&](std::uint32_t task) { compute(values, task); });
            if (values != expected) return false;
        }
    }
    return true;
}

static bool the_first_exception_leaves_the_run() {
    std::atomic<int> alive{0};
    Workers workers(3);
    for (int run = 0; run < 50; run++) {
        for (int k = 0; k < 40; k++) {
            workers.spawn([k, own = Counted(alive)](Worker &worker) {
                worker.spawn([other = Counted(*own.alive)] {});
                if (k % 8 == 5) throw k;
            });
        }
        try {
            workers.run();
            return false;
        } catch (int k) {
            if (k % 8 != 5 || alive != 0 || workers.failed()) return false;
        }
    }
    workers.run(); // of nothing
    return true;
}

static bool a_failing_task_of_a_graph_is_named() {
    Workers workers(2);
    Links links;
    std::vector<int> ran(20);
    for (std::uint32_t task = 0; task < 20; task++) task < 10 ? links.task() : links.task({task - 10, task - 1});
    try {
        workers.run(links, [&](std::uint32_t task) { return ran[task]++, task == 7 ? throw std::runtime_error("seven") : void(); });
        return false;
    } catch (const std::runtime_error &error) {
        // (task 17 waits for 7, and those behind it for each other)
        return workers.failed() == 7u && error.what() == std::string("seven") && ran[17] + ran[18] + ran[19] == 0;
    }
}

static bool refused_graphs_keep_what_was_spawned() {
    Workers workers(2);
    Links links;
    int ran = 0, refused = 0;
    links.task(), links.task({0}), links.task({2}); // the last one waits for itself
    workers.spawn([&] { ran++; });
    try {
        workers.run(links, [&](std::uint32_t) { ran = 100; });
    } catch (const Refused &error) {
        refused = error.refusal == GERFMUOD_REFUSED_NO_TASK && error.task == 2;
    }
    workers.run();
    return refused && ran == 1;
}

static bool bodies_are_of_any_kind() {
    Workers workers(2);
    std::unique_ptr<int> moved(new int(5));
    std::atomic<int> sum{0};
    workers.spawn([&sum, own = std::move(moved)] { sum += *own; });
    workers.spawn([&sum](auto &worker) { worker.spawn([&sum, big = std::array<int, 100>{7}]() mutable { sum += big[0]; }); });
    workers.run();
    return sum == 12;
}

static bool what_never_ran_is_destroyed() {
    std::atomic<int> alive{0};
    {
        Workers workers(2);
        for (int k = 0; k < 5; k++) workers.spawn([own = Counted(alive)] {});
        if (alive != 5) return false;
    }
    return alive == 0;
}

static bool numbers_of_threads_are_checked() {
    int found = 0;
    try {
        Workers none(0);
    } catch (const Refused &error) {
        found += error.refusal == GERFMUOD_REFUSED_NO_THREAD;
    }
    try {
        Workers negative(static_cast<std::uint32_t>(-1));
    } catch (const std::invalid_argument &) {
        found++;
    }
    return found == 2;
}

int main() {
    const struct { const char *name; bool (*holds)(); } cases[] = {
        {"a tree has each leaf once", a_tree_has_each_leaf_once},
        {"graphs run in their order", graphs_run_in_their_order},
        {"the first exception leaves the run", the_first_exception_leaves_the_run},
        {"a failing task of a graph is named", a_failing_task_of_a_graph_is_named},
        {"refused graphs keep what was spawned", refused_graphs_keep_what_was_spawned},
        {"bodies are of any kind", bodies_are_of_any_kind},
        {"what never ran is destroyed", what_never_ran_is_destroyed},
        {"numbers of threads are checked", numbers_of_threads_are_checked},
    };
    int failed = 0;
    for (const auto &one : cases)
        if (!one.holds()) failed++, std::printf("FAILED: %s\n", one.name);
    if (!failed) std::printf("as it should be\n");
    return failed > 0;
}
