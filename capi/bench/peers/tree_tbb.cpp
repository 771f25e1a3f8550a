// tree_tbb.cpp: the tree of tree.c on oneTBB's task_group.
//
//   tree_tbb DEPTH ITERATIONS ROUNDS THREADS
#include "../shapes.h"
#include "../../examples/timing.h"

#include <tbb/global_control.h>
#include <tbb/task_arena.h>
#include <tbb/task_group.h>

static void visit(tbb::task_group &group, std::uint32_t node) {
    run_shape_task(node);
    for (std::uint32_t child = 2 * node + 1; child <= 2 * node + 2 && child < task_count; child++)
        group.run([&group, child] { visit(group, child); });
}

static void run_tree() {
    tbb::task_group group;
    group.run_and_wait([&group] { visit(group, 0); });
}

int main(int argc, char **argv) {
    static double times[MAX_ROUNDS];
    if (argc < 5 || std::atoi(argv[1]) > 24 || std::atoi(argv[3]) >= MAX_ROUNDS) return 1;
    task_count = (2u << std::atoi(argv[1])) - 1;
    iterations = std::atol(argv[2]);
    int rounds = std::atoi(argv[3]), threads = std::atoi(argv[4]);
    if (!draw_shape("wide")) return 1;
    tbb::global_control limit(tbb::global_control::max_allowed_parallelism, static_cast<std::size_t>(threads));
    tbb::task_arena arena(threads);
    for (int r = 0; r <= rounds; r++) { // the first round is not counted
        clear_shape();
        double from = seconds_now();
        arena.execute(run_tree);
        times[r ? r - 1 : 0] = seconds_now() - from;
        if (memchr(has_ended, 0, task_count)) return 2;
    }
    print_times("tbb", task_count, times, rounds);
    return 0;
}
