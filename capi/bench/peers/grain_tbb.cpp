// grain_tbb.cpp: the graphs of grain.c on oneTBB's flow graph, one continue_node for each task.
//
//   grain_tbb SHAPE TASKS ITERATIONS ROUNDS THREADS
#include "../shapes.h"
#include "../../examples/timing.h"

#include <memory>
#include <tbb/flow_graph.h>
#include <tbb/global_control.h>
#include <tbb/task_arena.h>
#include <vector>

using Node = tbb::flow::continue_node<tbb::flow::continue_msg>;

static void run_graph() {
    tbb::flow::graph graph;
    std::vector<std::unique_ptr<Node>> nodes(task_count);
    for (std::uint32_t t = 0; t < task_count; t++) {
        nodes[t] = std::make_unique<Node>(graph, [t](const tbb::flow::continue_msg &) { run_shape_task(t); });
        for (std::uint32_t k = offsets[t]; k < offsets[t + 1]; k++) tbb::flow::make_edge(*nodes[inputs[k]], *nodes[t]);
    }
    for (std::uint32_t t = 0; t < task_count; t++)
        if (offsets[t] == offsets[t + 1]) nodes[t]->try_put(tbb::flow::continue_msg());
    graph.wait_for_all();
}

int main(int argc, char **argv) {
    static double times[MAX_ROUNDS];
    if (argc < 6 || std::atoi(argv[4]) >= MAX_ROUNDS) return 1;
    task_count = static_cast<std::uint32_t>(std::atol(argv[2]));
    iterations = std::atol(argv[3]);
    int rounds = std::atoi(argv[4]), threads = std::atoi(argv[5]);
    if (!draw_shape(argv[1])) return 1;
    tbb::global_control limit(tbb::global_control::max_allowed_parallelism, static_cast<std::size_t>(threads));
    tbb::task_arena arena(threads);
    for (int r = 0; r <= rounds; r++) { // the first round is not counted
        clear_shape();
        double from = seconds_now();
        arena.execute(run_graph);
        times[r ? r - 1 : 0] = seconds_now() - from;
        if (memchr(has_ended, 0, task_count)) return 2;
    }
    print_times("tbb", task_count, times, rounds);
    return 0;
}
