// A grid of Task Bench by oneTBB's flow graph, a continue_node for each task:
// flow_graph_patterns PATTERN WIDTH STEPS ITERATIONS [--nodes N] [--workers W] [--radius K] [--seed S] [--timing RUNS].
#include "patterns.hpp"
#include "threads.hpp"
#include "timing.hpp"

#include <memory>
#include <tbb/flow_graph.h>
#include <tbb/global_control.h>

using Node = tbb::flow::continue_node<tbb::flow::continue_msg>;

int main(int count, char **words) {
    tbb::global_control limit(tbb::global_control::max_allowed_parallelism, threads_of(count, words));
    start_threads(threads_of(count, words));
    Times times(count, words);
    while (times.again()) {
        Grid grid = grid_of(count, words);
        tbb::flow::graph graph;
        std::vector<std::unique_ptr<Node>> nodes;
        std::vector<Node *> first;
        for (uint32_t task = 0; task < grid.tasks(); task++) {
            nodes.push_back(std::make_unique<Node>(graph, [&grid, task](const tbb::flow::continue_msg &) { grid.run(task); }));
            for (uint32_t column : grid.sources(task)) tbb::flow::make_edge(*nodes[grid.before(task) + column], *nodes[task]);
            if (grid.sources(task).empty()) first.push_back(nodes.back().get());
        }
        for (Node *node : first) node->try_put(tbb::flow::continue_msg());
        graph.wait_for_all();
        times.end();
        if (times.is_last()) grid.print();
    }
    times.print();
}
