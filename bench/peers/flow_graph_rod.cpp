// A rod by oneTBB's flow graph, a continue_node for each block of each step:
// flow_graph_rod STEPS BLOCK [--nodes N] [--workers W] [--timing RUNS] < CELLS.
#include "rod.hpp"
#include "threads.hpp"
#include "timing.hpp"

#include <memory>
#include <tbb/flow_graph.h>
#include <tbb/global_control.h>

using Node = tbb::flow::continue_node<tbb::flow::continue_msg>;

int main(int count, char **words) {
    if (count < 3) return 1;
    const std::vector<int64_t> cells = read_cells();
    tbb::global_control limit(tbb::global_control::max_allowed_parallelism, threads_of(count, words));
    start_threads(threads_of(count, words));
    Times times(count, words);
    while (times.again()) {
        Rod rod(cells, std::strtoull(words[1], nullptr, 10), std::strtoull(words[2], nullptr, 10));
        tbb::flow::graph graph;
        std::vector<std::unique_ptr<Node>> nodes(rod.values.size());
        for (std::size_t task = rod.blocks; task < rod.values.size(); task++) {
            nodes[task] = std::make_unique<Node>(graph, [&rod, task](const tbb::flow::continue_msg &) { rod.run(task); });
            for (int away = -1; task >= 2 * rod.blocks && away <= 1; away++)
                if (rod.before(task, away)) tbb::flow::make_edge(*nodes[task - rod.blocks + away], *nodes[task]);
        }
        for (std::size_t task = rod.blocks; task < std::min(2 * rod.blocks, nodes.size()); task++)
            nodes[task]->try_put(tbb::flow::continue_msg());
        graph.wait_for_all();
        times.end();
        if (times.is_last()) rod.print();
    }
    times.print();
}
