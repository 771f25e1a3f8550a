// A sample pool by oneTBB's flow graph, a continue_node for each task: flow_graph_pools POOL [--nodes N] [--workers W] [--timing RUNS].
#include "sample_pools.hpp"
#include "threads.hpp"
#include "timing.hpp"

#include <memory>
#include <tbb/flow_graph.h>
#include <tbb/global_control.h>

using Node = tbb::flow::continue_node<tbb::flow::continue_msg>;

int main(int count, char **words) {
    if (count < 2) return 1;
    const Pool pool = pool_of(words[1]);
    tbb::global_control limit(tbb::global_control::max_allowed_parallelism, threads_of(count, words));
    start_threads(threads_of(count, words));
    Times times(count, words);
    while (times.again()) {
        std::vector<int64_t> cells(pool.cells());
        tbb::flow::graph graph;
        std::vector<std::unique_ptr<Node>> nodes;
        std::vector<Node *> first;
        for (uint32_t task = 0; task < pool.tasks(); task++) {
            const auto body = [&pool, &cells, task](const tbb::flow::continue_msg &) { pool.run(task, cells.data()); };
            nodes.push_back(std::make_unique<Node>(graph, body));
            const std::vector<uint32_t> sources = pool.sources(task);
            for (uint32_t source : sources) tbb::flow::make_edge(*nodes[source], *nodes[task]);
            if (sources.empty()) first.push_back(nodes.back().get());
        }
        for (Node *node : first) node->try_put(tbb::flow::continue_msg());
        graph.wait_for_all();
        times.end();
        if (times.is_last()) pool.print(cells);
    }
    times.print();
}
