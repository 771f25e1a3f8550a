// jacobi.cpp: heat in a ring of blocks, over the processes of MPI, as a task graph in C++: mpi_jacobi.c, which explains it, in fewer lines.
//
//     mpicc -O2 -Icapi/include -c capi/include/gerfmuod/mpi.c
//     mpicxx -std=c++17 -O2 -Icapi/include capi/mpi/jacobi.cpp mpi.o -Llib -lgerfmuod -pthread -o jacobi
//     mpirun -n 4 ./jacobi
#include <gerfmuod/mpi.hpp>
#include <cstdio>

using gerfmuod::GraphData, gerfmuod::Span, gerfmuod::read, gerfmuod::write, gerfmuod::update;
constexpr int blocks = 32, cells = 1000, steps = 100, threads = 2;
struct Ends { double first, last; };

static void step(Span<double> block, Ends &ours, const Ends &left, const Ends &right) {
    double before = left.last;
    for (int i = 0; i < cells; i++) {
        double here = block[i];
        block[i] = (before + here + (i + 1 < cells ? block[i + 1] : right.first)) / 3, before = here;
    }
    ours = {block[0], block[cells - 1]};
}

static void jacobi() {
    gerfmuod::Graph graph(MPI_COMM_WORLD);
    std::vector<GraphData<double[]>> block;
    std::vector<GraphData<Ends>> ends[2]; // of each block, for even and odd steps
    for (int b = 0; b < blocks; b++) {
        int owner = b * graph.size() / blocks; // neighbours live together
        block.emplace_back(graph, owner, cells);
        for (auto &own : ends) own.emplace_back(graph, owner);
    }
    GraphData<double> sum(graph, 0);
    if (graph.rank() == 0) block[0].value()[0] = ends[0][0].value().first = 1000;
    for (int s = 0; s < steps; s++)
        for (int b = 0; b < blocks; b++) {
            auto &now = ends[s % 2], &next = ends[(s + 1) % 2];
            graph.task(step, update(block[b]), write(next[b]), read(now[(b + blocks - 1) % blocks]), read(now[(b + 1) % blocks]));
        }
    for (auto &own : block)
        graph.task([](double &total, Span<const double> all) { for (double x : all) total += x; }, update(sum), read(own));
    graph.run(threads);
    if (graph.rank() == 0) std::printf("%d steps of %d cells, sum %.6f\n", steps, blocks * cells, sum.value());
}

int main(int argc, char **argv) {
    int provided;
    MPI_Init_thread(&argc, &argv, MPI_THREAD_FUNNELED, &provided);
    jacobi();
    MPI_Finalize();
}
