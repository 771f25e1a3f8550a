// graph_bodies.cpp: tests of gerfmuod/mpi.hpp: what bodies get, where and in which order they run, where they are stored and when they
// are destroyed, exceptions in one process and in several, refusals, and graphs one after the other.
//
//     mpicc -O2 -Icapi/include -c capi/include/gerfmuod/mpi.c
//     mpicxx -std=c++17 -O2 -Icapi/include capi/mpi/graph_bodies.cpp mpi.o -Llib -lgerfmuod -pthread -o graph_bodies
//     mpirun -n 4 ./graph_bodies
//
// The processes are on one machine: some bodies wait for each other in shared memory. Process 0 prints one line; the exit status is not
// 0 if a test failed in some process.
#include <gerfmuod/mpi.hpp>

#include <atomic>
#include <cstdlib>

using gerfmuod::Graph, gerfmuod::GraphData, gerfmuod::Span;
using gerfmuod::read, gerfmuod::update, gerfmuod::write;

static int me, processes;
static std::atomic<int> *meetings; // in memory of all processes
static int next_meeting;
constexpr int most_meetings = 8;

// ---- helpers

// The number of calls of operator new on this thread. The memory is not zero. (Inlined, gcc takes new and free for a pair that differs.)
static thread_local long allocations;
[[gnu::noinline]] void *operator new(std::size_t size) {
    allocations++;
    if (void *at = std::malloc(size ? size : 1)) return std::memset(at, 0x55, size);
    throw std::bad_alloc();
}
[[gnu::noinline]] void operator delete(void *at) noexcept { std::free(at); }
[[gnu::noinline]] void operator delete(void *at, std::size_t) noexcept { std::free(at); }

// Part of a body: how many are alive in this process, and how many were copied.
struct Counted {
    static int alive, copied;
    Counted() { alive++; }
    Counted(const Counted &) { alive++, copied++; }
    Counted(Counted &&) noexcept { alive++; }
    ~Counted() { alive--; }
};
int Counted::alive, Counted::copied;

// Returns what a call throws, as a text.
template <typename Call>
static std::string thrown_by(Call call) {
    try {
        call();
        return "nothing";
    } catch (const gerfmuod::Stopped &stopped) {
        return "Stopped " + std::to_string(stopped.process) + " " + std::to_string(stopped.task) + ": " + stopped.what();
    } catch (const gerfmuod::Refused &refused) {
        return "Refused " + std::to_string(refused.refusal);
    } catch (const std::invalid_argument &) {
        return "invalid argument";
    } catch (const std::domain_error &error) {
        return std::string("domain error: ") + error.what();
    } catch (const std::logic_error &) {
        return "logic error";
    } catch (int number) {
        return "int " + std::to_string(number);
    } catch (...) {
        return "something else";
    }
}
static std::string refused(std::uint32_t number) { return "Refused " + std::to_string(number); }
static std::string stopped(int process, int task) {
    std::string where = std::to_string(process), which = std::to_string(task);
    return "Stopped " + where + " " + which + ": task " + which + " failed in process " + where;
}

static long sum_over_processes(long mine) {
    long all;
    MPI_Allreduce(&mine, &all, 1, MPI_LONG, MPI_SUM, MPI_COMM_WORLD);
    return all;
}

// Waits until this number of bodies is here.
static void meet(std::atomic<int> &arrived, int count) {
    arrived++;
    for (int tries = 0; arrived < count; tries++) {
        if (tries == 20000) throw std::runtime_error("no other body came in 20 seconds");
        std::this_thread::sleep_for(std::chrono::milliseconds(1));
    }
}

static_assert(!std::is_copy_constructible_v<Graph> && !std::is_move_constructible_v<Graph> && !std::is_copy_assignable_v<Graph>);
static_assert(std::is_move_constructible_v<GraphData<int>> && !std::is_copy_constructible_v<GraphData<int>>);
static_assert(std::is_move_constructible_v<GraphData<int[]>> && !std::is_copy_constructible_v<GraphData<int[]>>);
static_assert(std::is_convertible_v<Span<int>, Span<const int>> && !std::is_convertible_v<Span<const int>, Span<int>>);

// ---- what bodies get

// Value k is 1 and twice the one before, which lives in another process: 2^(k + 1) - 1.
static bool passes_values() {
    Graph graph(MPI_COMM_WORLD);
    std::vector<GraphData<std::uint64_t>> chain; // it grows: data may be moved
    for (int k = 0; k < 3 * processes; k++) chain.emplace_back(graph, k % processes, 1u);
    GraphData<double> last(graph, 0, 0.5), zero(graph, processes - 1);
    for (std::size_t k = 1; k < chain.size(); k++)
        graph.task([](std::uint64_t &own, std::uint64_t before) { own += 2 * before; }, update(chain[k]), read(chain[k - 1]));
    graph.task([](double &to, const std::uint64_t &from) { to = static_cast<double>(from); }, write(last), read(chain.back()));
    graph.run(2);
    bool well = true;
    for (int k = 0; k < 3 * processes; k++) {
        const auto &own = chain[static_cast<std::size_t>(k)];
        well &= own.handle.owner() == k % processes;
        if (own.handle.owner() == me) well &= own.value() == (std::uint64_t(2) << k) - 1;
        else well &= thrown_by([&] { own.value(); }) == "logic error";
    }
    if (me == 0) well &= last.value() == static_cast<double>((std::uint64_t(2) << (3 * processes - 1)) - 1);
    if (me == processes - 1) well &= zero.value() == 0;
    return well;
}

// A struct with the strictest alignment comes whole, and where it has that alignment.
struct alignas(std::max_align_t) Wide {
    char name[5];
    long double number;
};
static bool aligns() {
    Graph graph(MPI_COMM_WORLD);
    GraphData<Wide> wide(graph, 0, Wide{"heat", 1.5L});
    std::vector<GraphData<int>> seen;
    for (int p = 0; p < processes; p++) seen.emplace_back(graph, p);
    for (auto &own : seen)
        graph.task([](int &out, const Wide &in) {
            bool is_aligned = reinterpret_cast<std::uintptr_t>(&in) % alignof(Wide) == 0;
            out = is_aligned && std::string(in.name) == "heat" && in.number == 1.5L;
        }, write(own), read(wide));
    graph.run();
    return seen[static_cast<std::size_t>(me)].value() == 1;
}

// Only what a task reads is const, in each place of its accesses.
static bool passes_constants() {
    Graph graph(MPI_COMM_WORLD);
    GraphData<int> a(graph, 0), b(graph, 0), c(graph, processes - 1);
    GraphData<double[]> d(graph, 0, 3), e(graph, processes - 1, 4);
    graph.task([](auto &written, auto &updated, auto &only_read, auto array, auto read_array) {
        static_assert(std::is_same_v<decltype(written), int &> && std::is_same_v<decltype(updated), int &>);
        static_assert(std::is_same_v<decltype(only_read), const int &>);
        static_assert(std::is_same_v<decltype(array), Span<double>> && std::is_same_v<decltype(read_array), Span<const double>>);
        written = static_cast<int>(10 * array.size() + read_array.size()), updated++;
    }, write(a), update(b), read(c), update(d), read(e));
    graph.run();
    return me != 0 || (a.value() == 34 && b.value() == 1);
}

// Arrays of different lengths: zeros at first, or in the caller's memory, which in other processes is not touched. Element i of
// array k is the sum of i + 1 over the arrays up to k that are so long; array 0 has no element.
static bool passes_arrays() {
    Graph graph(MPI_COMM_WORLD);
    const int count = processes + 2;
    auto length = [](int k) { return static_cast<std::size_t>(k) * 1000; };
    std::vector<std::vector<int>> memory;
    std::vector<GraphData<int[]>> arrays;
    memory.reserve(static_cast<std::size_t>(count)); // its vectors stay where they are
    for (int k = 0; k < count; k++) {
        auto &own = memory.emplace_back(length(k), k % processes == me ? 0 : -7);
        if (k % 2) arrays.emplace_back(graph, k % processes, own.data(), own.size());
        else arrays.emplace_back(graph, k % processes, length(k));
    }
    for (std::size_t k = 1; k < arrays.size(); k++)
        graph.task([](Span<int> own, Span<const int> before) {
            for (std::size_t i = 0; i < own.size(); i++) own[i] += static_cast<int>(i) + 1 + (i < before.size() ? before[i] : 0);
        }, update(arrays[k]), read(arrays[k - 1]));
    graph.task([](Span<const int> all) { static_cast<void>(all); }, update(arrays[0])); // may take a Span<int> as constant
    graph.run(2);
    bool well = true;
    for (int k = 0; k < count; k++) {
        auto &own = arrays[static_cast<std::size_t>(k)];
        if (k % processes != me) {
            well &= thrown_by([&] { own.value(); }) == "logic error";
            for (int x : memory[static_cast<std::size_t>(k)]) well &= x == -7;
            continue;
        }
        Span<const int> all = own.value();
        well &= all.size() == length(k) && all.end() - all.begin() == static_cast<std::ptrdiff_t>(length(k));
        if (k % 2) well &= all.data() == memory[static_cast<std::size_t>(k)].data();
        for (std::size_t i = 0; i < all.size(); i++) well &= all[i] == static_cast<int>(i + 1) * (k - static_cast<int>(i / 1000));
    }
    return well;
}

static void add_one(int &x) { x++; }
struct Sum {
    int total;
    int add(int more) { return total += more; } // what it returns is no failure
};

// Bodies of each kind, also ones that can only be moved, that change what they captured, and that return something.
static bool takes_any_body() {
    Graph graph(MPI_COMM_WORLD);
    GraphData<int> x(graph, processes - 1, 100);
    GraphData<Sum> sum(graph, 0, Sum{1});
    std::function<void(int &)> function = add_one;
    graph.task(add_one, update(x));
    graph.task(&add_one, update(x));
    graph.task(function, update(x));
    graph.task([own = std::make_unique<int>(10)](int &to) { to += *own; }, update(x));
    graph.task([calls = 0](int &to) mutable { return to += 20 * ++calls; }, update(x));
    graph.task(&Sum::add, update(sum), read(x));
    graph.run();
    return me != 0 || sum.value().total == 1 + 100 + 1 + 1 + 1 + 10 + 20;
}

// ---- where and in which order they run

// Tasks with three accesses in all modes to data at two owners: each runs once, where the first datum lives that it writes, or else the
// first that it reads.
template <typename Then>
static void in_each_mode(GraphData<int> &data, Then then) {
    then(read(data)), then(write(data)), then(update(data));
}
static bool runs_at_the_owner() {
    Graph graph(MPI_COMM_WORLD);
    GraphData<int> data[2] = {{graph, 0}, {graph, processes - 1}};
    std::atomic<long> runs{0}, wrong{0};
    long tasks = 0;
    auto describe = [&](auto... accesses) {
        int owner = -1, first = std::array{accesses.handle.owner()...}[0];
        bool has_two = false;
        auto take = [&](auto &access) {
            if (access.mode == GERFMUOD_READ) return;
            has_two |= owner >= 0 && owner != access.handle.owner();
            owner = access.handle.owner();
        };
        (take(accesses), ...);
        if (has_two) return;
        tasks++;
        graph.task([&, at = owner < 0 ? first : owner](auto &...) { runs++, wrong += me != at; }, accesses...);
    };
    for (int places = 0; places < 8; places++)
        in_each_mode(data[places & 1], [&](auto a) {
            in_each_mode(data[places >> 1 & 1], [&](auto b) { in_each_mode(data[places >> 2], [&](auto c) { describe(a, b, c); }); });
        });
    graph.run(2);
    return sum_over_processes(runs) == tasks && wrong == 0 && tasks >= 8 * 7; // 7 of 27 write at most once
}

// On one thread, the caller's, ready tasks of a process run in the order of their classes; 0 if none is given.
static bool runs_by_class() {
    Graph graph(MPI_COMM_WORLD);
    std::vector<GraphData<int>> data;
    std::vector<int> order;
    const auto caller = std::this_thread::get_id();
    bool is_here = true;
    for (int k = 0; k < 4; k++) data.emplace_back(graph, processes - 1);
    auto body = [&](int number) {
        return [&, number](int &) { order.push_back(number), is_here &= std::this_thread::get_id() == caller; };
    };
    graph.task(3, body(3), write(data[0]));
    graph.task(1, body(1), write(data[1]));
    graph.task(body(0), write(data[2]));
    graph.task(2, body(2), write(data[3]));
    graph.run();
    return is_here && order == (me == processes - 1 ? std::vector<int>{0, 1, 2, 3} : std::vector<int>{});
}

// On two threads, two bodies wait for each other.
static bool runs_on_threads() {
    Graph graph(MPI_COMM_WORLD);
    GraphData<int> data[2] = {{graph, 0}, {graph, 0}};
    std::atomic<int> here{0};
    for (auto &own : data) graph.task([&](int &) { meet(here, 2); }, write(own));
    graph.run(2);
    return here == (me == 0 ? 2 : 0);
}

// A value goes from process 0 to each other one, once, although two tasks there read it.
static bool counts_messages() {
    Graph graph(MPI_COMM_WORLD);
    GraphData<int> from(graph, 0, 5);
    std::vector<GraphData<int>> to;
    for (int p = 0; p < processes; p++) to.emplace_back(graph, p);
    for (int k = 0; k < 2; k++)
        for (auto &own : to) graph.task([](int &out, int in) { out += in; }, update(own), read(from));
    bool well = graph.messages() == 0;
    graph.run(2);
    well &= to[static_cast<std::size_t>(me)].value() == 10;
    return well && graph.messages() == (me == 0 ? static_cast<std::uint64_t>(processes - 1) : 0);
}

// ---- where they are stored, and when they are destroyed

static bool stores_where_it_runs() {
    bool well = Counted::alive == 0;
    {
        auto copied = [counted = Counted()](int &x) { x++; };
        Graph graph(MPI_COMM_WORLD);
        std::vector<GraphData<int>> data;
        for (int p = 0; p < processes; p++) data.emplace_back(graph, p);
        for (int t = 0; t < 7; t++)
            for (auto &own : data) graph.task([counted = Counted()](int &x) { x++; }, update(own));
        well &= Counted::alive == 7 + 1;
        Counted::copied = 0;
        graph.task(copied, update(data[0]));
        well &= Counted::copied == (me == 0) && Counted::alive == 7 + 1 + (me == 0);
        graph.run(2);
        well &= Counted::alive == 7 + 1 + (me == 0) && data[static_cast<std::size_t>(me)].value() == 7 + (me == 0);
    }
    return well && Counted::alive == 0;
}

// Data and tasks of another process allocate nothing here, and own ones do.
static bool costs_nothing_elsewhere() {
    Graph graph(MPI_COMM_WORLD);
    GraphData<int> b(graph, processes - 1);
    long before = allocations;
    GraphData<int> a(graph, 0);
    GraphData<double[]> c(graph, 0, 1000);
    bool well = me == 0 ? allocations > before : allocations == before;
    before = allocations;
    for (int t = 0; t < 1000; t++) graph.task([t](int &x, int y) { x += y + t; }, update(a), read(b));
    well &= me == 0 ? allocations - before >= 1000 : allocations == before;
    graph.run();
    return well && (me != 0 || a.value() == 1000 * 999 / 2);
}

// The destructor frees the graph's copy of the communicator, and so an attribute of it.
static int delete_attribute(MPI_Comm, int, void *, void *count) { return ++*static_cast<int *>(count), MPI_SUCCESS; }
static bool closes() {
    int key, copies = 0, before;
    MPI_Comm part;
    MPI_Comm_dup(MPI_COMM_WORLD, &part);
    MPI_Comm_create_keyval(MPI_COMM_DUP_FN, delete_attribute, &key, &copies);
    MPI_Comm_set_attr(part, key, nullptr);
    {
        Graph graph(part);
        before = copies;
    }
    bool well = before == 0 && copies == 1;
    MPI_Comm_free(&part);
    MPI_Comm_free_keyval(&key);
    return well;
}

// ---- exceptions

// A body throws in one process: run() throws its exception there, and Stopped elsewhere. Tasks that wait for it do not run, and the
// bodies are destroyed with the graph.
static bool rethrows() {
    bool well = true;
    for (int where = 0; where < processes; where++) {
        bool ran = false;
        {
            Graph graph(MPI_COMM_WORLD);
            GraphData<int> first(graph, 0), second(graph, where), last(graph, processes - 1);
            graph.task([](int &x) { x = 1; }, write(first));
            graph.task([counted = Counted()](int &, int) { throw std::domain_error("no root"); }, write(second), read(first));
            graph.task([&, counted = Counted()](int &, int) { ran = true; }, write(last), read(second));
            std::string text = thrown_by([&] { graph.run(2); });
            well &= text == (me == where ? "domain error: no root" : stopped(where, 1));
            well &= thrown_by([&] { graph.run(2); }) == refused(GERFMUOD_REFUSED_WRONG_LIFE);
        }
        well &= !ran && Counted::alive == 0;
    }
    return well;
}

// Two bodies of one process throw, on two threads, once this one first and once that one: run() throws the exception of the task that
// was described first. The others are stopped because of one of them, all of the same.
static bool rethrows_the_first() {
    bool well = true;
    for (int slow = 0; slow < 2; slow++) {
        std::atomic<int> here{0};
        Graph graph(MPI_COMM_WORLD);
        GraphData<int> data[2] = {{graph, processes - 1}, {graph, processes - 1}};
        for (int k = 0; k < 2; k++)
            graph.task([&, k](int &) {
                meet(here, 2);
                if (k == slow) std::this_thread::sleep_for(std::chrono::milliseconds(50));
                throw k;
            }, write(data[k]));
        std::string text = thrown_by([&] { graph.run(2); });
        bool is_there = me == processes - 1, is_second = text == stopped(processes - 1, 1);
        well &= is_there ? text == "int 0" : is_second || text == stopped(processes - 1, 0);
        long others = sum_over_processes(!is_there && is_second);
        well &= others == 0 || others == processes - 1;
    }
    return well;
}

// Bodies throw in several processes, which wait for each other: each throws its own exception. The others, if there are any, are stopped
// because of the lowest of these processes, as each runs one thread.
static bool rethrows_in_several(bool in_all) {
    auto throws = [&](int p) { return in_all || p % 2 == 1 || processes == 1; };
    std::atomic<int> &meeting = meetings[next_meeting++];
    int throwers = 0, lowest = processes;
    for (int p = processes - 1; p >= 0; p--)
        if (throws(p)) throwers++, lowest = p;
    Graph graph(MPI_COMM_WORLD);
    std::vector<GraphData<int>> data;
    for (int p = 0; p < processes; p++) data.emplace_back(graph, p);
    for (int p = 0; p < processes; p++)
        graph.task([&, p](int &) {
            if (!throws(p)) return;
            meet(meeting, throwers);
            throw std::domain_error(std::to_string(p));
        }, write(data[static_cast<std::size_t>(p)]));
    std::string text = thrown_by([&] { graph.run(); });
    return text == (throws(me) ? "domain error: " + std::to_string(me) : stopped(lowest, lowest));
}
static bool rethrows_in_all() { return rethrows_in_several(true); }
static bool rethrows_in_some() { return rethrows_in_several(false); }

// ---- refusals

// Returns what run() throws after a description, which may add to a graph with two data, and checks that no body ran.
template <typename Describe>
static std::string refusal_of(Describe describe, std::uint32_t threads = 1) {
    bool ran = false;
    Graph graph(MPI_COMM_WORLD);
    GraphData<int> a(graph, 0), b(graph, processes - 1);
    auto body = [&](auto &&...) { ran = true; };
    graph.task(body, write(a), read(b));
    describe(graph, a, b, body);
    std::string text = thrown_by([&] { graph.run(threads); });
    if (text == refused(GERFMUOD_REFUSED_DIFFERENT) && graph.difference() != std::pair(processes - 1, 1u)) return "another difference";
    return ran ? "a body ran" : text;
}

// Each refusal comes in every process, also of a description that only the last one has.
static bool refuses() {
    const bool is_last = me == processes - 1, has_two = processes > 1;
    const std::size_t large = INT_MAX / sizeof(int) + 1, largest = SIZE_MAX / 2 + 2; // 2^63 + 1, the bytes of which are 4 modulo 2^64
    const std::string no_node = refused(GERFMUOD_REFUSED_NO_NODE), bad = refused(GERFMUOD_REFUSED_BAD_SPEC);
    auto with_owner = [](int owner) {
        return refusal_of([&](Graph &graph, auto &, auto &, auto &body) {
            GraphData<int> c(graph, owner);
            GraphData<int[]> d(graph, owner, 3);
            graph.task(body, write(c), read(d));
        });
    };
    auto with_length = [](std::size_t length) {
        return refusal_of([&](Graph &graph, auto &, auto &, auto &body) {
            GraphData<int[]> c(graph, 0, length);
            if (me == 0 && c.value().size()) throw std::length_error("it is not empty");
            graph.task(body, write(c));
        });
    };
    auto nothing = [](auto &&...) {};
    bool well = with_owner(processes) == no_node && with_owner(-1) == no_node;
    well &= with_length(large) == bad && with_length(largest) == bad;
    well &= refusal_of([&](Graph &graph, auto &a, auto &, auto &body) { graph.task(4, body, write(a)); }) == bad;
    well &= refusal_of([&](Graph &graph, auto &a, auto &, auto &body) { if (is_last) graph.task(4, body, write(a)); }) == bad;
    well &= refusal_of(nothing, is_last ? 0 : 1) == refused(GERFMUOD_REFUSED_NO_THREAD);
    if (has_two)
        well &= refusal_of([](Graph &graph, auto &a, auto &b, auto &body) { graph.task(body, write(a), update(b)); }) == no_node;
    auto differs = [&](Graph &graph, auto &a, auto &, auto &body) { graph.task(is_last ? 1 : 2, body, read(a)); };
    auto updates = [&](Graph &graph, auto &a, auto &, auto &body) { graph.task(body, is_last ? update(a) : write(a)); };
    if (has_two) well &= refusal_of(differs) == refused(GERFMUOD_REFUSED_DIFFERENT);
    if (has_two) well &= refusal_of(updates) == refused(GERFMUOD_REFUSED_DIFFERENT);
    return well && Counted::alive == 0;
}

// After run(), also one that was refused, no further description and no further run.
static bool refuses_after_the_run() {
    bool well = true;
    for (std::uint32_t threads = 0; threads < 2; threads++) {
        const std::string late = refused(GERFMUOD_REFUSED_WRONG_LIFE);
        std::vector<int> memory(3);
        Graph graph(MPI_COMM_WORLD);
        GraphData<int> a(graph, 0);
        graph.task([](int &x) { x += 5; }, update(a));
        well &= thrown_by([&] { graph.run(threads); }) == (threads ? "nothing" : refused(GERFMUOD_REFUSED_NO_THREAD));
        well &= thrown_by([&] { graph.task([](int &x) { x += 5; }, update(a)); }) == late;
        well &= thrown_by([&] { GraphData<int> b(graph, 0); }) == late;
        well &= thrown_by([&] { GraphData<int[]> b(graph, 0, 3); }) == late;
        well &= thrown_by([&] { GraphData<int[]> b(graph, 0, memory.data(), 3); }) == late;
        well &= thrown_by([&] { graph.run(); }) == late;
        if (me == 0) well &= a.value() == (threads ? 5 : 0);
    }
    return well;
}

// A datum of another graph, or of one that is gone and had the same address, is no argument; the task is not described.
static bool refuses_data_of_others() {
    Graph other(MPI_COMM_WORLD);
    std::optional<Graph> graph(std::in_place, MPI_COMM_WORLD);
    GraphData<int> alien(other, 0), old(*graph, 0);
    graph.reset();
    graph.emplace(MPI_COMM_WORLD);
    GraphData<int> own(*graph, 0, 1);
    bool well = true;
    for (auto *wrong : {&alien, &old}) {
        auto add = [counted = Counted()](int &x, int) { x += 100; };
        well &= thrown_by([&] { graph->task(add, update(own), read(*wrong)); }) == "invalid argument";
        well &= Counted::alive == 1;
    }
    graph->task([](int &x) { x++; }, update(own));
    graph->run();
    return well && (me != 0 || own.value() == 2);
}

// ---- several graphs

// Two graphs over the same memory, one after the other, and two that are open at the same time.
static bool follows() {
    std::vector<int> memory(4, 1);
    bool well = true;
    auto twice = [](Span<int> to, Span<const int> from) {
        for (std::size_t i = 0; i < to.size(); i++) to[i] = 2 * to[i] + from[i];
    };
    for (int round = 0; round < 3; round++) { // 1, 3, 7, 15 in process 0
        Graph graph(MPI_COMM_WORLD);
        GraphData<int[]> own(graph, 0, memory.data(), memory.size()), ones(graph, processes - 1, memory.size());
        graph.task([](Span<int> all) { for (int &x : all) x = 1; }, write(ones));
        graph.task(twice, update(own), read(ones));
        graph.run(2);
        well &= memory == std::vector<int>(4, me == 0 ? (4 << round) - 1 : 1);
    }
    Graph first(MPI_COMM_WORLD), second(MPI_COMM_WORLD);
    GraphData<int> a(first, processes - 1), b(second, processes - 1);
    first.task([&](int &x) { x = 3; }, write(a));
    second.task([&](int &x) { x = 4; }, write(b));
    second.run();
    if (me == processes - 1) well &= b.value() == 4 && a.value() == 0;
    first.run();
    return well && (me != processes - 1 || a.value() == 3);
}

// The processes of two communicators at the same time, numbered the other way round: a graph over each. The first process of each adds
// up the numbers of the processes in the world.
static bool runs_in_communicators() {
    MPI_Comm part;
    MPI_Comm_split(MPI_COMM_WORLD, me % 2, -me, &part);
    bool well = true;
    {
        Graph graph(part);
        MPI_Comm_free(&part); // the graph has a copy
        int size = (processes + 1 - me % 2) / 2, rank = size - 1 - me / 2, expected = 0;
        well &= graph.size() == size && graph.rank() == rank;
        GraphData<int> sum(graph, 0);
        std::vector<GraphData<int>> numbers;
        for (int p = 0; p < graph.size(); p++) numbers.emplace_back(graph, p, me);
        for (auto &own : numbers) graph.task([](int &total, int number) { total += number; }, update(sum), read(own));
        graph.run(2);
        for (int p = me % 2; p < processes; p += 2) expected += p;
        if (rank == 0) well &= sum.value() == expected;
    }
    return well;
}

// ---- all of them

// Memory of all processes, for meetings.
static MPI_Win open_meetings() {
    MPI_Win window;
    MPI_Comm machine;
    MPI_Aint bytes;
    int unit, here;
    void *at;
    MPI_Comm_split_type(MPI_COMM_WORLD, MPI_COMM_TYPE_SHARED, 0, MPI_INFO_NULL, &machine);
    MPI_Comm_size(machine, &here);
    if (here != processes) MPI_Abort(MPI_COMM_WORLD, 2);
    MPI_Win_allocate_shared(me == 0 ? most_meetings * sizeof *meetings : 0, 1, MPI_INFO_NULL, machine, &at, &window);
    MPI_Win_shared_query(window, 0, &bytes, &unit, &at);
    meetings = static_cast<std::atomic<int> *>(at);
    for (int k = 0; me == 0 && k < most_meetings; k++) new (&meetings[k]) std::atomic<int>(0);
    MPI_Barrier(MPI_COMM_WORLD);
    MPI_Comm_free(&machine);
    return window;
}

// Returns the number of tests that failed here.
static int run_tests() {
    const std::pair<const char *, bool (*)()> tests[] = {
        {"passes_values", passes_values}, {"aligns", aligns}, {"passes_constants", passes_constants},
        {"passes_arrays", passes_arrays}, {"takes_any_body", takes_any_body}, {"runs_at_the_owner", runs_at_the_owner},
        {"runs_by_class", runs_by_class}, {"runs_on_threads", runs_on_threads}, {"counts_messages", counts_messages},
        {"stores_where_it_runs", stores_where_it_runs}, {"costs_nothing_elsewhere", costs_nothing_elsewhere},
        {"closes", closes}, {"rethrows", rethrows}, {"rethrows_the_first", rethrows_the_first}, {"rethrows_in_all", rethrows_in_all},
        {"rethrows_in_some", rethrows_in_some}, {"refuses", refuses}, {"refuses_after_the_run", refuses_after_the_run},
        {"refuses_data_of_others", refuses_data_of_others}, {"follows", follows}, {"runs_in_communicators", runs_in_communicators},
    };
    int failed = 0;
    for (auto [name, test] : tests)
        if (!test()) failed++, std::fprintf(stderr, "process %d: %s: not as it should be\n", me, name);
    return failed;
}

int main(int argc, char **argv) {
    int provided;
    MPI_Init_thread(&argc, &argv, MPI_THREAD_FUNNELED, &provided);
    MPI_Comm_rank(MPI_COMM_WORLD, &me);
    MPI_Comm_size(MPI_COMM_WORLD, &processes);
    MPI_Win window = open_meetings();
    long failed = sum_over_processes(run_tests());
    if (me == 0) std::printf("bodies in C++ over %d processes: %s\n", processes, failed ? "NOT as they should be" : "as they should be");
    MPI_Win_free(&window);
    MPI_Finalize();
    return failed != 0;
}
