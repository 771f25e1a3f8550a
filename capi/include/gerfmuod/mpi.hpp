// gerfmuod/mpi.hpp: one task graph over the processes of an MPI communicator in C++17, with lambdas as bodies, over gerfmuod/mpi.h.
//
//     using gerfmuod::read, gerfmuod::update, gerfmuod::GraphData, gerfmuod::Span;
//     gerfmuod::Graph graph(MPI_COMM_WORLD);
//     std::vector<GraphData<double[]>> block;
//     for (int b = 0; b < 8; b++) block.emplace_back(graph, b % graph.size(), 1000); // 1000 zeros, in this process alone
//     GraphData<double> sum(graph, 0);
//     for (auto &own : block)
//         graph.task([](double &total, Span<const double> all) { for (double x : all) total += x; }, update(sum), read(own));
//     graph.run(2);
//     if (graph.rank() == 0) std::printf("%f\n", sum.value());
//
// Every process runs the same text: it names all data, each with the process where it lives, its owner, and all tasks in the order
// of the sequential program. A task runs once, at the owner of the first datum that it writes or, if it writes none, of the first that
// it reads. gerfmuod/mpi.h says when, and what is proved of it. One thread of each process uses the graph, the one that calls MPI;
// run() calls the bodies on several, and a body calls neither MPI nor the graph.
//
// gerfmuod/mpi.c, next to this header, is C, and so compiled by the mpicc of the same MPI:
//     mpicc -O2 -c INCLUDE/gerfmuod/mpi.c
//     mpicxx -std=c++17 -O2 program.cpp mpi.o -lgerfmuod -pthread
// If the C++ bindings of MPI-2 bring warnings, leave them out: -DOMPI_SKIP_MPICXX, -DMPICH_SKIP_MPICXX.
#ifndef GERFMUOD_MPI_HPP
#define GERFMUOD_MPI_HPP

#include "gerfmuod.hpp"
#include "mpi.h"

#include <climits>
#include <functional>

namespace gerfmuod {

// The elements of a datum: a pointer and a length. From C++20 on, std::span takes one.
template <typename T>
class Span {
  public:
    Span(T *elements, std::size_t count) : first(elements), length(count) {}
    // A Span<T> is a Span<const T>.
    template <typename Other, typename = std::enable_if_t<std::is_convertible_v<Other (*)[], T (*)[]>>>
    Span(Span<Other> other) : first(other.data()), length(other.size()) {}

    T *data() const { return first; }
    std::size_t size() const { return length; }
    T *begin() const { return first; }
    T *end() const { return first + length; }
    T &operator[](std::size_t place) const { return first[place]; }

  private:
    T *first;
    std::size_t length;
};

// What a body gets of a datum: a T &, or of an array T[] a Span<T>. If the task only reads it, the T is const.
template <typename T>
using ValueOf = std::conditional_t<std::is_array_v<T>, Span<std::remove_extent_t<T>>, T &>;

// The graph was stopped, because a body failed and none threw in this process. If several failed, this is about one of them, and in each
// process about the same one.
class Stopped : public std::runtime_error {
  public:
    Stopped(int where, std::uint32_t number)
        : std::runtime_error("task " + std::to_string(number) + " failed in process " + std::to_string(where)), process(where),
          task(number) {}

    const int process;
    const std::uint32_t task; // counted from 0 in the order of the description
};

// A datum of a graph, without its type.
class GraphHandle {
  public:
    int owner() const { return process; }

  private:
    friend class Graph;
    template <typename>
    friend class GraphData;
    GraphHandle(std::uint64_t graph_, std::uint32_t number, int owner, bool is_here_, std::size_t size)
        : graph(graph_), own(number), process(owner), is_here(is_here_), length(size) {}
    void check_owner() const {
        if (!is_here) throw std::logic_error("the value is in process " + std::to_string(process));
    }
    std::uint64_t graph; // no two graphs of a process have the same number
    std::uint32_t own;
    int process;
    bool is_here;
    std::size_t length; // of an array
};

// What a task does with a datum, an enum gerfmuod_mode. A task that writes a part of it, or reads it before, updates it.
struct GraphAccess {
    GraphHandle handle;
    std::uint32_t mode;
};

// The same, with what the body gets of it: ValueOf<T>.
template <typename T>
struct GraphValue : GraphAccess {};

class Graph {
  public:
    // A graph without data and tasks, over a copy of the communicator. Collective. Throws Refused: NoMemory.
    explicit Graph(MPI_Comm communicator) {
        if (std::uint32_t refused = gerfmuod_mpi_open(&own, communicator)) throw Refused(refused);
        MPI_Comm_rank(communicator, &me);
        MPI_Comm_size(communicator, &processes);
    }
    Graph(const Graph &) = delete;
    Graph &operator=(const Graph &) = delete;
    // Collective, and so before MPI_Finalize. Destroys the bodies.
    ~Graph() { gerfmuod_mpi_close(own); }

    // One more task, whose body is called with the values of these data, in this order: task(f, read(a), update(b)) calls f(a, b), and
    // the first one is const. The body is anything that can be called so, also what can only be moved; what it returns is
    // ignored. It is stored only in the process that runs the task, and destroyed with the graph. If it throws, the graph is
    // stopped in every process. The class is 0, which runs first, to 3.
    //
    // run() refuses a graph with a task that cannot be. Throws Refused: WrongLife, after run(); std::invalid_argument if a datum is
    // of another graph.
    template <typename F, typename... T>
    void task(F &&body, GraphValue<T>... accesses) { task(0, std::forward<F>(body), accesses...); }
    template <typename F, typename... T>
    void task(std::uint32_t class_, F &&body, GraphValue<T>... accesses) {
        using Own = std::decay_t<F>;
        static_assert(sizeof...(T) > 0, "a task names a datum, which decides where it runs");
        static_assert(std::is_invocable_v<Own &, ValueOf<T>...>, "a body is called with a T & or a Span<T> of each datum, const if read");
        const gerfmuod_access named[] = {{accesses.handle.own, accesses.mode}...};
        Body *stored = nullptr;
        if (owner_of({accesses...}) == me) {
            const Lengths<sizeof...(T)> lengths = {accesses.handle.length...};
            bodies.push_back(std::make_unique<BodyOf<Own, T...>>(*this, bodies.size(), std::forward<F>(body), lengths));
            stored = bodies.back().get();
        }
        gerfmuod_mpi_task_on(own, class_, call, &stored, sizeof stored, named, sizeof...(T));
    }

    // Runs the graph on `threads` threads in each process, the caller among them, and returns when all tasks of the graph are
    // done. Collective; a graph runs once. If a body throws, each process finishes the bodies that run. Then run() throws that
    // exception in the process where it was thrown, and Stopped in the others. If several bodies threw in a process, it throws the
    // exception of the one that was described first. Throws Refused, the same one in every process and before any body runs, as
    // gerfmuod_mpi_run.
    void run(std::uint32_t threads = 1) {
        has_run = true;
        std::uint32_t refused = gerfmuod_mpi_run(own, threads);
        if (thrown) std::rethrow_exception(std::exchange(thrown, nullptr));
        if (refused != GERFMUOD_REFUSED_STOPPED) return check(refused);
        int process;
        std::uint32_t task;
        gerfmuod_mpi_failed(own, &process, &task);
        throw Stopped(process, task);
    }

    // After run() threw Refused as DIFFERENT: a process, and the first task that it described in another way, as gerfmuod_mpi_failed.
    std::pair<int, std::uint32_t> difference() const {
        std::pair<int, std::uint32_t> found;
        gerfmuod_mpi_failed(own, &found.first, &found.second);
        return found;
    }
    // The number of messages that this process sent.
    std::uint64_t messages() const { return gerfmuod_mpi_messages(own); }
    // The number of this process in the communicator, and how many there are.
    int rank() const { return me; }
    int size() const { return processes; }

  private:
    template <typename>
    friend class GraphData;

    template <std::size_t count>
    using Lengths = std::array<std::size_t, count>;

    // A body of any type, and its place among those of this process.
    class Body {
      public:
        Body(Graph &graph_, std::size_t place_) : graph(graph_), place(place_) {}
        virtual ~Body() = default;
        virtual void call(void *const *values) = 0;

        Graph &graph;
        const std::size_t place;
    };
    template <typename F, typename... T>
    class BodyOf final : public Body {
      public:
        template <typename Given>
        BodyOf(Graph &graph_, std::size_t place_, Given &&given, const Lengths<sizeof...(T)> &lengths_)
            : Body(graph_, place_), body(std::forward<Given>(given)), lengths(lengths_) {}
        void call(void *const *values) override { call_with(values, std::index_sequence_for<T...>()); }

      private:
        template <std::size_t... k>
        void call_with(void *const *values, std::index_sequence<k...>) {
            static_cast<void>(std::invoke(body, value_at<T>(values[k], lengths[k])...));
        }
        F body;
        const Lengths<sizeof...(T)> lengths;
    };

    template <typename T>
    static ValueOf<T> value_at(void *at, [[maybe_unused]] std::size_t length) {
        if constexpr (std::is_array_v<T>) return {static_cast<std::remove_extent_t<T> *>(at), length};
        else return *static_cast<T *>(at);
    }
    // Returns a number that no other graph of this process has.
    static std::uint64_t next_id() {
        static std::mutex lock_of_ids;
        static std::uint64_t last = 0;
        return std::lock_guard<std::mutex>(lock_of_ids), ++last;
    }
    static void check(std::uint32_t refused) {
        if (refused) throw Refused(refused);
    }
    // Names a datum of `length` elements of `size` bytes. If there are too many, run() is refused in every process.
    GraphHandle handle(int owner, void *at, std::size_t length, std::size_t size) {
        check(has_run ? GERFMUOD_REFUSED_WRONG_LIFE : GERFMUOD_OK);
        std::size_t bytes = length <= SIZE_MAX / size ? length * size : SIZE_MAX;
        return GraphHandle(id, gerfmuod_mpi_data(own, owner, at, bytes), owner, owner == me, length);
    }
    // Returns the process where gerfmuod_mpi_task_on lets a task with these accesses run.
    int owner_of(std::initializer_list<GraphAccess> accesses) const {
        check(has_run ? GERFMUOD_REFUSED_WRONG_LIFE : GERFMUOD_OK);
        for (const GraphAccess &access : accesses)
            if (access.handle.graph != id) throw std::invalid_argument("a datum of another graph");
        for (const GraphAccess &access : accesses)
            if (access.mode != GERFMUOD_READ) return access.handle.process;
        return accesses.begin()->handle.process;
    }
    // The body that gerfmuod_mpi_run calls. No exception leaves it.
    static int call(const void *stored, void *const *values) noexcept {
        Body *body = *static_cast<Body *const *>(stored);
        try {
            body->call(values);
            return 0;
        } catch (...) {
            body->graph.keep(body->place, std::current_exception());
            return 1;
        }
    }
    void keep(std::size_t place, std::exception_ptr exception) {
        std::lock_guard<std::mutex> held(lock);
        if (thrown && thrower < place) return;
        std::swap(thrown, exception); // the other one is destroyed without the lock
        thrower = place;
    }

    const std::uint64_t id = next_id();
    gerfmuod_mpi *own = nullptr;
    int me = 0, processes = 0;
    bool has_run = false;
    std::vector<std::unique_ptr<Body>> bodies;
    std::mutex lock; // of what follows, in a run
    std::exception_ptr thrown;
    std::size_t thrower = 0;
};

// Whether messages can bring a T: as bytes, to where malloc has room. A pointer would lead into the memory of another process.
template <typename T>
constexpr bool is_datum = std::is_trivially_copyable_v<T> && !std::is_const_v<T> && !std::is_array_v<T> && !std::is_pointer_v<T> &&
                          alignof(T) <= alignof(std::max_align_t);

// A T that is in one process, its owner, and in no other. It lives longer than the run. It may be moved, as in a std::vector.
template <typename T>
class GraphData {
    static_assert(is_datum<T>, "a datum is trivially copyable, not const, no pointer, no array but a T[], and aligned as by malloc");
    std::unique_ptr<T> own;

  public:
    // Creates the T at its owner with these arguments, which are ignored elsewhere. Throws Refused: WrongLife, after run(). If
    // there is no such process, run() is refused.
    template <typename... Arguments>
    GraphData(Graph &graph, int owner, Arguments &&...arguments)
        : own(graph.rank() == owner ? new T(std::forward<Arguments>(arguments)...) : nullptr),
          handle(graph.handle(owner, own.get(), 1, sizeof(T))) {}

    // The T, before and after the run. Throws std::logic_error in a process that is not its owner.
    T &value() { return handle.check_owner(), *own; }
    const T &value() const { return handle.check_owner(), *own; }

    const GraphHandle handle;
};

// An array of `size` elements, in the same way. If it would have more than INT_MAX bytes, it is empty, and run() is refused.
template <typename T>
class GraphData<T[]> {
    static_assert(is_datum<T>, "an element is trivially copyable, not const, no pointer, no array, and aligned as by malloc");
    std::unique_ptr<T[]> own;
    Span<T> elements;

  public:
    // Creates the elements at their owner, each as T().
    GraphData(Graph &graph, int owner, std::size_t size)
        : own(graph.rank() == owner && size <= INT_MAX / sizeof(T) ? new T[size]() : nullptr), elements(own.get(), own ? size : 0),
          handle(graph.handle(owner, own.get(), size, sizeof(T))) {}
    // The elements are at `at`, in the caller's memory, which is used until run() returns. Elsewhere `at` is ignored.
    GraphData(Graph &graph, int owner, T *at, std::size_t size)
        : elements(at, size), handle(graph.handle(owner, at, size, sizeof(T))) {}

    Span<T> value() { return handle.check_owner(), elements; }
    Span<const T> value() const { return handle.check_owner(), elements; }

    const GraphHandle handle;
};

template <typename T>
GraphValue<const T> read(const GraphData<T> &data) { return {{data.handle, GERFMUOD_READ}}; }
template <typename T>
GraphValue<T> write(GraphData<T> &data) { return {{data.handle, GERFMUOD_WRITE}}; }
template <typename T>
GraphValue<T> update(GraphData<T> &data) { return {{data.handle, GERFMUOD_UPDATE}}; }

} // namespace gerfmuod
#endif
