// gerfmuod/workers.hpp: tasks that make tasks, and graphs of short bodies, in C++17 with lambdas as bodies, over gerfmuod/workers.h.
//
//     gerfmuod::Workers workers(4);
//     workers.spawn([&](gerfmuod::Worker &worker) { worker.spawn(left), worker.spawn(right); });
//     workers.run();
//
//     gerfmuod::Links links; // which task waits for which
//     auto a = links.task(), b = links.task(), c = links.task({a, b});
//     workers.run(links, [&](std::uint32_t task) { compute(task); }); // and again, with the same links or others
//
// Each worker has a list of tasks and a lock of its own, and takes tasks from others when it has none, so short bodies do not wait for one
// lock. A gerfmuod::Pool has what workers lack: data handles, results, classes, tasks that are added to a graph in a run, inputs from
// outside and records.
//
// A body runs once; of a graph, after all tasks that it waits for, and it sees what they wrote. If one throws, the run stops: bodies that
// run are finished, no further one begins, tasks that did not run are dropped, and run() throws that exception, or the first of several.
// Workers are used by one thread at a time, and no body calls them but by its Worker. Link with -lgerfmuod -pthread.
#ifndef GERFMUOD_WORKERS_HPP
#define GERFMUOD_WORKERS_HPP

#include "gerfmuod.hpp"
#include "workers.h"

namespace gerfmuod {

class Workers;

// What a body that makes tasks is called with, on its thread, for as long as it runs.
class Worker {
  public:
    // Makes a task: it calls body(worker) or body(), on any worker, and destroys the body then. Throws Refused: Stopped if a body of this
    // run failed, as far as this worker knows; NoMemory.
    template <typename F>
    void spawn(F &&body);
    // The number of the worker, from 0, for memory that no other body uses at the same time.
    std::uint32_t number() const { return gerfmuod_worker_number(own); }

  private:
    friend class Workers;
    Worker(Workers &all_, gerfmuod_worker *own_) : all(all_), own(own_) {}
    Workers &all;
    gerfmuod_worker *own;
};

// Which task of a graph waits for which. A task is a number, from 0 on, in the order of description.
class Links {
  public:
    // One more task, which waits for these. Returns its number. That they are earlier ones is checked by the run.
    std::uint32_t task(std::initializer_list<std::uint32_t> after = {}) { return add(after.begin(), after.size()); }
    std::uint32_t task(const std::vector<std::uint32_t> &after) { return add(after.data(), after.size()); }
    std::size_t size() const { return offsets.size() - 1; }
    void clear() { offsets.resize(1), inputs.clear(); }

  private:
    friend class Workers;
    std::uint32_t add(const std::uint32_t *after, std::size_t count) {
        std::size_t end = inputs.size() + count;
        if (end > GERFMUOD_GRAPH_MAX_LINKED || size() >= GERFMUOD_GRAPH_MAX_LINKED) throw Refused(GERFMUOD_REFUSED_HISTORY_FULL);
        inputs.insert(inputs.end(), after, after + count);
        try {
            offsets.push_back(static_cast<std::uint32_t>(end));
        } catch (...) {
            inputs.resize(end - count);
            throw;
        }
        return static_cast<std::uint32_t>(size() - 1);
    }
    std::vector<std::uint32_t> offsets{0}, inputs; // as gerfmuod_workers_run_graph takes them
};

class Workers {
  public:
    // Starts threads, which stay until the end of the workers; the caller's is one of them. Throws Refused as gerfmuod_workers_open, and
    // std::invalid_argument if the number is negative.
    explicit Workers(std::uint32_t threads = Pool::default_threads()) {
        if (threads > GERFMUOD_GRAPH_MAX_THREADS) throw std::invalid_argument("a number of threads that is negative or too large");
        lists.reset(new List[threads + 1]);
        gerfmuod_workers *opened;
        std::uint32_t refused = gerfmuod_workers_open(&opened, threads);
        workers.reset(opened);
        if (refused) throw Refused(refused);
        count = threads;
    }
    Workers(const Workers &) = delete;
    Workers &operator=(const Workers &) = delete;
    // Destroys the tasks that were made after the last run, too.
    ~Workers() {
        workers.reset();
        drop_all();
    }

    // Makes a task before a run: it calls body(worker) or body(). Throws Refused: NoMemory.
    template <typename F>
    void spawn(F &&body) {
        spawn_in(lists[count], std::forward<F>(body), [&](void *task) { return gerfmuod_workers_spawn(workers.get(), call, task); });
    }
    // Runs all tasks, and those that they make.
    void run() { finish(gerfmuod_workers_run(workers.get())); }
    // Runs a graph, each task t by body(t), and the tasks that were made by spawn(). Throws Refused as gerfmuod_workers_run_graph, before
    // any body runs; tasks made by spawn() are then kept.
    template <typename F>
    void run(const Links &links, F &&body) {
        auto tasks = static_cast<std::uint32_t>(links.size());
        std::uint32_t about = GERFMUOD_GRAPH_NONE;
        Graph<std::remove_reference_t<F>> graph{this, &body};
        std::uint32_t refused = gerfmuod_workers_run_graph(workers.get(), tasks, links.offsets.data(), links.inputs.data(), graph.call,
                                                           &graph, &about);
        if (refused && refused != GERFMUOD_REFUSED_STOPPED) {
            throw Refused(refused, refused == GERFMUOD_REFUSED_NO_TASK ? about : GERFMUOD_GRAPH_NONE);
        }
        finish(refused);
    }
    // After a run of a graph that threw: the task whose body did, if it is one of the graph.
    std::optional<std::uint32_t> failed() const {
        std::uint32_t task = gerfmuod_workers_failed_task(workers.get());
        return task == GERFMUOD_GRAPH_NONE ? std::nullopt : std::optional<std::uint32_t>(task);
    }
    // How many tasks ran, and how many went to another worker before they ran, over all runs.
    std::uint64_t ran() const { return gerfmuod_workers_ran(workers.get()); }
    std::uint64_t moved() const { return gerfmuod_workers_moved(workers.get()); }

  private:
    friend class Worker;
    struct Close { void operator()(gerfmuod_workers *it) const { gerfmuod_workers_close(it); } };
    struct List;

    // A task that was made and has not ended, in the list of the worker that made it.
    struct Task {
        virtual ~Task() = default;
        virtual void run(Worker &worker) = 0;
        Workers *all = nullptr;
        List *list = nullptr;
        Task *before = nullptr, *after = nullptr;
    };
    template <typename F>
    struct TaskOf final : Task {
        template <typename Given>
        explicit TaskOf(Given &&given) : body(std::forward<Given>(given)) {}
        void run(Worker &worker) override {
            if constexpr (std::is_invocable_v<F &, Worker &>) body(worker);
            else body();
        }
        F body;
    };
    struct List {
        void add(Task *task) {
            std::lock_guard<std::mutex> held(lock);
            task->list = this, task->after = first;
            if (first) first->before = task;
            first = task;
        }
        void remove(Task *task) {
            std::lock_guard<std::mutex> held(lock);
            (task->before ? task->before->after : first) = task->after;
            if (task->after) task->after->before = task->before;
        }
        std::mutex lock; // of its tasks' places in it
        Task *first = nullptr;
    };
    template <typename F>
    struct Graph {
        Workers *all;
        F *body;
        static int call(void *own, std::uint32_t task) noexcept {
            auto *graph = static_cast<Graph *>(own);
            return graph->all->catching([&] { (*graph->body)(task); });
        }
    };

    template <typename F, typename Make>
    void spawn_in(List &list, F &&body, Make &&make) {
        auto task = std::make_unique<TaskOf<std::decay_t<F>>>(std::forward<F>(body));
        task->all = this;
        list.add(task.get());
        std::uint32_t refused = make(static_cast<Task *>(task.get()));
        if (!refused) return static_cast<void>(task.release()); // it may be gone already
        list.remove(task.get());
        throw Refused(refused);
    }
    static int call(gerfmuod_worker *own, void *argument) noexcept {
        std::unique_ptr<Task> task(static_cast<Task *>(argument));
        Worker worker(*task->all, own);
        int failed = task->all->catching([&] { task->run(worker); });
        task->list->remove(task.get());
        return failed;
    }
    // Calls a body. Returns 1 if it throws, and keeps the first exception.
    template <typename F>
    int catching(F &&body) noexcept {
        try {
            body();
            return 0;
        } catch (...) {
            std::lock_guard<std::mutex> held(lock);
            if (!thrown) thrown = std::current_exception();
            return 1;
        }
    }
    void finish(std::uint32_t refused) {
        if (refused) drop_all();
        if (auto first = std::exchange(thrown, nullptr)) std::rethrow_exception(first);
        if (refused) throw Refused(refused);
    }
    // Destroys the tasks that will not run, when none runs.
    void drop_all() {
        for (std::uint32_t k = 0; k <= count && lists; k++) {
            while (Task *task = lists[k].first) {
                lists[k].remove(task);
                delete task;
            }
        }
    }

    std::uint32_t count = 0;
    std::unique_ptr<List[]> lists; // for each worker the tasks that it made; the last one has those that were made before a run
    std::unique_ptr<gerfmuod_workers, Close> workers;
    std::mutex lock; // of what follows
    std::exception_ptr thrown;
};

template <typename F>
void Worker::spawn(F &&body) {
    all.spawn_in(all.lists[number()], std::forward<F>(body), [&](void *task) { return gerfmuod_worker_spawn(own, Workers::call, task); });
}

} // namespace gerfmuod
#endif
