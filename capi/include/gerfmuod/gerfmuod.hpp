// gerfmuod/gerfmuod.hpp: task graphs in C++17, with lambdas as bodies, over gerfmuod/team.h.
//
//     using gerfmuod::read, gerfmuod::write;
//     gerfmuod::Pool pool;
//     gerfmuod::Data<double> x(pool), y(pool), z(pool);
//     pool.task([](double &x) { x = std::sqrt(2.0); }, write(x));
//     pool.task([](double &y) { y = std::exp(1.0); }, write(y));
//     pool.task([](double x, double y, double &z) { z = x * y; }, read(x), read(y), write(z)); // waits for both
//     pool.run(4);
//
// Tasks are described in the order of a sequential program, and the run gives its result. Or a task names the tasks that it waits
// for: auto a = pool.task(f), b = pool.task(g); pool.task(h, {a, b}). If f and g return values, pool.task(h, read(a), read(b)) calls
// h with them, and a.get() is that of f.
//
// In a run, a body runs once, after all tasks that it waits for, and sees what they wrote. A pool is used by one thread,
// except that run() calls the bodies on several threads, and that any thread, also a body, may call task(), task_on(), handle(),
// outside(), release(), stop(), failed() and size(). If a body throws, the pool stops, and run() throws that exception.
// Link with -lgerfmuod -pthread.
#ifndef GERFMUOD_HPP
#define GERFMUOD_HPP

#include "team.h"

#include <algorithm>
#include <array>
#include <chrono>
#include <cstddef>
#include <cstdint>
#include <cstdio>
#include <cstring>
#include <exception>
#include <functional>
#include <initializer_list>
#include <memory>
#include <mutex>
#include <new>
#include <optional>
#include <stdexcept>
#include <string>
#include <thread>
#include <tuple>
#include <type_traits>
#include <utility>
#include <vector>

namespace gerfmuod {

// A call was refused, as the call of the same name in gerfmuod/team.h is. what() is the refusal's name, the task that it is
// about, and what it means.
class Refused : public std::runtime_error {
  public:
    explicit Refused(std::uint32_t number, std::uint32_t about = GERFMUOD_GRAPH_NONE)
        : std::runtime_error(text(number, about)), refusal(number), task(about) {}

    const std::uint32_t refusal; // an enum gerfmuod_refusal
    const std::uint32_t task;    // or GERFMUOD_GRAPH_NONE

  private:
    static std::string text(std::uint32_t number, std::uint32_t about) {
        std::string where = about == GERFMUOD_GRAPH_NONE ? "" : " at task " + std::to_string(about);
        std::string text = gerfmuod_refusal_text(number); // its name, and after a colon what it means
        return text.insert(text.find(':'), where);
    }
};

// A task of the pool that created it, to be used as an input of later tasks. Task() is of no pool.
class Task {
  public:
    Task() = default;
    std::uint32_t number() const { return own; }
    friend bool operator==(Task a, Task b) { return a.pool == b.pool && a.own == b.own; }
    friend bool operator!=(Task a, Task b) { return !(a == b); }

  private:
    friend class Pool;
    Task(std::uint64_t pool_, std::uint32_t number) : pool(pool_), own(number) {}
    std::uint64_t pool = 0; // no two pools of a process have the same number, and none has 0
    std::uint32_t own = GERFMUOD_GRAPH_NONE;
};

namespace internal {

// The runs of a pool, for the results of its tasks, which outlive it.
struct Runs {
    std::uint64_t number = 0; // again() and reset() begin the next one
    bool is_stopped = false;
};

// What a body returned or threw in the newest run. Of a reference it has the address.
template <typename T>
struct Outcome {
    explicit Outcome(std::shared_ptr<const Runs> runs_) : runs(std::move(runs_)) {}
    bool is_there() const { return run == runs->number && (value || error); }
    // Calls the body. Throws what it throws.
    template <typename F>
    void take(F &body) {
        value.reset(), error = nullptr, run = runs->number;
        try {
            if constexpr (std::is_reference_v<T>) {
                auto &&returned = body();
                value = std::addressof(returned);
            } else {
                value.emplace(body());
            }
        } catch (...) {
            error = std::current_exception();
            throw;
        }
    }

    const std::shared_ptr<const Runs> runs;
    std::uint64_t run = 0;
    std::optional<std::conditional_t<std::is_reference_v<T>, std::add_pointer_t<T>, T>> value;
    std::exception_ptr error;
};

} // namespace internal

// A task whose body returns a T, which may be a reference, and what it returned. done() and get() are for the time after the run, also
// after the end of the pool, and for bodies that wait for this task.
template <typename T>
class Result : public Task {
  public:
    Result() = default;
    // Whether the body returned or threw.
    bool done() const { return outcome && outcome->is_there(); }
    // What the body returned. Throws what the body threw; if it did not run, Refused: Stopped, or WrongLife if the pool was not stopped.
    std::add_lvalue_reference_t<T> get() const & {
        if (!outcome) throw std::invalid_argument("a result of no pool");
        if (!done()) throw Refused(outcome->runs->is_stopped ? GERFMUOD_REFUSED_STOPPED : GERFMUOD_REFUSED_WRONG_LIFE, number());
        if (outcome->error) std::rethrow_exception(outcome->error);
        if constexpr (std::is_reference_v<T>) return **outcome->value;
        else return *outcome->value;
    }
    // The same, moved: auto value = std::move(result).get().
    T get() && { return static_cast<T &&>(get()); }

  private:
    friend class Pool;
    Result(Task task, std::shared_ptr<internal::Outcome<T>> outcome_) : Task(task), outcome(std::move(outcome_)) {}
    std::shared_ptr<internal::Outcome<T>> outcome;
};

// An input of a task whose body gets the result of an earlier one.
template <typename T>
struct ReadResult {
    Result<T> result;
};
template <typename T>
ReadResult<T> read(const Result<T> &result) { return {result}; }

// A piece of data that tasks access, of the pool that created it. Handle() is of no pool.
class Handle {
  public:
    Handle() = default;
    std::uint32_t number() const { return own; }

  private:
    friend class Pool;
    Handle(std::uint64_t pool_, std::uint32_t number) : pool(pool_), own(number) {}
    std::uint64_t pool = 0;
    std::uint32_t own = 0;
};

// What a task does with a piece of data, an enum gerfmuod_mode. A task that writes a part of it, or reads it before, updates it.
struct Access {
    Handle handle;
    std::uint32_t mode;
};
inline Access read(Handle handle) { return {handle, GERFMUOD_READ}; }
inline Access write(Handle handle) { return {handle, GERFMUOD_WRITE}; }
inline Access update(Handle handle) { return {handle, GERFMUOD_UPDATE}; }

// The same of a value, which is passed to the body (see Data below).
template <typename T>
struct AccessedValue : Access {
    T *value;
};

// How a pool is opened: Pool pool(gerfmuod::Options().traced().keep_bodies()). From C++20 on also Pool pool({.is_traced = true}).
struct Options {
    bool is_traced = false;    // trace() has the events of the run, of at most 349,522 tasks
    bool keeps_bodies = false; // a body and what it captures live as long as the pool, which again() needs

    Options traced() const { return {true, keeps_bodies}; }
    Options keep_bodies() const { return {is_traced, true}; }
};

// What else there is to a task, by name: pool.task(f, {a, b}, gerfmuod::priority(1).releases(2)).
class TaskOptions {
  public:
    // The class of the task, 0 to 3: of the ready tasks those of a lower one run first.
    TaskOptions priority(std::uint32_t class_) const { return TaskOptions(class_, outside); }
    // The task also waits for this number of calls of release().
    TaskOptions releases(std::uint32_t number) const { return TaskOptions(own_class, number); }
    TaskOptions() = default;

  private:
    friend class Pool;
    TaskOptions(std::uint32_t class_, std::uint32_t releases_) : own_class(class_), outside(releases_) {}
    std::uint32_t own_class = 0, outside = 0;
};
inline TaskOptions priority(std::uint32_t class_) { return TaskOptions().priority(class_); }
inline TaskOptions releases(std::uint32_t number) { return TaskOptions().releases(number); }

class Pool {
  public:
    // Throws Refused: NoMemory.
    explicit Pool(Options options = {}) : keeps_bodies(options.keeps_bodies) {
        gerfmuod_team *opened;
        std::uint32_t refused = (options.is_traced ? gerfmuod_team_open_traced : gerfmuod_team_open)(&opened);
        team.reset(opened);
        if (refused) throw Refused(refused);
    }
    // Stops a run of run_async(), and waits for its threads. Not for a body.
    ~Pool() { team.reset(), runs->is_stopped = true; } // before the bodies

    // One more task, before the start or in a run. It waits for the tasks in `after`. The body is called without arguments, and may be
    // one that can only be moved. It is destroyed as soon as it ran, unless the pool keeps bodies. Returns a Task, or if the body
    // returns something, a Result of it. Throws std::invalid_argument if a task is not of this pool, and Refused as gerfmuod_team_spawn.
    template <typename F>
    auto task(F &&body, std::initializer_list<Task> after = {}, TaskOptions options = {}) {
        auto add_it = [&](Body own) { return add(std::move(own), after.begin(), after.size(), options); };
        return describe(std::forward<F>(body), add_it);
    }
    template <typename F>
    auto task(F &&body, const std::vector<Task> &after, TaskOptions options = {}) {
        auto add_it = [&](Body own) { return add(std::move(own), after.data(), after.size(), options); };
        return describe(std::forward<F>(body), add_it);
    }
    template <typename F>
    auto task(F &&body, TaskOptions options) { return task(std::forward<F>(body), std::initializer_list<Task>(), options); }
    // The same, whose body is called with the results of the tasks that it waits for: task(f, read(a), read(b)) calls f(a.get(),
    // b.get()), and both are const. Options come last. A task with results accesses no data: their order is another one.
    template <typename F, typename First, typename... Rest>
    auto task(F &&body, ReadResult<First> first, Rest... rest) {
        auto results = std::tuple_cat(std::make_tuple(first.result), result_of(rest)...);
        auto after = std::apply([](const auto &...result) { return std::array<Task, sizeof...(result)>{result...}; }, results);
        auto call_with = [own = std::decay_t<F>(std::forward<F>(body)), results]() mutable -> decltype(auto) {
            auto call_own = [&](const auto &...result) -> decltype(auto) { return std::invoke(own, std::as_const(result.get())...); };
            return std::apply(call_own, results);
        };
        auto add_it = [&](Body it) { return add(std::move(it), after.data(), after.size(), options_of(rest...)); };
        return describe(std::move(call_with), add_it);
    }

    // One more piece of data. Throws Refused as gerfmuod_team_handle.
    Handle handle() {
        std::uint32_t number;
        check(gerfmuod_team_handle(team.get(), &number));
        return Handle(id, number);
    }
    // One more task that accesses these pieces of data: if two tasks access one, and one of them writes or updates it, the later
    // one waits for the earlier one. Throws std::invalid_argument if a handle is not of this pool, and Refused as
    // gerfmuod_team_task_on. Returns as task().
    template <typename F>
    auto task_on(std::initializer_list<Access> accesses, F &&body, TaskOptions options = {}) {
        auto add_it = [&](Body own) { return add_on(std::move(own), accesses.begin(), accesses.size(), options); };
        return describe(std::forward<F>(body), add_it);
    }
    template <typename F>
    auto task_on(const std::vector<Access> &accesses, F &&body, TaskOptions options = {}) {
        auto add_it = [&](Body own) { return add_on(std::move(own), accesses.data(), accesses.size(), options); };
        return describe(std::forward<F>(body), add_it);
    }
    // The same, whose body is called with the values of the Data among the accesses, in this order: task(f, read(a), update(b)) calls
    // f(a, b), and the first one is const. Options come last.
    template <typename F, typename First, typename... Rest,
              std::enable_if_t<std::is_convertible_v<First, Access> &&
                               ((std::is_convertible_v<Rest, Access> || std::is_same_v<Rest, TaskOptions>) && ...), int> = 0>
    auto task(F &&body, First first, Rest... rest) {
        auto values = std::tuple_cat(value_of(first), value_of(rest)...);
        auto call_with = [own = std::decay_t<F>(std::forward<F>(body)), values]() mutable -> decltype(auto) {
            return std::apply(own, values);
        };
        std::array<Access, 1 + sizeof...(Rest)> accesses{first};
        std::size_t length = 1;
        ((length = with_access(accesses, length, rest)), ...);
        auto add_it = [&](Body it) { return add_on(std::move(it), accesses.data(), length, options_of(rest...)); };
        return describe(std::move(call_with), add_it);
    }

    // The same calls with options by position, as they were before there were names for them.
    template <typename F>
    auto task(F &&body, std::initializer_list<Task> after, std::uint32_t class_, std::uint32_t releases = 0) {
        return task(std::forward<F>(body), after, TaskOptions(class_, releases));
    }
    template <typename F>
    auto task(F &&body, const std::vector<Task> &after, std::uint32_t class_, std::uint32_t releases = 0) {
        return task(std::forward<F>(body), after, TaskOptions(class_, releases));
    }
    template <typename F>
    auto task_on(std::initializer_list<Access> accesses, F &&body, std::uint32_t class_, std::uint32_t releases = 0) {
        return task_on(accesses, std::forward<F>(body), TaskOptions(class_, releases));
    }
    template <typename F>
    auto task_on(const std::vector<Access> &accesses, F &&body, std::uint32_t class_, std::uint32_t releases = 0) {
        return task_on(accesses, std::forward<F>(body), TaskOptions(class_, releases));
    }

    // One more input from outside for a task, such as a message, a timer or a device: its body does not run before release()
    // was called once for each. A body may call it, for a task that waits for that body.
    void outside(Task task) { check(gerfmuod_team_outside(team.get(), number_of(task)), task.own); }
    // One input from outside of a task is there; the body sees what this thread wrote before. If the input cannot come, release
    // it all the same, and let the body throw; or call stop().
    void release(Task task) { check(gerfmuod_team_release(team.get(), number_of(task)), task.own); }
    // Ends the run: bodies that run are finished, no further one begins, and run() throws Refused: Stopped.
    void stop() { gerfmuod_team_stop(team.get(), GERFMUOD_GRAPH_NONE); }

    // Runs all tasks on `threads` threads, the caller among them. Throws the first exception that a body threw; failed()
    // is then the task of that body. Throws Refused as gerfmuod_team_run, and std::invalid_argument if the number is negative.
    void run(std::uint32_t threads = default_threads()) {
        begin(threads);
        finish(gerfmuod_team_run(team.get(), threads, call, this));
    }
    // The same on `threads` other threads. The caller calls progress(done, total) with numbers of tasks, at most every 100 ms, and once
    // after a run that threw nothing. If this throws, the pool is stopped, and run() throws that exception.
    template <typename F>
    void run(std::uint32_t threads, F &&progress) {
        run_async(threads);
        for (bool is_over = false; !is_over;) {
            is_over = wait_for(std::chrono::milliseconds(100));
            try {
                std::unique_lock<std::mutex> held(lock); // no task is added between the two numbers
                std::size_t total = count, done = total - left();
                held.unlock();
                progress(done, total);
            } catch (...) {
                if (!is_over) abandon();
                throw;
            }
        }
    }

    // run() on `threads` other threads: it returns at once. wait() or wait_for() ends the run. Throws before any body runs.
    void run_async(std::uint32_t threads = default_threads()) {
        begin(threads);
        std::uint32_t refused = gerfmuod_team_run_async(team.get(), threads, call, this);
        if (refused) finish(refused);
    }
    // Waits until all tasks are done, and throws as run(). Not for a body.
    void wait() { finish(gerfmuod_team_wait(team.get(), GERFMUOD_TEAM_NO_LIMIT)); }
    // The same for a time of less than 49 days. Returns whether the run has ended.
    bool wait_for(std::chrono::milliseconds time) {
        std::uint32_t refused = gerfmuod_team_wait(team.get(), static_cast<std::uint32_t>(time.count()));
        if (refused != GERFMUOD_REFUSED_RUNNING) finish(refused);
        return refused != GERFMUOD_REFUSED_RUNNING;
    }
    // The number of tasks that are not done.
    std::size_t left() const { return gerfmuod_team_left(team.get()); }

    // The same graph once more, after run(): run() may be called again. Results are forgotten, and inputs from outside have to be
    // announced again. Throws std::logic_error if the pool does not keep bodies.
    void again() { prepare(gerfmuod_team_again); }
    // The same, also after a run that was stopped or in which a body threw: the tasks count as never run. Throws as again().
    void reset() {
        prepare(gerfmuod_team_reset);
        std::lock_guard<std::mutex> held(lock);
        thrower = GERFMUOD_GRAPH_NONE;
    }
    // An empty pool again, for a new description, whose threads stay; after a run, or before one, whatever came of it. Its tasks and
    // handles are then of no pool, and results stay what they were. Throws Refused: Running, also if run_async() has had no wait().
    void clear() {
        decltype(blocks) old; // destroyed without the lock: a body may call the pool then
        auto own_runs = std::make_shared<internal::Runs>();
        std::lock_guard<std::mutex> held(lock);
        if (is_in_run) throw Refused(GERFMUOD_REFUSED_RUNNING);
        check(gerfmuod_team_clear(team.get()));
        old.swap(blocks), runs = std::move(own_runs);
        id = next_id(), count = 0, thrower = GERFMUOD_GRAPH_NONE;
    }
    // The task because of which the pool ended, if there is one.
    std::optional<Task> failed() const {
        std::lock_guard<std::mutex> held(lock);
        std::uint32_t number = thrower == GERFMUOD_GRAPH_NONE ? gerfmuod_team_failed(team.get()) : thrower;
        return number == GERFMUOD_GRAPH_NONE ? std::nullopt : std::optional<Task>(Task(id, number));
    }
    // The number of tasks that were described.
    std::size_t size() const { return std::lock_guard<std::mutex>(lock), count; }
    // The events of the run as a trace, which `tp audit` judges. It is empty if the pool is not traced.
    std::string trace() const {
        std::string text(gerfmuod_team_trace(team.get(), nullptr, 0), '\0');
        gerfmuod_team_trace(team.get(), &text[0], text.size() + 1);
        return text;
    }

    // Records each later run; each thread keeps its newest `slices` bodies and waits. Call it before the first task.
    void record(std::uint32_t slices = 65536) { check(gerfmuod_team_record(team.get(), slices)); }
    // Writes the last run as trace events, or as a summary.
    void profile(std::FILE *file) const { check(gerfmuod_team_profile(team.get(), file)); }
    void summary(std::FILE *file) const { check(gerfmuod_team_summary(team.get(), file)); }
    static std::uint32_t default_threads() { return std::max(1u, std::thread::hardware_concurrency()); }

  private:
    struct Close { void operator()(gerfmuod_team *it) const { gerfmuod_team_close(it); } };

    // A body of any type. A small one without a destructor is stored in `room`; of another one, `room` has a pointer to it. So
    // to move a Body calls nothing of the caller's.
    class Body {
      public:
        Body() = default;
        template <typename F, typename Own = std::decay_t<F>, typename = std::enable_if_t<!std::is_same_v<Own, Body>>>
        explicit Body(F &&body) {
            if constexpr (is_small<Own>) {
                new (room) Own(std::forward<F>(body));
                act = [](void *own, bool is_call) {
                    if (is_call) (*std::launder(static_cast<Own *>(own)))();
                };
            } else {
                new (room) Own *(new Own(std::forward<F>(body)));
                act = [](void *pointer, bool is_call) {
                    Own *own = *std::launder(static_cast<Own **>(pointer));
                    if (is_call) (*own)();
                    else delete own;
                };
            }
        }
        Body(Body &&other) noexcept { *this = std::move(other); }
        Body &operator=(Body &&other) noexcept {
            destroy();
            std::memcpy(room, other.room, sizeof room);
            act = std::exchange(other.act, nullptr);
            return *this;
        }
        ~Body() { destroy(); }
        void operator()() { act(room, true); }

      private:
        static constexpr std::size_t most = 24;
        template <typename Own>
        static constexpr bool is_small = sizeof(Own) <= most && alignof(Own) <= alignof(void *) &&
                                         std::is_trivially_copyable_v<Own> && std::is_trivially_destructible_v<Own>;
        void destroy() noexcept {
            if (auto last = std::exchange(act, nullptr)) last(room, false);
        }

        alignas(void *) unsigned char room[most] = {};
        void (*act)(void *room, bool is_call) = nullptr; // calls the body, or destroys it
    };

    // Returns a number that no other pool of this process has.
    static std::uint64_t next_id() {
        static std::mutex lock_of_ids;
        static std::uint64_t last = 0;
        return std::lock_guard<std::mutex>(lock_of_ids), ++last;
    }
    // Begins a run. A negative number, which C++ converts, would start threads without end.
    void begin(std::uint32_t threads) {
        if (threads > GERFMUOD_GRAPH_MAX_THREADS) throw std::invalid_argument("a number of threads that is negative or too large");
        if (exchange_in_run(true)) throw Refused(GERFMUOD_REFUSED_RUNNING);
    }
    // Ends a run of run_async() that goes on, whatever it throws.
    void abandon() noexcept {
        stop();
        try {
            wait();
        } catch (...) {
        }
    }
    // Ends a run: throws the first exception of a body, or if the run was refused.
    void finish(std::uint32_t refused) {
        std::exception_ptr first = std::exchange(thrown, nullptr);
        if (refused == GERFMUOD_REFUSED_STOPPED) runs->is_stopped = true;
        exchange_in_run(false);
        if (first) std::rethrow_exception(first);
        check(refused);
    }
    // Prepares the next run by a call of the team.
    void prepare(std::uint32_t (*call_of_team)(gerfmuod_team *)) {
        if (!keeps_bodies) throw std::logic_error("a pool runs again only if it was opened with keep_bodies()");
        check(call_of_team(team.get()));
        *runs = {runs->number + 1, false};
    }
    bool exchange_in_run(bool now) { return std::lock_guard<std::mutex>(lock), std::exchange(is_in_run, now); }
    std::uint32_t number_of(Task task) const {
        if (task.pool != id) throw std::invalid_argument("a task of no pool, or of another one");
        return task.own;
    }
    // Throws if a call about a task, or about none, was refused. Every call is refused as the fault that ended the pool.
    void check(std::uint32_t refused, std::uint32_t task = GERFMUOD_GRAPH_NONE) const {
        if (refused) throw Refused(refused, refused == gerfmuod_team_fault(team.get()) ? gerfmuod_team_failed(team.get()) : task);
    }
    template <typename T>
    static std::tuple<T &> value_of(const AccessedValue<T> &accessed) { return std::tuple<T &>(*accessed.value); }
    static std::tuple<> value_of(const Access &) { return {}; }
    static std::tuple<> value_of(TaskOptions) { return {}; }
    template <typename T>
    static std::tuple<Result<T>> result_of(const ReadResult<T> &read) { return {read.result}; }
    static std::tuple<> result_of(TaskOptions) { return {}; }
    // The options of a task: the last one of its arguments.
    static TaskOptions options_of() { return {}; }
    template <typename First, typename... Rest>
    static TaskOptions options_of(const First &first, const Rest &...rest) {
        if constexpr (std::is_same_v<First, TaskOptions>) {
            static_assert(sizeof...(Rest) == 0, "the options of a task come last");
            return first;
        } else {
            return options_of(rest...);
        }
    }
    // Appends an access to an array, and returns its length then.
    template <typename List>
    static std::size_t with_access(List &list, std::size_t length, const Access &access) { return list[length] = access, length + 1; }
    template <typename List>
    static std::size_t with_access(List &, std::size_t length, TaskOptions) { return length; }

    // Adds a task by add(a body). Returns it, with what it will have returned.
    template <typename F, typename Add>
    auto describe(F &&body, Add &&add) {
        using Own = std::decay_t<F>;
        static_assert(std::is_invocable_v<Own &>, "a body is called without arguments");
        using Returned = std::remove_cv_t<std::invoke_result_t<Own &>>;
        if constexpr (std::is_void_v<Returned>) {
            return add(Body(std::forward<F>(body)));
        } else {
            auto outcome = std::make_shared<internal::Outcome<Returned>>(runs);
            Body call_and_store([own = Own(std::forward<F>(body)), outcome]() mutable { outcome->take(own); });
            return Result<Returned>(add(std::move(call_and_store)), outcome);
        }
    }

    // An array of this length, which allocates only if it is long.
    template <typename T>
    class Array {
      public:
        explicit Array(std::size_t length) : many(length > few.size() ? length : 0) {}
        T *data() { return many.empty() ? few.data() : many.data(); }

      private:
        std::array<T, 16> few;
        std::vector<T> many;
    };
    Task add(Body &&body, const Task *after, std::size_t inputs, TaskOptions with) {
        Array<std::uint32_t> numbers(inputs);
        for (std::size_t k = 0; k < inputs; k++) numbers.data()[k] = number_of(after[k]);
        return keep(std::move(body), [&] {
            return gerfmuod_team_spawn(team.get(), with.own_class, numbers.data(), inputs, with.outside, nullptr, nullptr, nullptr);
        });
    }
    Task add_on(Body &&body, const Access *accesses, std::size_t length, TaskOptions with) {
        Array<gerfmuod_access> pieces(length);
        for (std::size_t k = 0; k < length; k++) {
            if (accesses[k].handle.pool != id) throw std::invalid_argument("a handle of no pool, or of another one");
            pieces.data()[k] = {accesses[k].handle.own, accesses[k].mode};
        }
        return keep(std::move(body), [&] {
            return gerfmuod_team_task_on(team.get(), with.own_class, pieces.data(), length, with.outside, nullptr, nullptr, nullptr);
        });
    }
    // Stores the body of a task that `spawn` adds.
    template <typename F>
    Task keep(Body &&body, F &&spawn) {
        std::lock_guard<std::mutex> held(lock);
        Body &own = body_of(count, true);
        own = std::move(body); // before any thread can run it
        std::uint32_t refused = spawn();
        if (refused) body = std::move(own); // the caller's, who destroys it without the lock: it may call the pool
        check(refused);
        return Task(id, count++);
    }
    // The body that the team calls. No exception leaves it.
    static int call(void *context, std::uint32_t task) noexcept {
        Pool *pool = static_cast<Pool *>(context);
        Body &own = pool->body_of(task);
        try {
            if (pool->keeps_bodies) own();
            else Body(std::move(own))();
            return 0;
        } catch (...) {
            std::lock_guard<std::mutex> held(pool->lock);
            if (!pool->thrown) pool->thrown = std::current_exception(), pool->thrower = task;
            return 1;
        }
    }
    // Returns the body of a task. A block of bodies never moves: it has twice the room of the one before, and the first one 64.
    Body &body_of(std::uint32_t task, bool is_new = false) {
        std::uint32_t block = 0, place = task;
        for (; place >= 64u << block; block++) place -= 64u << block;
        if (is_new && !blocks[block]) blocks[block].reset(new Body[64u << block]);
        return blocks[block][place];
    }

    std::uint64_t id = next_id(); // clear() changes it, so that tasks of before are of no pool
    const bool keeps_bodies;
    std::unique_ptr<gerfmuod_team, Close> team;
    std::shared_ptr<internal::Runs> runs = std::make_shared<internal::Runs>(); // changed between runs only
    mutable std::mutex lock; // of what follows; a body is read without it: its task was taken after it was written
    bool is_in_run = false;
    std::uint32_t count = 0;
    std::array<std::unique_ptr<Body[]>, 22> blocks; // for more tasks than a pool can have
    std::exception_ptr thrown;
    std::uint32_t thrower = GERFMUOD_GRAPH_NONE;
};

// A value that tasks access: its handle, and the value, for bodies that access it and for the time outside of a run. It lives longer
// than the run.
template <typename T>
class Data {
  public:
    template <typename... Arguments>
    explicit Data(Pool &pool, Arguments &&...arguments) : value(std::forward<Arguments>(arguments)...), handle(pool.handle()) {}
    Data(const Data &) = delete;
    Data &operator=(const Data &) = delete;

    T value;
    const Handle handle;
};
template <typename T>
AccessedValue<const T> read(const Data<T> &data) { return {{data.handle, GERFMUOD_READ}, &data.value}; }
template <typename T>
AccessedValue<T> write(Data<T> &data) { return {{data.handle, GERFMUOD_WRITE}, &data.value}; }
template <typename T>
AccessedValue<T> update(Data<T> &data) { return {{data.handle, GERFMUOD_UPDATE}, &data.value}; }

} // namespace gerfmuod
#endif
