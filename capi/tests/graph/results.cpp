// results.cpp: tests of gerfmuod.hpp: results of bodies of many types, as inputs, after failures and stops, in further runs; when they are
// freed; progress; wrong arguments, and calls inside of a run.
#include <gerfmuod/gerfmuod.hpp>

#include <condition_variable>
#include <cstdio>
#include <memory>
#include <random>
#include <thread>

using gerfmuod::Data;
using gerfmuod::Options;
using gerfmuod::Pool;
using gerfmuod::read;
using gerfmuod::Result;
using gerfmuod::Task;
using gerfmuod::update;

// Returns what a call throws: the text of a standard exception, or "".
template <typename Exception = gerfmuod::Refused, typename Call> static std::string thrown(Call call) {
    try {
        call();
    } catch (const Exception &error) {
        return error.what();
    }
    return "";
}

static bool begins_with(const std::string &text, const char *start) { return text.rfind(start, 0) == 0; }

// Results of several types, as arguments and by get() in a body; also after the end of the pool.
static bool types() {
    std::vector<int> list{1, 2};
    std::optional<Pool> pool(std::in_place);
    auto six = pool->task([] { return 6; });
    auto seven = pool->task([number = std::make_unique<int>(7)]() mutable { return std::move(number); });
    auto text = pool->task([](const int &x, const std::unique_ptr<int> &y) { return std::string(x * *y, '.'); }, read(six), read(seven));
    auto same = pool->task([&list](const std::string &) -> std::vector<int> & { return list; }, read(text));
    auto length = pool->task([text] { return text.get().size(); }, {same, text});
    auto size = pool->task([](auto &all) {
        static_assert(std::is_same_v<decltype(all), const std::vector<int> &>);
        return all.size();
    }, read(same));
    auto nothing = pool->task([](const std::size_t &) {}, read(size));
    static_assert(std::is_same_v<decltype(nothing), Task> && std::is_same_v<decltype(same), Result<std::vector<int> &>>);
    pool->run(3);
    bool are_tasks = Task(length).number() == 4 && length == Task(length) && nothing != length && length.done();
    pool.reset();
    std::unique_ptr<int> moved = std::move(seven).get();
    six.get()++;
    return are_tasks && six.get() == 7 && *moved == 7 && !seven.get() && text.get() == std::string(42, '.') && length.get() == 42 &&
           size.get() == 2 && &same.get() == &list;
}

// A body that accesses data returns something, too; a class and inputs from outside go with results.
static bool with_data() {
    Pool pool;
    Data<int> number(pool, 5);
    auto before = pool.task([](int &it) { return it++; }, update(number));
    auto same = pool.task([](const int &it) -> const int & { return it; }, read(number));
    auto tenfold = pool.task_on({read(number.handle)}, [&] { return number.value * 10; }, 3, 1);
    auto after = pool.task([](int &it) { return ++it; }, update(number));
    pool.task([&] { pool.release(tenfold); });
    pool.run(2);
    return before.get() == 5 && &same.get() == &number.value && tenfold.get() == 60 && after.get() == 7;
}

// 300 random programs whose tasks get up to three results, against the same computed in a loop.
static bool random_programs() {
    std::mt19937_64 draw(7);
    auto mix = [](std::uint64_t a, std::uint64_t b, std::uint64_t c) { return (a * 31 + b) * 37 + c * 41 + 1; };
    for (std::uint32_t program = 0; program < 300; program++) {
        Pool pool;
        std::vector<Result<std::uint64_t>> results;
        std::vector<std::uint64_t> expected;
        for (std::uint64_t number = 0; number < 40; number++) {
            std::size_t a = number ? draw() % number : 0, b = number ? draw() % number : 0, c = number ? draw() % number : 0;
            switch (number ? draw() % 4 : 0) {
            case 0:
                results.push_back(pool.task([=] { return mix(number, 0, 0); }));
                expected.push_back(mix(number, 0, 0));
                break;
            case 1:
                results.push_back(pool.task([=](std::uint64_t x) { return mix(x, number, 0); }, read(results[a])));
                expected.push_back(mix(expected[a], number, 0));
                break;
            case 2:
                results.push_back(pool.task([=](auto x, auto y) { return mix(x, y, number); }, read(results[a]), read(results[b])));
                expected.push_back(mix(expected[a], expected[b], number));
                break;
            default:
                results.push_back(pool.task(mix, read(results[a]), read(results[b]), read(results[c])));
                expected.push_back(mix(expected[a], expected[b], expected[c]));
            }
        }
        pool.run(1 + program % 4);
        for (std::size_t number = 0; number < expected.size(); number++)
            if (results[number].get() != expected[number]) return false;
    }
    return true;
}

// Lets two bodies that run at a time fail: each result throws what its own body threw, and run() the exception of the task failed().
static bool fails() {
    std::mutex lock;
    std::condition_variable both_run;
    int running = 0;
    auto meet_and_throw = [&](const char *text) -> int {
        std::unique_lock<std::mutex> held(lock);
        running++, both_run.notify_all();
        both_run.wait(held, [&] { return running == 2; });
        throw std::domain_error(text);
    };
    Pool pool;
    auto one = pool.task([&] { return meet_and_throw("one"); });
    auto other = pool.task([&] { return meet_and_throw("other"); });
    auto never = pool.task([](int it) { return it; }, read(one));
    auto early = thrown([&] { one.get(); });
    bool was_done = one.done();
    std::string first = thrown<std::domain_error>([&] { pool.run(2); });
    bool is_first = first == (pool.failed() == one ? "one" : "other") && (pool.failed() == one || pool.failed() == other);
    auto get_one = [&] { one.get(); };
    auto get_other = [&] { other.get(); };
    bool is_own = true;
    for (int k = 0; k < 2; k++)
        is_own = is_own && thrown<std::domain_error>(get_one) == "one" && thrown<std::domain_error>(get_other) == "other";
    return is_first && is_own && begins_with(early, "WrongLife at task 0:") && !was_done && one.done() && !never.done() &&
           begins_with(thrown([&] { never.get(); }), "Stopped at task 2:");
}

// A result of a task that did not run, of a pool that was stopped, of one that is gone, and of none.
static bool stops() {
    Result<int> of_none, of_one_gone;
    Pool pool;
    auto never = pool.task([] { return 1; }, {pool.task([&] { pool.stop(); })});
    std::string stopped = thrown([&] { pool.run(2); });
    of_one_gone = Pool().task([] { return 1; });
    return begins_with(stopped, "Stopped:") && begins_with(thrown([&] { never.get(); }), "Stopped at task 1:") && !of_none.done() &&
           begins_with(thrown([&] { of_one_gone.get(); }), "Stopped at task 0:") &&
           !thrown<std::invalid_argument>([&] { of_none.get(); }).empty();
}

// again() and reset() forget results; the next run has its own, and a run that stops has none of the one before.
static bool repeats() {
    Pool pool(Options().keep_bodies());
    int runs = 0;
    auto count = pool.task([&] { return ++runs; });
    auto square = pool.task([](int it) { return it == 2 ? throw std::domain_error("two") : it * it; }, read(count));
    auto last = pool.task([](int it) { return -it; }, read(square));
    pool.run(2);
    bool is_right = count.get() == 1 && square.get() == 1 && last.get() == -1;
    pool.again();
    is_right = is_right && !count.done() && begins_with(thrown([&] { square.get(); }), "WrongLife at task 1:");
    is_right = is_right && thrown<std::domain_error>([&] { pool.run(2); }) == "two" && count.get() == 2;
    is_right = is_right && thrown<std::domain_error>([&] { square.get(); }) == "two";
    is_right = is_right && begins_with(thrown([&] { last.get(); }), "Stopped at task 2:");
    pool.reset();
    is_right = is_right && !square.done() && begins_with(thrown([&] { last.get(); }), "WrongLife at task 2:");
    pool.run(2);
    return is_right && count.get() == 3 && square.get() == 9 && last.get() == -9;
}

// Calls the pool when it is destroyed.
struct Caller {
    Pool &pool;
    std::size_t &seen;
    ~Caller() { seen = pool.size(); }
};

// Another graph in each round, on the threads of the first one, also after a failure: what was there before is of no pool, but a result
// stays, and bodies that did not run are destroyed. A run without a wait() has not ended.
static bool clears() {
    Pool pool;
    Result<int> before;
    Task old;
    gerfmuod::Handle old_handle;
    std::size_t seen = 9;
    bool is_right = true;
    for (int round = 0; round < 200; round++) {
        Data<int> sum(pool, round);
        for (int k = 0; k <= round; k++) pool.task([](int &it) { it++; }, update(sum));
        auto value = pool.task([&](int it) { return round % 3 ? it : throw std::domain_error("third"); }, read(sum));
        if (round % 2 == 0) old = pool.task([own = std::make_unique<Caller>(Caller{pool, seen})] {}, {value});
        std::string text = thrown<std::domain_error>([&] { pool.run(1 + static_cast<std::uint32_t>(round) % 4); });
        is_right = is_right && text == (round % 3 ? "" : "third") && (round < 2 || round % 3 != 2 || before.done());
        if (round % 3) is_right = is_right && value.get() == 2 * round + 1 && pool.left() == 0;
        seen = 9, before = value, old_handle = sum.handle;
        pool.clear();
        is_right = is_right && pool.size() == 0 && pool.left() == 0 && !pool.failed() && (round % 6 || seen == 0);
        is_right = is_right && (round % 3 ? before.get() == 2 * round + 1 : thrown<std::domain_error>([&] { before.get(); }) == "third");
        is_right = is_right && !thrown<std::invalid_argument>([&] { pool.task([] {}, {old}); }).empty();
        is_right = is_right && !thrown<std::invalid_argument>([&] { pool.task_on({read(old_handle)}, [] {}); }).empty();
    }
    pool.task([] {});
    pool.run_async(1);
    is_right = is_right && begins_with(thrown([&] { pool.clear(); }), "Running:");
    pool.wait();
    pool.clear();
    return is_right;
}

// A body is destroyed when it ran, and a result when no variable and no task that still has to run has it.
static bool frees() {
    auto captured = std::make_shared<int>(1), returned = std::make_shared<int>(2);
    long uses[3] = {0, 0, 0};
    Pool pool, keeper(Options().keep_bodies());
    auto kept = pool.task([captured, returned] { return returned; });
    Task dropped = pool.task([captured, returned] { return returned; }, {kept});
    auto reader = pool.task([&](const auto &) { uses[0] = returned.use_count(), uses[1] = captured.use_count(); },
                            read(pool.task([returned] { return returned; }, {dropped})));
    pool.task([&] { uses[2] = returned.use_count(); }, {reader});
    pool.run(1);
    { auto moved = std::move(kept); }
    bool is_free = uses[0] == 3 && uses[1] == 1 && uses[2] == 2 && returned.use_count() == 1;
    keeper.task([captured] { return 1; });
    keeper.run(1);
    return is_free && captured.use_count() == 2;
}

// Progress is reported by the caller, not more often than every 100 ms until the end, with numbers that include tasks made in the run.
static bool reports() {
    using clock = std::chrono::steady_clock;
    std::mutex lock;
    std::condition_variable opened;
    bool is_open = false, is_right = true;
    std::vector<std::pair<std::size_t, std::size_t>> seen;
    clock::time_point newest = clock::now();
    Pool pool;
    auto wait = [&] {
        std::unique_lock<std::mutex> held(lock);
        opened.wait(held, [&] { return is_open; });
    };
    pool.task(wait, {pool.task([&] { pool.task([] {}); })});
    auto progress = [&, caller = std::this_thread::get_id()](std::size_t done, std::size_t total) {
        std::lock_guard<std::mutex> held(lock);
        auto now = clock::now();
        is_right = is_right && std::this_thread::get_id() == caller && (done == total || now - newest >= std::chrono::milliseconds(99));
        newest = now;
        seen.emplace_back(done, total);
        if (done == 2 && seen.size() > 2) is_open = true, opened.notify_all(); // all but the task that waits
    };
    pool.run(2, progress);
    using Numbers = std::pair<std::size_t, std::size_t>;
    return is_right && seen.size() > 3 && std::is_sorted(seen.begin(), seen.end()) && seen.back() == Numbers(3, 3);
}

// A callback that throws stops the pool, and run() throws its exception when no body runs any more; a body that throws ends the callbacks.
static bool stops_for_progress() {
    Pool pool(Options().keep_bodies()), failing;
    unsigned begun = 0, ended = 0, called = 0, milliseconds = 1;
    for (int k = 0; k < 3000; k++)
        pool.task([&] {
            begun++;
            std::this_thread::sleep_for(std::chrono::milliseconds(milliseconds));
            ended++;
        });
    auto throws = [&](std::size_t, std::size_t) { called++, throw std::domain_error("enough"); };
    bool is_thrown = thrown<std::domain_error>([&] { pool.run(1, throws); }) == "enough" && called == 1;
    bool is_stopped = begun == ended && pool.left() > 0 && begins_with(thrown([&] { pool.run(1); }), "Stopped:");
    failing.task([] { throw std::domain_error("body"); });
    bool is_of_body = thrown<std::domain_error>([&] { failing.run(1, [](std::size_t, std::size_t) {}); }) == "body";
    pool.reset();
    begun = ended = milliseconds = 0;
    pool.run(1);
    is_thrown = is_thrown && thrown<std::domain_error>([&] { Pool().run(1, throws); }) == "enough"; // at the end
    std::string no_thread = thrown([&] { Pool().run(0, throws); });
    return is_thrown && is_stopped && is_of_body && ended == 3000 && called == 2 && begins_with(no_thread, "NoThread:");
}

// Whether a task can wait for this.
template <typename After, typename = void> struct CanWaitFor : std::false_type {};
template <typename After> using TaskAfter = decltype(std::declval<Pool &>().task(std::declval<void (&)()>(), std::declval<After>()));
template <typename After> struct CanWaitFor<After, std::void_t<TaskAfter<After>>> : std::true_type {};
static_assert(CanWaitFor<std::initializer_list<Task>>::value && CanWaitFor<std::vector<Task>>::value);
static_assert(CanWaitFor<std::vector<Task> &>::value && !CanWaitFor<int>::value && !CanWaitFor<const char *>::value);
static_assert(!CanWaitFor<std::vector<int>>::value && !CanWaitFor<std::vector<std::vector<Task>>>::value && !CanWaitFor<Task>::value);

// Wrong arguments, and results of other pools: nothing is added.
static bool refuses() {
    Pool pool, other;
    auto foreign = other.task([] { return 1; });
    auto nothing = [] {};
    int negative = -1;
    std::uint32_t number = static_cast<std::uint32_t>(negative);
    bool is_refused = !thrown<std::invalid_argument>([&] { pool.task([](int) {}, read(foreign)); }).empty() &&
                      !thrown<std::invalid_argument>([&] { pool.task([](int) {}, read(Result<int>())); }).empty() &&
                      !thrown<std::invalid_argument>([&] { pool.run(number); }).empty() &&
                      !thrown<std::invalid_argument>([&] { pool.run_async(number); }).empty() &&
                      begins_with(thrown([&] { pool.task(nothing, {}, 0, number); }), "HistoryFull:") &&
                      begins_with(thrown([&] { pool.task(nothing, {}, number); }), "BadSpec:");
    std::size_t size = pool.size();
    pool.run(1);
    return is_refused && size == 0;
}

// Calls in a body that are for the time between runs.
static bool refuses_in_a_body() {
    std::vector<std::string> texts;
    Pool pool(Options().keep_bodies());
    pool.task([&] {
        for (std::uint32_t threads : {1u, 3u}) texts.push_back(thrown([&] { pool.run(threads); }));
        texts.push_back(thrown([&] { pool.run(1, [](std::size_t, std::size_t) {}); }));
        texts.push_back(thrown([&] { pool.run_async(1); }));
        texts.push_back(thrown([&] { pool.again(); }));
        texts.push_back(thrown([&] { pool.reset(); }));
        texts.push_back(thrown([&] { pool.clear(); }));
        texts.push_back(thrown([&] { pool.record(); }));
        texts.push_back(thrown([&] { pool.summary(stdout); }));
    });
    pool.run(2);
    return texts.size() == 9 && std::all_of(texts.begin(), texts.end(), [](auto &text) { return begins_with(text, "Running:"); });
}

int main() {
    const std::pair<const char *, bool (*)()> tests[] = {
        {"types", types},
        {"with_data", with_data},
        {"random_programs", random_programs},
        {"fails", fails},
        {"stops", stops},
        {"repeats", repeats},
        {"clears", clears},
        {"frees", frees},
        {"reports", reports},
        {"stops_for_progress", stops_for_progress},
        {"refuses", refuses},
        {"refuses_in_a_body", refuses_in_a_body},
    };
    int failed = 0;
    for (auto [name, test] : tests)
        if (!test()) failed++, std::printf("FAILED: %s\n", name);
    if (!failed) std::puts("as it should be");
    return failed;
}
