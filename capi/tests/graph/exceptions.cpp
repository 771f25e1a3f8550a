// exceptions.cpp: tests of gerfmuod.hpp: exceptions and refusals, bodies that own data, when bodies are destroyed, tasks of other
// pools, tasks made by tasks, inputs from outside, graphs that run again, traces and recorded times.
#include <gerfmuod/gerfmuod.hpp>

#include <cstdio>
#include <functional>
#include <memory>
#include <numeric>
#include <thread>

using gerfmuod::Options;
using gerfmuod::Pool;
using gerfmuod::Task;

// A sum of squares: ten tasks, and one that adds up their parts. Bodies may own their data, and may be only movable.
static bool sums() {
    std::vector<long> parts(10);
    long total = 0;
    Pool pool(Options().traced());
    std::vector<Task> squares;
    for (std::uint32_t k = 0; k < 10; k++) {
        auto number = std::make_unique<long>(k + 1);
        squares.push_back(pool.task([&parts, k, number = std::move(number)] { parts[k] = *number * *number; }, {}, k % 4));
    }
    pool.task([&] { total = std::accumulate(parts.begin(), parts.end(), 0L); }, squares);
    pool.run(4);
    return total == 385 && pool.size() == 11 && pool.trace().rfind("trace 1\nnodes 1\n", 0) == 0 && !pool.failed();
}

// Two bodies that run at a time throw, the second one once the first one's exception is known: run() throws the first one.
static bool throws_the_first() {
    Pool pool;
    int thrown = 0;
    Task second = pool.task([&] {
        while (!pool.failed()) std::this_thread::yield();
        throw 2;
    });
    Task first = pool.task([] { throw 1; });
    try {
        pool.run(2);
    } catch (int number) {
        thrown = number;
    }
    return thrown == 1 && pool.failed() == first && first != second;
}

static int calls = 0;
static void count_call() { calls++; }

// Bodies of each kind: a function, a pointer to one, an std::function, a lambda that changes its captures, and large ones; one
// task waits for forty.
static bool takes_any_body() {
    Pool pool;
    std::array<int, 100> large{};
    large[99] = 5;
    std::vector<Task> all{pool.task(count_call), pool.task(&count_call), pool.task(std::function<void()>(count_call))};
    for (int k = 0; k < 37; k++) all.push_back(pool.task([large, n = 0]() mutable { calls += large[99] + n++; }));
    pool.task([&] { calls *= 2; }, all);
    pool.run(1);
    return calls == 2 * (3 + 5 * 37) && pool.trace().empty();
}

// A body and its captures are destroyed when it ran, also when it threw; those of a pool that keeps them are not.
static bool destroys() {
    auto early = std::make_shared<int>(1), kept = std::make_shared<int>(1), thrown = std::make_shared<int>(1);
    long uses = 0;
    Pool pool, keeper(Options().keep_bodies()), thrower;
    auto first = pool.task([early] {});
    pool.task([&] { uses = early.use_count(); }, {first});
    pool.run(2);
    keeper.task([kept] {});
    keeper.run(2);
    thrower.task([thrown] { throw 1; });
    thrower.task([thrown] {});
    try {
        thrower.run(1);
    } catch (int) {
    }
    return uses == 1 && kept.use_count() == 2 && thrown.use_count() == 2;
}

// A body throws: run() throws that exception, failed() is the task, and tasks that wait for it never run.
static bool stops() {
    Pool pool;
    bool ran = false;
    pool.task([] {});
    auto a = pool.task([] { throw std::domain_error("no root"); });
    pool.task([&] { ran = true; }, {a});
    try {
        pool.run(2);
    } catch (const std::domain_error &error) {
        return !ran && std::string(error.what()) == "no root" && pool.failed() == a && a.number() == 1;
    }
    return false;
}

// Returns the text of the exception of a call that must throw one.
template <typename Exception = gerfmuod::Refused, typename Call> static std::string refusal(Call call) {
    try {
        call();
    } catch (const Exception &refused) {
        return refused.what();
    }
    return "";
}

static bool begins_with(const std::string &text, const char *start) { return text.rfind(start, 0) == 0; }

static bool refuses() {
    std::string no_thread = refusal([] { Pool().run(0); });
    std::string again = refusal([] {
        Pool pool;
        pool.run(1);
        pool.run(1);
    });
    std::string inside = refusal([] {
        Pool pool;
        pool.task([&] { pool.run(1); });
        pool.run(2);
    });
    std::string ended = refusal([] {
        Pool pool;
        pool.task([&] { pool.stop(); });
        pool.run(2);
    });
    std::printf("%s\n%s\n%s\n%s\n", no_thread.c_str(), again.c_str(), inside.c_str(), ended.c_str());
    return begins_with(no_thread, "NoThread:") && begins_with(again, "Ended:") && begins_with(inside, "Running:") &&
           begins_with(ended, "Stopped:");
}

// A task of no pool, of another pool, and of one that is gone and had the same address, is refused in each call.
static bool refuses_tasks_of_others() {
    std::optional<Pool> pool(std::in_place);
    const Task others[] = {Task(), Pool().task([] {}), pool->task([] {})};
    pool.emplace();
    auto own = pool->task([] {});
    int refused = 0;
    for (Task other : others) {
        refused += !refusal<std::invalid_argument>([&] { pool->task([] {}, {own, other}); }).empty();
        refused += !refusal<std::invalid_argument>([&] { pool->outside(other); }).empty();
        refused += !refusal<std::invalid_argument>([&] { pool->release(other); }).empty();
        refused += other != own;
    }
    return refused == 12 && pool->size() == 1;
}

// Calls the pool when it is destroyed.
struct Counter {
    Pool &pool;
    std::size_t &seen;
    ~Counter() { seen = pool.size(); }
};

// Tasks are made by tasks. The refused ones leave nothing behind, and their bodies are destroyed while the pool may be called. A
// graph that grew cannot run again.
static bool grows() {
    int runs = 0;
    std::size_t seen = 0;
    std::string refused[3];
    auto kept = std::make_shared<int>(7);
    Pool pool(Options().keep_bodies());
    auto first = pool.task([&] {
        refused[0] = refusal([&] { pool.task([kept, own = std::make_unique<Counter>(Counter{pool, seen})] {}, {}, 9); });
        refused[1] = refusal([&] { pool.task([kept] {}, {}, 0, 1u << 21); });
        for (int k = 0; k < 100; k++) pool.task([&] { runs++; }, {}, 1);
    });
    pool.task([&] { runs += 1000 * *kept; }, {first});
    pool.run(1);
    refused[2] = refusal([&] { pool.task([] {}); });
    std::string again = refusal([&] { pool.again(); });
    bool is_refused = begins_with(refused[0], "BadSpec:") && begins_with(refused[1], "HistoryFull:") && begins_with(refused[2], "Ended:");
    return runs == 7100 && is_refused && begins_with(again, "WrongLife:") && pool.size() == 102 && kept.use_count() == 1 && seen == 2;
}

// A task waits for a thread of the program's own. A body announces the input of the second one.
static bool waits() {
    int sent[2] = {0, 0}, seen = 0;
    std::vector<std::thread> devices;
    Pool pool;
    Task last;
    auto send = [&](int k, Task to) {
        devices.emplace_back([&, k, to] {
            sent[k] = k + 1;
            pool.release(to);
        });
    };
    auto first = pool.task([&] {
        pool.outside(last);
        send(1, last);
    });
    last = pool.task([&] { seen = 10 * sent[0] + sent[1]; }, {first});
    pool.outside(first);
    send(0, first);
    pool.run(2);
    for (auto &device : devices) device.join();
    std::string again = refusal([&] { pool.release(last); }), late = refusal([&] { pool.outside(first); });
    return seen == 12 && begins_with(again, "WrongLife at task 1:") && begins_with(late, "WrongLife at task 0:");
}

// The same graph three times. The last time a body throws; after that the pool cannot run again, and each call is refused.
static bool repeats() {
    Pool pool(Options().keep_bodies());
    int runs = 0, seen = 0;
    auto first = pool.task([&] { runs++; });
    auto last = pool.task(
        [&] {
            if (runs == 3) throw std::domain_error("third");
            seen = 10 * seen + runs;
        },
        {first});
    std::string early = refusal([&] { pool.again(); });
    for (int run = 0; run < 2; run++) {
        pool.run(2 + static_cast<std::uint32_t>(run));
        pool.again();
    }
    bool is_thrown = !refusal<std::domain_error>([&] { pool.run(2); }).empty();
    std::string late = refusal([&] { pool.again(); }), task = refusal([&] { pool.release(first); });
    std::string once = refusal<std::logic_error>([] { Pool().again(); });
    return is_thrown && seen == 12 && begins_with(early, "WrongLife:") && begins_with(late, "Stopped at task 1:") &&
           begins_with(task, "Stopped at task 1:") && !once.empty() && pool.failed() == last;
}

// A body runs the pool while another one throws: it is refused, and run() throws the exception of the other one.
static bool keeps_the_exception() {
    std::string nested, thrown;
    Pool pool;
    pool.task([&] {
        while (!pool.failed()) std::this_thread::yield();
        nested = refusal([&] { pool.run(1); });
    });
    pool.task([] { throw std::domain_error("kept"); });
    thrown = refusal<std::domain_error>([&] { pool.run(2); });
    return begins_with(nested, "Running:") && thrown == "kept";
}

// A run is recorded, and its events and the summary are written to a file.
static bool records() {
    Pool pool, late;
    late.task([] {});
    std::string refused = refusal([&] { late.record(); }), early = refusal([&] { pool.profile(stdout); });
    pool.record(8);
    pool.task([] {});
    pool.run(1);
    std::FILE *file = std::tmpfile();
    if (!file) return false;
    pool.profile(file);
    long events = std::ftell(file);
    pool.summary(file);
    bool is_longer = std::ftell(file) > events;
    std::fclose(file);
    return events > 0 && is_longer && begins_with(refused, "WrongLife:") && begins_with(early, "WrongLife:");
}

// After a body threw, and after a stop, the same graph runs again. A run goes on beside the caller, who waits for it.
static bool resets() {
    Pool pool(Options().keep_bodies());
    int runs = 0, fails = 1;
    auto first = pool.task([&] { runs++; });
    auto last = pool.task([&] { if (fails) throw 7; }, {first});
    bool has_thrown = false;
    try {
        pool.run(2);
    } catch (int number) {
        has_thrown = number == 7;
    }
    bool names_it = pool.failed() == last && pool.left() == 1;
    pool.reset();
    bool forgets = !pool.failed() && pool.left() == 2;
    fails = 0;
    pool.run_async(2);
    std::string second = refusal([&] { pool.run(1); });
    pool.wait();
    pool.reset();
    pool.run_async(1);
    while (!pool.wait_for(std::chrono::milliseconds(1))) {}
    Pool once;
    bool is_logic = false;
    try {
        once.reset();
    } catch (const std::logic_error &) {
        is_logic = true;
    }
    return has_thrown && names_it && forgets && begins_with(second, "Running:") && runs == 3 && pool.left() == 0 && is_logic;
}

// A pool that is destroyed in a run waits for its bodies.
static bool ends_with_its_pool() {
    int begun = 0, ended = 0;
    {
        Pool pool;
        for (int k = 0; k < 100; k++)
            pool.task([&] {
                begun++;
                std::this_thread::sleep_for(std::chrono::milliseconds(1));
                ended++;
            });
        pool.run_async(1);
    }
    return begun == ended;
}

int main() {
    const std::pair<const char *, bool (*)()> tests[] = {
        {"sums", sums},
        {"takes_any_body", takes_any_body},
        {"destroys", destroys},
        {"stops", stops},
        {"refuses", refuses},
        {"refuses_tasks_of_others", refuses_tasks_of_others},
        {"grows", grows},
        {"waits", waits},
        {"repeats", repeats},
        {"keeps_the_exception", keeps_the_exception},
        {"throws_the_first", throws_the_first},
        {"records", records},
        {"resets", resets},
        {"ends_with_its_pool", ends_with_its_pool},
    };
    bool well = true;
    for (auto [name, test] : tests)
        if (!test()) well = false, std::printf("%s: not as it should be\n", name);
    std::printf("%s\n", well ? "as it should be" : "not as it should be");
    return well ? 0 : 1;
}
