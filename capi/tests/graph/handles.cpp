// handles.cpp: tests of the data handles of gerfmuod.hpp: 1,000 random programs against the sequential one, which values a body gets,
// handles of other pools, tasks with classes and releases, by position and by name.
#include <gerfmuod/gerfmuod.hpp>

#include <cstdio>
#include <deque>
#include <random>

using gerfmuod::Access;
using gerfmuod::Data;
using gerfmuod::Handle;
using gerfmuod::Pool;
using gerfmuod::read;
using gerfmuod::update;
using gerfmuod::write;

// One step of a program: its accesses, each of another place.
struct Step {
    std::vector<std::pair<std::size_t, std::uint32_t>> accesses; // a place and a mode
    std::uint64_t number;

    // Changes what it writes by all that it reads.
    template <typename Value>
    void operator()(Value &&value) const {
        std::uint64_t sum = number;
        for (auto [place, mode] : accesses)
            if (mode != GERFMUOD_WRITE) sum = sum * 6364136223846793005u + value(place);
        for (auto [place, mode] : accesses)
            if (mode != GERFMUOD_READ) value(place) = sum += place;
    }
};

static Access access_of(const Data<std::uint64_t> &data, std::uint32_t mode) { return {data.handle, mode}; }

static bool random_programs() {
    std::mt19937 draw(5);
    for (int program = 0; program < 1000; program++) {
        Pool pool;
        std::deque<Data<std::uint64_t>> data;
        std::vector<std::uint64_t> expected(1 + draw() % 6);
        for (std::size_t place = 0; place < expected.size(); place++) data.emplace_back(pool, 0u);
        for (std::uint32_t number = 0; number < 24; number++) {
            Step step{{}, number};
            std::vector<Access> accesses;
            for (std::size_t place = 0; place < expected.size(); place++)
                if (std::uint32_t mode = draw() % 5; mode >= GERFMUOD_READ && mode <= GERFMUOD_UPDATE) {
                    step.accesses.emplace_back(place, mode);
                    accesses.push_back(access_of(data[place], mode));
                }
            step([&](std::size_t place) -> std::uint64_t & { return expected[place]; });
            pool.task_on(accesses, [&data, step] { step([&](std::size_t place) -> std::uint64_t & { return data[place].value; }); }, draw() % 4);
        }
        pool.run(1 + program % 4);
        for (std::size_t place = 0; place < expected.size(); place++)
            if (data[place].value != expected[place]) return false;
    }
    return true;
}

// A body gets the values of the Data among its accesses, those that it only reads as const.
static bool values() {
    Pool pool;
    Data<std::vector<int>> list(pool, 3, 7);
    Data<int> sum(pool, 1);
    Handle file = pool.handle();
    pool.task([](std::vector<int> &all) { all.push_back(4); }, update(list));
    pool.task([](const std::vector<int> &all, int &out) { for (int it : all) out += it; }, read(list), write(file), update(sum));
    pool.task([](auto &all, auto &out) {
        static_assert(std::is_const_v<std::remove_reference_t<decltype(all)>> && !std::is_const_v<std::remove_reference_t<decltype(out)>>);
        out *= static_cast<int>(all.size());
    }, read(list), update(sum));
    pool.task([bonus = std::make_unique<int>(5)](int &out) { out += *bonus; }, update(sum));
    pool.run(3);
    return sum.value == (1 + 3 * 7 + 4) * 4 + 5 && pool.size() == 4;
}

// A handle of another pool, or of none, is an invalid argument, and adds no task; a mode that is none is refused.
static bool foreign() {
    Pool pool, other;
    Handle own = pool.handle(), alien = other.handle();
    int found = 0;
    for (Handle it : {alien, Handle()}) {
        try {
            pool.task([] {}, read(own), write(it));
        } catch (const std::invalid_argument &) {
            found++;
        }
    }
    try {
        pool.task_on({{own, 4}}, [] {});
    } catch (const gerfmuod::Refused &refused) {
        found += refused.refusal == GERFMUOD_REFUSED_BAD_SPEC;
    }
    return found == 3 && pool.size() == 0;
}

// A task with accesses may have a class, and await inputs from outside.
static bool classes_and_releases() {
    Pool pool;
    Handle data = pool.handle();
    std::vector<int> order;
    auto last = pool.task_on({update(data)}, [&] { order.push_back(3); }, 3, 1);
    pool.task_on({}, [&] { order.push_back(2); }, 2);
    pool.task_on({}, [&] { order.push_back(1), pool.release(last); }, 1);
    pool.task([&] { order.push_back(4); }, read(data));
    pool.run(1);
    return order == std::vector<int>{1, 2, 3, 4};
}

// Options by name, in each form of a task: on one thread the order shows the classes.
static bool options() {
    using gerfmuod::priority;
    using gerfmuod::releases;
    Pool pool;
    Data<int> data(pool, 3);
    std::vector<int> order;
    auto number = pool.task([] { return 2; });
    auto last = pool.task([&](int) { order.push_back(6); }, read(number), releases(2).priority(3));
    pool.task([&] { order.push_back(1); }, {number}, priority(1));
    pool.task([&] { order.push_back(1); }, std::vector<gerfmuod::Task>{number}, priority(1));
    pool.task([&](int it) { order.push_back(it); }, read(number), priority(2));
    pool.task([&] { order.push_back(2), pool.release(last); }, priority(2));
    auto fifth = pool.task_on(std::vector<Access>{}, [&] { order.push_back(5); }, priority(2).releases(1));
    pool.task([&](int &it) { order.push_back(it++), pool.release(last); }, update(data), priority(3));
    pool.task_on({read(data.handle)}, [&] { order.push_back(data.value), pool.release(fifth); }, priority(0));
    pool.run(1);
    return order == std::vector<int>{1, 1, 2, 2, 3, 4, 5, 6};
}

int main() {
    const struct { const char *name; bool (*test)(); } tests[] = {
        {"random programs", random_programs}, {"values", values}, {"foreign", foreign}, {"classes and releases", classes_and_releases},
        {"options", options},
    };
    int failed = 0;
    for (auto &it : tests)
        if (!it.test()) failed++, std::printf("FAILED: %s\n", it.name);
    if (!failed) std::puts("as it should be");
    return failed;
}
