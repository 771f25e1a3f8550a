// detectors.cpp: tests of detector.hpp: a tree of messages over some detectors in two epochs, work that throws, refusals, a miscount.
#include <gerfmuod/detector.hpp>

#include <deque>
#include <functional>
#include <type_traits>

using gerfmuod::Detector;
static_assert(!std::is_copy_constructible_v<Detector> && !std::is_copy_constructible_v<Detector::Work>, "copies would count apart");

struct Message {
    std::uint64_t epoch, hops;
};

// Detectors with an inbox each for messages, and one for control messages.
struct Network {
    std::deque<Detector> detectors;
    std::vector<std::deque<Message>> inboxes;
    std::vector<std::deque<gerfmuod_control_message>> controls;
    std::uint32_t received = 0;

    explicit Network(std::uint32_t n) : inboxes(n), controls(n) {
        for (std::uint32_t k = 0; k < n; k++) detectors.emplace_back(k, n);
    }
    void send(std::uint32_t from, std::uint64_t hops) {
        std::uint64_t epoch = detectors[from].sent();
        inboxes[(from + hops) % inboxes.size()].push_back({epoch, hops});
    }
    bool has_ended(std::uint32_t k) {
        return detectors[k].ended([&](std::uint64_t to, const gerfmuod_control_message &control) { controls[to].push_back(control); });
    }
    // Receives all that is there. Messages of the next epoch stay.
    void receive(std::uint32_t k) {
        std::deque<Message> later;
        for (; !inboxes[k].empty(); inboxes[k].pop_front()) {
            Message message = inboxes[k].front();
            if (message.epoch > detectors[k].state().epoch) {
                later.push_back(message);
                continue;
            }
            auto work = detectors[k].received(message.epoch);
            received++;
            for (int twice = 0; message.hops && twice < 2; twice++) send(k, message.hops - 1);
        }
        inboxes[k] = later;
        std::deque<gerfmuod_control_message> kept;
        for (; !controls[k].empty(); controls[k].pop_front())
            if (!detectors[k].take(controls[k].front())) kept.push_back(controls[k].front());
        controls[k] = kept;
    }
};

static std::string refusal(const std::function<void()> &call) {
    try {
        call();
    } catch (const gerfmuod::Refused &refused) {
        return std::string(refused.what()).substr(0, std::string(refused.what()).find(':'));
    }
    return "";
}

static bool counts_two_epochs(std::uint32_t n) {
    constexpr std::uint32_t hops = 5, each = 63;
    Network network(n);
    std::vector<int> epochs(n, -1);
    for (bool is_over = false; !is_over;) {
        is_over = true;
        for (std::uint32_t k = 0; k < n; k++) {
            if (epochs[k] < 0 || (epochs[k] < 1 && network.has_ended(k))) {
                if (epochs[k]++ >= 0) {
                    if (network.received < n * each) return false; // the end came early
                    network.detectors[k].reopen();
                }
                network.send(k, hops);
                network.detectors[k].finish();
            }
            network.receive(k);
            is_over = network.has_ended(k) && epochs[k] == 1 && is_over;
        }
    }
    return network.received == 2 * n * each;
}

static bool refuses() {
    Detector detector(0, 1);
    bool has_thrown = false;
    try {
        auto work = detector.work();
        throw 1;
    } catch (int) {
        has_thrown = detector.state().pending == 1;
    }
    gerfmuod_control_message strange = {}, foreign = {};
    strange.token = 7;
    foreign.processes = 2;
    bool others = refusal([] { Detector(1, 1); }) == "NoProcess" && refusal([&] { detector.take(strange); }) == "Malformed" &&
                  refusal([&] { detector.take(foreign); }) == "Mismatched" &&
                  refusal([&] { detector.reopen(); }) == "NotEnded" && refusal([&] { (void)detector.received(1); }) == "NotYet";
    detector.finish();
    return has_thrown && others && refusal([&] { detector.sent(); }) == "NoWork" && refusal([&] { (void)detector.work(); }) == "NoWork";
}

static bool names_a_miscount() {
    Network network(2);
    network.detectors[1].sent();
    for (int twice = 0; twice < 2; twice++) auto work = network.detectors[0].received();
    network.detectors[0].finish(), network.detectors[1].finish();
    std::string text;
    for (int turn = 0; turn < 100 && text.empty(); turn++)
        for (std::uint32_t k = 0; k < 2; k++) {
            network.receive(k);
            if (text.empty()) text = refusal([&] { network.has_ended(k); });
        }
    return text == "Miscounted";
}

int main() {
    const std::pair<const char *, bool> results[] = {
        {"one process", counts_two_epochs(1)}, {"three", counts_two_epochs(3)},        {"eight", counts_two_epochs(8)},
        {"refusals", refuses()},               {"a miscount", names_a_miscount()},
    };
    bool well = true;
    for (auto [name, holds] : results)
        if (!holds) well = false, std::printf("%s: not as it should be\n", name);
    std::printf("%s\n", well ? "as it should be" : "not as it should be");
    return well ? 0 : 1;
}
