// pool.cpp: a small task runtime over std::thread, on several nodes. It reports each event to the library, and its
// threads stop when the library detects termination. This replaces a counter of the runtime's own, which was incremented
// when a task or a message was created and decremented when it was done. An argument switches on one of three bugs. The
// library detects it at the event where it happens: the program prints the event and the reason, and exits with status 3.
//
//     pool            runs, and ends with status 0
//     pool twice      a message is received twice
//     pool late       a send is reported after its message can be received
//     pool early      one wave with equal sums is taken for the end
#include <gerfmuod/core.h>

#include <atomic>
#include <chrono>
#include <cstdint>
#include <cstdio>
#include <cstdlib>
#include <deque>
#include <mutex>
#include <string>
#include <thread>
#include <vector>

namespace {

using Number = std::uint32_t;
constexpr Number nodes = 3, workers = 2, depth = 6, generation = GERFMUOD_FIRST_GENERATION;

enum class Bug { none, twice, late, early };

// The detector under one lock, which orders the events.
class Detector {
  public:
    Detector() {
        if (gerfmuod_core_open(&core, nodes)) std::abort();
    }
    ~Detector() { gerfmuod_core_close(&core); }
    Detector(const Detector &) = delete;
    Detector &operator=(const Detector &) = delete;

    // Reports an event. A refusal is a bug of this runtime: the program ends.
    template <typename Call> void tell(const char *what, Number node, Number number, Call call) {
        std::lock_guard<std::mutex> held(lock);
        if (Number why = call(&core).refused) {
            std::fprintf(stderr, "after step %u, %s %u at node %u: refused %u %s\n", gerfmuod_core_status(&core).steps, what,
                         number, node, why, gerfmuod_refusal_text(why));
            std::_Exit(3);
        }
    }
    // Makes a call that may be refused.
    template <typename Call> auto ask(Call call) {
        std::lock_guard<std::mutex> held(lock);
        return call(&core);
    }

  private:
    gerfmuod_core core;
    std::mutex lock;
};

// The next thing to do at a node: a task, or a message that creates one; `left` is the number of levels below it.
struct Item {
    bool is_message;
    Number number, left;
};

struct Node {
    std::mutex lock;
    std::deque<Item> items;
};

class Pool {
  public:
    explicit Pool(Bug which) : bug(which) {}

    void run() {
        for (Number i = 0; i < nodes; i++) {
            insert(i, depth);
            detector.tell("opening", i, i, [=](auto *c) { return gerfmuod_core_ready(c, i); });
        }
        std::vector<std::thread> threads;
        for (Number i = 0; i < nodes * workers; i++) threads.emplace_back([this, i] { work(i % nodes); });
        for (auto &it : threads) it.join();
        std::printf("ended: %u tasks, %u messages, %u steps\n", next_task.load(), next_message.load(),
                    detector.ask(gerfmuod_core_status).steps);
    }

  private:
    void put(Number node, Item it) {
        std::lock_guard<std::mutex> held(all[node].lock);
        all[node].items.push_back(it);
    }
    void insert(Number node, Number left) {
        Number task = next_task++;
        detector.tell("insert of task", node, task, [=](auto *c) { return gerfmuod_core_insert(c, node, task, 0); });
        put(node, {false, task, left});
    }
    void send(Number from, Number to, Number left) {
        Number m = next_message++;
        bool is_late = bug == Bug::late && m == 40;
        if (is_late) {
            put(to, {true, m, left});
            std::this_thread::sleep_for(std::chrono::seconds(1));
        }
        detector.tell("send of message", from, m, [=](auto *c) { return gerfmuod_core_send(c, from, to, m, generation); });
        if (!is_late) put(to, {true, m, left});
        if (bug == Bug::twice && m == 40) put(to, {true, m, left});
    }
    // A task sends a message to each other node if there are levels below it.
    void run_task(Number node, Item task) {
        detector.tell("begin of task", node, task.number, [=](auto *c) { return gerfmuod_core_begin(c, task.number); });
        for (Number k = 1; task.left && k < nodes; k++) send(node, (node + k) % nodes, task.left - 1);
        detector.tell("end of task", node, task.number, [=](auto *c) { return gerfmuod_core_done(c, task.number); });
    }
    void receive(Number node, Item it) {
        Number m = it.number;
        detector.tell("receipt of message", node, m, [=](auto *c) { return gerfmuod_core_receive(c, node, m, generation); });
        insert(node, it.left);
        detector.tell("end of message", node, m, [=](auto *c) { return gerfmuod_core_message_end(c, node, m, generation); });
    }
    bool take(Number node, Item &it) {
        std::lock_guard<std::mutex> held(all[node].lock);
        if (all[node].items.empty()) return false;
        it = all[node].items.front();
        all[node].items.pop_front();
        return true;
    }
    void work(Number node) {
        Item it;
        while (!stopped) {
            if (take(node, it)) it.is_message ? receive(node, it) : run_task(node, it);
            else if (bug == Bug::early ? ended_early(node) : ended()) stopped = true;
            else std::this_thread::yield();
        }
    }
    // Returns whether the pool has terminated. Until it is quiet, this costs no step.
    bool ended() {
        Number refused = detector.ask(gerfmuod_core_settle).refused;
        return refused == 0 || refused == GERFMUOD_REFUSED_ENDED;
    }

    // An idle node takes part in the wave. This variant takes the first equal sums for the end; the library judges the wave.
    bool ended_early(Number node) {
        if (node) {
            detector.ask([=](auto *c) { return gerfmuod_core_down(c, node); });
            detector.ask([=](auto *c) { return gerfmuod_core_give(c, node); });
            detector.ask([=](auto *c) { return gerfmuod_core_up(c, node); });
            return false;
        }
        detector.ask(gerfmuod_core_start);
        gerfmuod_step_result sums = detector.ask([](auto *c) { return gerfmuod_core_give(c, 0); });
        if (sums.event != GERFMUOD_EVENT_WAVE_ENDED) return false;
        gerfmuod_step_result judged = detector.ask(gerfmuod_core_judge);
        if (sums.sent != sums.received || judged.event == GERFMUOD_EVENT_ENDED) return judged.event == GERFMUOD_EVENT_ENDED;
        std::fprintf(stderr, "after step %u, the end after wave %u with %u sent and %u received: judged not\n",
                     detector.ask(gerfmuod_core_status).steps, sums.number, sums.sent, sums.received);
        std::_Exit(3);
    }

    Bug bug;
    Detector detector;
    Node all[nodes];
    std::atomic<Number> next_task{0}, next_message{0};
    std::atomic<bool> stopped{false};
};

} // namespace

int main(int argc, char **argv) {
    const std::string word = argc == 2 ? argv[1] : "";
    if (argc > 2 || (argc == 2 && word != "twice" && word != "late" && word != "early")) return 2;
    Pool(word == "twice" ? Bug::twice : word == "late" ? Bug::late : word == "early" ? Bug::early : Bug::none).run();
}
