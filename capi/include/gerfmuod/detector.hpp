// detector.hpp: one process's part of the termination detector in C++17, over gerfmuod/process.h, which says what is proved.
//
//     gerfmuod::Detector detector(number, processes);        // a piece of work is open: the start
//     detector.sent(), transport.send(to, message);          // first count, then send
//     detector.finish();                                     // the start is done
//     while (!detector.ended([&](auto to, auto &control) { transport.send(to, control); }))
//         if (transport.receives_control()) detector.take(transport.control());
//         else if (auto work = detector.received(); true) handle(transport.message()); // what it sends is counted by sent()
//
// Link with -lgerfmuod -pthread.
#ifndef GERFMUOD_DETECTOR_HPP
#define GERFMUOD_DETECTOR_HPP

#include "gerfmuod.hpp"
#include "process.h"

namespace gerfmuod {

// One call at a time. A detector cannot be copied: the copies would count apart.
class Detector {
  public:
    // A piece of work, which is finished when this is destroyed.
    class [[nodiscard]] Work {
      public:
        Work(Work &&other) noexcept : detector(std::exchange(other.detector, nullptr)) {}
        Work &operator=(Work &&) = delete;
        ~Work() {
            if (detector) detector->finish();
        }

      private:
        friend class Detector;
        explicit Work(Detector *opened) : detector(opened) {}
        Detector *detector;
    };

    // Opens process `number` of `processes`, with one piece of work. Throws Refused: NoProcess.
    Detector(std::uint32_t number, std::uint32_t processes) { check(gerfmuod_process_init(&process, number, processes)); }
    Detector(const Detector &) = delete;
    Detector &operator=(const Detector &) = delete;

    // Opens a piece of work, and returns what finishes it. Throws Refused: NoWork, CountFull.
    Work work() { return check(gerfmuod_process_add_work(&process)), Work(this); }
    // Finishes a piece of work that no Work finishes, such as the start. Throws Refused: NoWork.
    void finish() { check(gerfmuod_process_finish_work(&process)); }
    // Counts a message before the transport gets it, and returns the epoch that goes with it. Throws Refused: NoWork, CountFull.
    std::uint64_t sent() { return check(gerfmuod_process_count_sent(&process)), process.epoch; }
    // Counts a message that came, and returns the piece of work that it is. Throws Refused: NotYet, Late, CountFull.
    Work received(std::uint64_t epoch = 0) { return check(gerfmuod_process_count_received(&process, epoch)), Work(this); }

    // Takes a control message. Returns false if it is of the next epoch: keep it until reopen(). Throws Refused: Malformed,
    // Mismatched.
    bool take(const gerfmuod_control_message &message) {
        std::uint32_t refused = gerfmuod_process_take(&process, &message);
        bool is_old = refused == GERFMUOD_REFUSED_LATE || refused == GERFMUOD_REFUSED_NOT_DUE; // or came twice: no error
        if (!is_old && refused != GERFMUOD_REFUSED_NOT_YET) check(refused);
        return refused != GERFMUOD_REFUSED_NOT_YET;
    }
    // Calls send(to, message) for each control message to be sent, and returns whether the epoch has ended. Throws Refused:
    // Miscounted, at process 0.
    template <typename Send>
    bool ended(Send &&send) {
        gerfmuod_control_message message;
        std::uint32_t next;
        while ((next = gerfmuod_process_next(&process, &message)) == GERFMUOD_PROCESS_SEND) send(message.to, std::as_const(message));
        if (next > GERFMUOD_PROCESS_ENDED) throw Refused(next);
        return next == GERFMUOD_PROCESS_ENDED;
    }
    // Begins the next epoch, after ended() returned true, with one piece of work open. Throws Refused: NotEnded, CountFull.
    void reopen() { check(gerfmuod_process_reopen(&process)); }

    // The state. gerfmuod_process_text(&detector.state()) says what the process waits for, if the program hangs.
    const gerfmuod_process &state() const { return process; }

  private:
    static void check(std::uint32_t refused) {
        if (refused) throw Refused(refused);
    }

    gerfmuod_process process;
};

} // namespace gerfmuod
#endif
