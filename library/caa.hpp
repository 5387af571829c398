// caa for C++17, over caa.h: a machine that is closed when it goes out of scope, and answers as values.
//
//     caa_host::Machine machine(script);
//     machine.play([&](const caa_step &put) { return write_register(put.object, put.value); },
//                  [&](std::uint32_t participant, const caa_step &work) { return has_ended(participant, work); });
//
// What the host has to keep stands in caa.h. A machine is moved, never copied, and stays on its thread. Where it was moved away, next and
// counts throw std::logic_error, and other calls answer as caa.h says of a closed one.
#ifndef CAA_HPP
#define CAA_HPP
#include "caa.h"
#include <new>
#include <optional>
#include <stdexcept>
#include <string>
#include <string_view>
#include <utility>

namespace caa_host {

// A script that is refused: the line, counted from 1 (0: the script as a whole), and the number and word of the cause.
struct Refused : std::runtime_error {
    std::uint32_t line;
    std::string cause;
    Refused(std::uint32_t line, const std::string &cause)
        : std::runtime_error("line " + std::to_string(line) + ": " + cause), line(line), cause(cause) {}
};

struct Object {
    std::string name;
    std::int64_t first; // before the first entry
    std::int64_t now;   // by the journal
};

class Machine {
  public:
    // Throws Refused, or std::bad_alloc where no memory was found.
    explicit Machine(std::string_view script) {
        std::uint32_t line = 0;
        std::uint8_t cause[32] = {};
        const auto *bytes = reinterpret_cast<const std::uint8_t *>(script.empty() ? "" : script.data());
        switch (caa_open(&handle, bytes, script.size(), &line, cause, sizeof cause - 1)) {
        case CAA_DONE: break;
        case CAA_REFUSED: throw Refused(line, reinterpret_cast<const char *>(cause));
        default: throw std::bad_alloc();
        }
    }
    ~Machine() { caa_close(&handle); }
    Machine(const Machine &) = delete;
    Machine &operator=(const Machine &) = delete;
    // The handle goes over, and the other machine is closed.
    Machine(Machine &&other) noexcept : handle(std::exchange(other.handle, caa{})) {}
    Machine &operator=(Machine &&other) noexcept {
        std::swap(handle, other.handle);
        return *this;
    }

    caa_step next(std::uint32_t participant) {
        caa_step step{};
        open_still(caa_next(&handle, participant, &step));
        return step;
    }
    // Whether a put was asked for.
    bool answer(bool done) { return caa_answer(&handle, done) == CAA_DONE; }
    // Whether the participant was at the work of this ticket, and no put was open.
    bool work_done(std::uint32_t participant, std::uint64_t ticket) { return caa_work_done(&handle, participant, ticket) == CAA_DONE; }

    caa_counts counts() {
        caa_counts counts{};
        open_still(caa_sizes(&handle, &counts));
        return counts;
    }
    // Asks all in turn until each is through. It hands each participant's step to take(participant, step), which answers puts and ends
    // works.
    template <typename Take> void each_step(Take take) {
        for (auto size = counts(); !size.complete; size = counts())
            for (std::uint32_t by = 0; by < size.participants; by++) take(by, next(by));
    }
    // Plays to the end. put(step) says whether it was done; work(participant, step) is asked again until it says that it has ended.
    template <typename Put, typename Work> void play(Put put, Work work) {
        each_step([&](std::uint32_t by, const caa_step &step) {
            if (step.what == CAA_PUTS) answer(put(step));
            else if (step.what == CAA_WORKS && work(by, step)) work_done(by, step.ticket);
        });
    }
    std::string participant(std::uint32_t number) {
        std::uint8_t name[64];
        return text(name, caa_participant(&handle, number, name, sizeof name));
    }
    Object object(std::uint32_t number) {
        Object object{};
        std::uint8_t name[64];
        object.name = text(name, caa_object(&handle, number, &object.first, &object.now, name, sizeof name));
        return object;
    }
    caa_outcome_code outcome(std::uint32_t place) { return static_cast<caa_outcome_code>(caa_outcome(&handle, place)); }
    // The line of an entry, and one of those that stand behind the entries; none past the last.
    std::optional<std::string> line(std::uint64_t entry) { return found(caa_line, entry); }
    std::optional<std::string> rest(std::uint64_t number) { return found(caa_rest, number); }
    // The text of the journal so far.
    std::string journal() {
        std::string all = "journal\n";
        for (std::uint64_t at = 0; auto one = line(at); at++) all += *one;
        for (std::uint64_t at = 0; auto one = rest(at); at++) all += *one;
        return all;
    }

  private:
    static void open_still(std::uint32_t code) {
        if (code == CAA_CLOSED) throw std::logic_error("the machine was moved away");
    }
    static std::string text(const std::uint8_t *bytes, std::size_t length) { return {reinterpret_cast<const char *>(bytes), length}; }
    template <typename Call> std::optional<std::string> found(Call call, std::uint64_t number) {
        std::uint8_t room[128];
        std::size_t length = 0;
        switch (call(&handle, number, room, sizeof room, &length)) {
        case CAA_DONE: return text(room, length);
        case CAA_NO_MEMORY: throw std::bad_alloc();
        default: return std::nullopt;
        }
    }
    caa handle{};
};

} // namespace caa_host
#endif
