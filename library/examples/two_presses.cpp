// A host in C++ for the cell with two presses: registers by the names of their objects, and each machine's strokes in scans.
//
//     two_presses SCRIPT    prints the journal, and on standard error each place that ended otherwise than by commit
#include "caa.hpp"
#include <fstream>
#include <iostream>
#include <map>
#include <sstream>
#include <vector>

namespace {

// How places end, by the numbers of caa_outcome_code.
constexpr const char *ends[] = {"not yet", "commit", "signal", "undone", "aborted", "failed"};

// A machine of the cell, which is at one stroke at most.
class Drive {
  public:
    // Goes on with the stroke of this ticket for one scan. Whether it has ended.
    bool strike(const caa_step &step) {
        if (!ticket || *ticket != step.ticket) {
            ticket = step.ticket;
            scans_left = 4 + (step.rounds < 8 ? step.rounds : 8);
        }
        if (scans_left > 0) scans_left--;
        return scans_left == 0;
    }
    void stop() { ticket.reset(); }

  private:
    std::optional<std::uint64_t> ticket;
    std::uint32_t scans_left = 0;
};

class Cell {
  public:
    explicit Cell(caa_host::Machine &machine) : machine(machine), counts(machine.counts()), drives(counts.participants) {
        for (std::uint32_t at = 0; at < counts.objects; at++) {
            auto object = machine.object(at);
            names.push_back(object.name);
            registers[object.name] = object.first;
        }
    }
    // What a participant does in a scan.
    void scan(std::uint32_t by, const caa_step &step) {
        if (step.what == CAA_WORKS) {
            if (!drives[by].strike(step) || !machine.work_done(by, step.ticket)) return;
        } else if (step.what == CAA_PUTS) {
            registers[names[step.object]] = step.value;
            machine.answer(true);
        }
        drives[by].stop();
    }
    // Whether each register has the value that the journal tells.
    bool agrees() {
        for (std::uint32_t at = 0; at < counts.objects; at++)
            if (auto object = machine.object(at); registers[object.name] != object.now) return false;
        return true;
    }
    void tell_outcomes(std::ostream &out) {
        for (std::uint32_t place = 0; place < counts.places; place++)
            if (auto outcome = machine.outcome(place); outcome > CAA_COMMIT) out << "place " << place << " ended: " << ends[outcome] << "\n";
    }

  private:
    caa_host::Machine &machine;
    caa_counts counts;
    std::vector<Drive> drives;
    std::vector<std::string> names;
    std::map<std::string, std::int64_t> registers;
};

} // namespace

int main(int words, char **word) {
    std::ifstream from(words > 1 ? word[1] : "", std::ios::binary);
    std::stringstream script;
    if (!(script << from.rdbuf())) {
        std::cerr << "usage: two_presses SCRIPT\n";
        return 2;
    }
    try {
        caa_host::Machine machine(script.str());
        Cell cell(machine);
        machine.each_step([&](std::uint32_t by, const caa_step &step) { cell.scan(by, step); });
        std::cout << machine.journal();
        cell.tell_outcomes(std::cerr);
        return cell.agrees() ? 0 : 9;
    } catch (const caa_host::Refused &refused) {
        std::cout << "refused " << refused.what() << "\n";
        return 4;
    }
}
