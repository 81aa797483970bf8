// `gate run`, `gate check -` and `gate --version`, as `version`, by the class for C++. Other words go to the program that the variable GATE names.
// If the variable CHANGES is set, what stands behind the reply to a line is what the line moved, and a line `=`. If EXPLAIN is set, what is
// said of each reply goes to standard error, by the numbers of the lines in the input.
#include "gate.hpp"

#include <algorithm>
#include <cstdlib>
#include <iostream>
#include <iterator>
#include <string>
#include <unistd.h>

static constexpr long LINES = 1000000;

static std::string everything() {
    return std::string(std::istreambuf_iterator<char>(std::cin), std::istreambuf_iterator<char>());
}

static void print_changes(gate_c::Gate &gate) {
    const gate_c::Changes moved = gate.changes();
    for (const std::string &txid : moved.departed) std::cout << "- " << txid << "\n";
    for (const std::string &txid : moved.arrived) std::cout << "+ " << txid << "\n";
    std::cout << "=\n";
}

static int run() {
    const std::string text = everything();
    size_t at = 0;
    for (bool ended = false; at < text.size() && !ended;) {
        const size_t stop = std::min(text.find('\n', at), text.size());
        ended = text.compare(at, stop - at, "---") == 0;
        at = std::min(stop + 1, text.size());
    }
    try {
        gate_c::Gate gate({0x9e3779b97f4a7c15, text.size()}, std::string_view(text).substr(0, at));
        const bool explains = std::getenv("EXPLAIN") != nullptr;
        if (explains) gate.explain(1 + static_cast<uint64_t>(std::count(text.begin(), text.begin() + static_cast<std::ptrdiff_t>(at), '\n')));
        for (long lines = 0; at < text.size(); lines++) {
            if (lines == LINES) {
                std::cout << "refused L3 too-many-lines\n";
                break;
            }
            const size_t stop = std::min(text.find('\n', at), text.size());
            const std::string reply = gate.answer(std::string_view(text).substr(at, stop - at));
            if (!gate.is_answered() || gate.reply() != reply) return 92;
            if (!reply.empty()) gate_c::Reply::parse(reply);
            std::cout << reply;
            if (std::getenv("CHANGES")) print_changes(gate);
            if (explains) std::cerr << gate.explanation();
            at = stop + 1;
        }
    } catch (const gate_c::OpeningRefused &fault) {
        std::cout << "opening " << fault.line << " " << fault.token << "\n";
        return 2;
    } catch (const gate_c::LineTooLong &) {
        std::cout << "refused L2 line-too-long\n";
    }
    return 0;
}

int main(int count, char **words) {
    std::ios::sync_with_stdio(false);
    const std::string first = count > 1 ? words[1] : "";
    if (count == 2 && first == "run") return run();
    if (count == 3 && first == "check" && std::string(words[2]) == "-") {
        const gate_c::Check checked = gate_c::check(everything());
        std::cout << checked.lines;
        return checked.is_standard ? 0 : 1;
    }
    if (count == 2 && first == "version") {
        std::cout << "gate " << gate_c::version() << "\n";
        return 0;
    }
    if (std::getenv("GATE")) execv(std::getenv("GATE"), words);
    return 99;
}
