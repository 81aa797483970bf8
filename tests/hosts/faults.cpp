// The class for C++ on the library of fake_library.c: moves and swaps, exceptions, replies in their parts. Prints what isn't so.
#include "gate.hpp"

#include <iostream>
#include <type_traits>

extern "C" size_t fake_open_handles(void);

static int failed;

#define HOLDS(what) do { if (!(what)) { std::cout << "line " << __LINE__ << ": not so: " << #what << "\n"; failed = 1; } } while (0)

using gate_c::Gate;

// The status of what a call throws; 99 for out of memory, 98 for a reply that is kept, 97 for a text that is no reply, 0 for nothing.
template <typename Call>
static uint32_t fault_of(Call call) {
    try {
        call();
    } catch (const gate_c::Error &error) {
        return error.status;
    } catch (const gate_c::ReplyKept &) {
        return 98;
    } catch (const std::bad_alloc &) {
        return 99;
    } catch (const gate_c::NotAReply &) {
        return 97;
    }
    return 0;
}

static void moves() {
    static_assert(!std::is_copy_constructible_v<Gate> && !std::is_copy_assignable_v<Gate>);
    static_assert(std::is_nothrow_move_constructible_v<Gate> && std::is_nothrow_move_assignable_v<Gate> && std::is_nothrow_swappable_v<Gate>);
    Gate one("");
    HOLDS(one.is_open() && fake_open_handles() == 1 && one.answer("left") == "left\n" && one.is_answered());
    Gate two(std::move(one));
    HOLDS(!one.is_open() && !one.is_answered() && two.is_open() && two.is_answered() && two.reply() == "left\n" && fake_open_handles() == 1);
    HOLDS(fault_of([&] { one.answer("left"); }) == GATE_NOT_OPEN);
    try {
        one.reply();
        HOLDS(false);
    } catch (const gate_c::NotOpen &) {
    }
    one = std::move(two);
    HOLDS(one.reply() == "left\n" && !two.is_open() && fake_open_handles() == 1);
    two = Gate({1, 2}, "");
    HOLDS(two.answer("set") == "set\n" && fake_open_handles() == 2);
    swap(one, two);
    HOLDS(one.reply() == "set\n" && two.reply() == "left\n" && fake_open_handles() == 2);
    std::swap(one, two);
    HOLDS(one.reply() == "left\n" && two.reply() == "set\n" && fake_open_handles() == 2);
    two = std::move(one);
    HOLDS(two.reply() == "left\n" && fake_open_handles() == 1);
    Gate &same = two;
    two = std::move(same);
    HOLDS(two.reply() == "left\n" && fake_open_handles() == 1);
    two.close();
    HOLDS(!two.is_open() && fake_open_handles() == 0);
    std::vector<Gate> many(1);
    for (int at = 0; at < 20; at++) many.emplace_back("");
    HOLDS(!many.front().is_open() && many.back().answer("set") == "set\n" && fake_open_handles() == 20);
    const std::optional<Gate> maybe = std::move(many.back());
    HOLDS(maybe->is_open());
    many.clear();
    HOLDS(fake_open_handles() == 1);
}

static void faults() {
    Gate gate("");
    HOLDS(gate.answer("").empty() && gate.answer("# a comment").empty() && !gate.ask("# a comment"));
    HOLDS(gate.answer("set") == "set\n");
    HOLDS(fault_of([&] { gate.answer("end 3"); }) == 99 && !gate.is_answered() && gate.reply() == "set\n");
    HOLDS(fault_of([&] { gate.answer("end 7"); }) == GATE_LINE_TOO_LONG && !gate.is_answered());
    HOLDS(fault_of([&] { gate.answer("end 77"); }) == 77);
    HOLDS(fault_of([&] { gate.answer("keep left"); }) == 98 && gate.is_answered() && gate.reply() == "left\n");
    HOLDS(fault_of([&] { gate.ask("no such reply"); }) == 97 && gate.is_answered());
    for (const char *text : {"", "\n", "set\n\n", "set\nset", "denied A1 keep two\nlines", "rpc 200 {\n}"}) {
        HOLDS(fault_of([&] { gate_c::Reply::parse(text); }) == 97);
    }
    const std::string longest(1000, 'x');
    HOLDS(gate.answer(longest) == longest + "\n" && gate.reply() == longest + "\n");
    HOLDS(fault_of([] { Gate refused("refuse"); }) == GATE_OPENING_REFUSED);
    HOLDS(fault_of([] { Gate opened("end 3"); }) == 99);
    try {
        Gate refused("refuse");
    } catch (const gate_c::OpeningRefused &fault) {
        HOLDS(fault.line == 1 && fault.token == "bad-line" && std::string(fault.what()) == "opening 1 bad-line");
    }
    HOLDS(fake_open_handles() == 1);
}

static void events() {
    static_assert(!std::is_copy_constructible_v<gate_c::Event> && std::is_nothrow_move_constructible_v<gate_c::Event>);
    Gate gate("");
    gate_c::Event event("set"), closed;
    HOLDS(fake_open_handles() == 2 && event.is_open() && !closed.is_open());
    HOLDS(gate.answer(event) == "set\n" && gate.is_answered() && gate.ask(event)->kind == gate_c::Kind::set);
    HOLDS(fault_of([&] { gate.answer(closed); }) == GATE_NOT_OPEN && !gate.is_answered() && gate.reply() == "set\n");
    HOLDS(fault_of([&] { event.read("fail 7"); }) == GATE_LINE_TOO_LONG && gate.answer(event) == "set\n");
    HOLDS(fault_of([] { gate_c::Event unread("fail 3"); }) == 99);
    closed = std::move(event);
    HOLDS(!event.is_open() && closed.is_open() && fake_open_handles() == 2);
    closed.read("left");
    const std::string longest(1000, 'x');
    event.read(longest);
    HOLDS(gate.answer(closed) == "left\n" && gate.answer(event) == longest + "\n" && fake_open_handles() == 3);
    event.close();
    event.read("# a comment");
    HOLDS(!gate.ask(event) && gate.answer(closed) == "left\n");
    Gate copy = gate.copy();
    HOLDS(copy.is_answered() && copy.reply() == "left\n" && copy.answer("set") == "set\n" && gate.reply() == "left\n");
    HOLDS(gate.answer("fail 3") == "fail 3\n" && fault_of([&] { gate.copy(); }) == 99);
    HOLDS(fault_of([] { Gate().copy(); }) == GATE_NOT_OPEN);
    HOLDS(fake_open_handles() == 4);
}

static void changes() {
    const std::string one(64, 'a'), other(64, 'b'), third(64, 'c');
    Gate gate("");
    HOLDS(gate.changes().departed.empty() && gate.changes().arrived.empty());
    gate.answer("- " + one + ";- " + other + ";+ " + third);
    for (int at = 0; at < 2; at++) {
        const gate_c::Changes moved = gate.changes();
        HOLDS(moved.departed == (std::vector<std::string>{one, other}) && moved.arrived == std::vector<std::string>{third});
    }
    HOLDS(gate.copy().changes().departed.empty() && gate.changes().departed.size() == 2);
    HOLDS(fault_of([&] { gate.answer("end 7"); }) == GATE_LINE_TOO_LONG && gate.changes().departed.empty());
    gate.answer("# a comment");
    HOLDS(gate.changes().arrived.empty());
    gate.answer("+ " + one + ";+ " + other);
    HOLDS(gate.changes().departed.empty() && gate.changes().arrived == (std::vector<std::string>{one, other}));
    gate.answer("- " + one);
    HOLDS(gate.changes().departed == std::vector<std::string>{one} && gate.changes().arrived.empty());
    for (const std::string &text : {"+ " + one, "+ " + one + "\n- " + one + "\n", "* " + one + "\n", "+" + one + "\n", "+ " + one + " \n",
                                    "+ " + one.substr(1) + "\n", "+ " + one + "\n\n", std::string("\n"), std::string("+"), std::string("set\n")}) {
        HOLDS(fault_of([&] { gate_c::Changes::parse(text); }) == 97);
    }
    gate.answer("set");
    HOLDS(fault_of([&] { gate.changes(); }) == 97);
    gate.answer("fail 3");
    HOLDS(fault_of([&] { gate.changes(); }) == 99);
    HOLDS(fault_of([] { Gate().changes(); }) == GATE_NOT_OPEN);
}

static void explanations() {
    Gate gate("");
    const auto said = [&](std::string_view line) {
        gate.answer(line);
        return gate.explanation();
    };
    HOLDS(gate.explanation().empty() && said("denied A1 keep tx-decode").empty());
    gate.explain();
    HOLDS(gate.explanation().empty() && said("set").empty());
    const std::string told = said("denied A1 keep tx-decode");
    HOLDS(told.rfind("{\"line\":2,\"size\":25,", 0) == 0 && told.size() > 500 && gate.explanation() == told);
    HOLDS(gate.copy().explanation().empty() && gate.explanation() == told);
    HOLDS(fault_of([&] { gate.answer("end 7"); }) == GATE_LINE_TOO_LONG && gate.explanation().empty());
    gate.explain(18446744073709551615u);
    HOLDS(said("denied").rfind("{\"line\":18446744073709551615,", 0) == 0);
    gate.explain(0);
    HOLDS(gate.explanation().empty() && said("denied").empty());
    gate.answer("fail 3");
    HOLDS(fault_of([&] { gate.explanation(); }) == 99);
    HOLDS(fault_of([] { Gate().explanation(); }) == GATE_NOT_OPEN && fault_of([] { Gate().explain(); }) == GATE_NOT_OPEN);
}

static void calls() {
    Gate gate("");
    const std::optional<gate_c::Reply> reply = gate.ask("denied A7 close bad-txns-txouttotal-toolarge");
    HOLDS(reply && reply->kind == gate_c::Kind::denied && reply->rule == "A7" && reply->then == gate_c::Then::close);
    HOLDS(reply && reply->token == "bad-txns-txouttotal-toolarge" && reply->txid.empty() && reply->fee == 0);
    const gate_c::Check standard = gate_c::check("00" + std::string(1000, 'x')), denied = gate_c::check("zz");
    HOLDS(standard.is_standard && standard.lines.size() == 1002 && !denied.is_standard && denied.lines == "denied A1 tx-decode\n");
    HOLDS(fault_of([] { gate_c::check("end 3"); }) == 99);
    HOLDS(gate_c::version() == "0.0.0");
}

int main() {
    moves();
    faults();
    events();
    changes();
    explanations();
    calls();
    HOLDS(fake_open_handles() == 0);
    return failed;
}
