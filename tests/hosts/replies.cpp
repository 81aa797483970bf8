// Prints the parts of each line of standard input that are not empty, by the class for C++: see tests/replies.py.
#include "gate.hpp"

#include <iostream>
#include <map>

static std::string joined(const std::vector<std::string> &texts) {
    std::string all;
    for (const std::string &it : texts) all += (all.empty() ? "" : ",") + it;
    return all;
}

// The members as they stand in their reply.
static std::string joined(const std::vector<gate_c::Member> &members) {
    std::vector<std::string> texts;
    for (const gate_c::Member &it : members) {
        const std::string paid = " fee " + std::to_string(it.fee) + " vsize " + std::to_string(it.vsize) + " replaced " + std::to_string(it.replaced);
        switch (it.fate) {
        case gate_c::Fate::admitted: texts.push_back("admitted " + it.txid + paid); break;
        case gate_c::Fate::known: texts.push_back("known " + it.txid); break;
        case gate_c::Fate::denied: texts.push_back("denied " + it.rule + " " + it.token); break;
        }
    }
    return joined(texts);
}

template <size_t size, typename Value>
static std::string name_of(const std::pair<std::string_view, Value> (&names)[size], Value value) {
    for (const auto &it : names)
        if (it.second == value) return std::string(it.first);
    return "?";
}

static std::string parts_of(const std::string &line) {
    gate_c::Reply reply;
    try {
        reply = gate_c::Reply::parse(line);
    } catch (const gate_c::NotAReply &) {
        return "none";
    }
    const std::map<std::string, std::string> parts = {
        {"kind", name_of(gate_c::detail::kinds, reply.kind)}, {"then", name_of(gate_c::detail::thens, reply.then)},
        {"rule", reply.rule}, {"token", reply.token}, {"txid", reply.txid}, {"body", reply.body},
        {"flags", joined(reply.flags)}, {"txids", joined(reply.txids)}, {"members", joined(reply.members)},
        {"fee", std::to_string(reply.fee)}, {"vsize", std::to_string(reply.vsize)}, {"replaced", std::to_string(reply.replaced)},
        {"height", std::to_string(reply.height)}, {"time", std::to_string(reply.time)}, {"count", std::to_string(reply.count)},
        {"rate", std::to_string(reply.rate)}, {"status", std::to_string(reply.status)}, {"tip", std::to_string(reply.tip)},
        {"removed", std::to_string(reply.removed)}, {"entered", std::to_string(reply.entered)},
        {"blocks", std::to_string(reply.blocks)}, {"coins", std::to_string(reply.coins)}, {"rows", std::to_string(reply.rows)},
    };
    std::string text;
    for (const auto &[name, value] : parts)
        if (!value.empty() && value != "0" && value != "keep") text += (text.empty() ? "" : "\t") + name + "=" + value;
    return text;
}

int main() {
    for (std::string line; std::getline(std::cin, line);) std::cout << parts_of(line + "\n") << "\n";
}
