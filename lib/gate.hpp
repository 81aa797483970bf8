// gate for C++17: a handle that closes itself, exceptions for statuses, replies in their parts. It stands on gate.h alone.
#ifndef GATE_HPP
#define GATE_HPP

#include "gate.h"

#include <algorithm>
#include <charconv>
#include <cstdint>
#include <new>
#include <optional>
#include <random>
#include <stdexcept>
#include <string>
#include <string_view>
#include <utility>
#include <vector>

namespace gate_c {

// What a call failed by, beside std::bad_alloc, after which nothing has changed.
class Error : public std::runtime_error {
public:
    Error(uint32_t code, const std::string &about) : std::runtime_error(about), status(code) {}
    uint32_t status;
};

// The handle or the event is closed: nothing opened it, or it was closed or moved from.
class NotOpen : public Error {
public:
    NotOpen() : Error(GATE_NOT_OPEN, "the gate or the event is closed") {}
};

// The line has more than 16,777,216 bytes, and nothing has changed.
class LineTooLong : public Error {
public:
    LineTooLong() : Error(GATE_LINE_TOO_LONG, "the line is too long") {}
};

// The opening has a fault, which is at this line of it and has this token; what() is `opening LINE TOKEN`.
class OpeningRefused : public Error {
public:
    OpeningRefused(const std::string &about, uint64_t at, const std::string &reason)
        : Error(GATE_OPENING_REFUSED, about), line(at), token(reason) {}
    uint64_t line;
    std::string token;
};

// The line is answered, and memory ran out in the text of its reply, which Gate::reply gives.
class ReplyKept : public std::bad_alloc {
public:
    const char *what() const noexcept override { return "out of memory in the text of a reply"; }
};

// The text is no reply line, or has a line that tells of no change.
class NotAReply : public std::invalid_argument {
public:
    explicit NotAReply(std::string_view text) : std::invalid_argument("no reply line: " + std::string(text.substr(0, 80))) {}
};

// What a reply says, by the first word of its line.
enum class Kind { entered, left, admitted, packaged, listing, block, headers, filter, rpc, chain, set, forgotten, denied, refused, fault };

// What follows a denial for the session of the peer: it stays; it is closed; it stays, and the transaction is to be relayed
// once more.
enum class Then { keep, close, relay };

// What became of a member of a package: it came into the pool; it was there before, also with another witness; a rule denies it.
enum class Fate { admitted, known, denied };

// A member of a package. A part that it doesn't have is empty, or 0.
struct Member {
    Fate fate = Fate::known;
    std::string txid;                // of admitted and known
    uint64_t fee = 0;                // of admitted, with the next two
    uint64_t vsize = 0;
    uint64_t replaced = 0;           // how many entries it replaced
    std::string rule;                // of denied, with the next one
    std::string token;
};

// A reply line in its parts. A part that a line of this kind doesn't have is empty, or 0. Txids are hexadecimal as Bitcoin
// prints them, amounts in satoshi, sizes in virtual bytes, feerates in satoshi per 1,000 virtual bytes.
struct Reply {
    Kind kind = Kind::set;
    std::string rule;                // of denied, refused, and an rpc or a package that is denied: as "A35"
    std::string token;               // of these and fault: the reason, as "min relay fee not met"; of packaged also "success" or
                                     // "transaction failed"
    Then then = Then::keep;          // of denied and packaged
    std::string txid;                // of admitted, with the next three
    uint64_t fee = 0;
    uint64_t vsize = 0;
    uint64_t replaced = 0;           // how many entries the transaction replaced
    std::vector<Member> members;     // of packaged: the parent, and the child
    std::vector<std::string> flags;  // of entered: what the peer is permitted
    std::vector<std::string> txids;  // of listing
    uint64_t height = 0;             // of block; of headers that of the first header
    uint64_t time = 0;               // of block
    uint64_t count = 0;              // of headers; of listing: how many txids
    uint64_t rate = 0;               // of filter: the fee filter that is then in force
    uint64_t status = 0;             // of rpc: the HTTP status
    std::string body;                // of rpc: the answer's JSON; empty if the user may not call the method, as rule then says
    uint64_t tip = 0;                // of chain: the height after the event
    uint64_t removed = 0;            // of chain: how many txids left the pool
    uint64_t entered = 0;            // of chain: how many txids came into the pool
    uint64_t blocks = 0;             // of forgotten: how many blocks became part of the opening
    uint64_t coins = 0;              // of forgotten: how many coins are no longer known
    uint64_t rows = 0;               // of forgotten: how many verdicts are no longer known

    // Reads a reply line, with its newline or without it. Throws NotAReply if it is none.
    static Reply parse(std::string_view line);
};

// What a line moved in the pool: the txids of the entries that left and of those that came, both in order of admission.
struct Changes {
    std::vector<std::string> departed;
    std::vector<std::string> arrived;

    // Reads the lines that gate_changes gives. Throws NotAReply if one of them is none.
    static Changes parse(std::string_view lines);
};

namespace detail {

constexpr uint64_t greatest_number = 9007199254740991;

constexpr std::pair<std::string_view, Kind> kinds[] = {
    {"entered", Kind::entered}, {"left", Kind::left},       {"admitted", Kind::admitted}, {"packaged", Kind::packaged},
    {"listing", Kind::listing}, {"block", Kind::block},     {"headers", Kind::headers},   {"filter", Kind::filter},
    {"rpc", Kind::rpc},         {"chain", Kind::chain},     {"set", Kind::set},           {"forgotten", Kind::forgotten},
    {"denied", Kind::denied},   {"refused", Kind::refused}, {"fault", Kind::fault},
};

constexpr std::pair<std::string_view, Then> thens[] = {{"keep", Then::keep}, {"close", Then::close}, {"relay", Then::relay}};

constexpr std::pair<std::string_view, Fate> fates[] = {{"admitted", Fate::admitted}, {"known", Fate::known}, {"denied", Fate::denied}};

constexpr bool is_digit(char it) { return it >= '0' && it <= '9'; }
constexpr bool is_lower(char it) { return it >= 'a' && it <= 'z'; }
constexpr bool is_hex(char it) { return is_digit(it) || (it >= 'a' && it <= 'f'); }

// What is left of a line, whose words are separated by single spaces; nothing behind the last. Each call takes what it names
// from the front, and says whether it is there.
class Words {
public:
    explicit Words(std::string_view text) : left(text) {}

    bool is_over() const { return !left; }

    bool rest(std::string_view &found) {
        if (!left) return false;
        found = *left;
        left.reset();
        return true;
    }

    bool word(std::string_view &found, char end = ' ') {
        if (!left) return false;
        const size_t at = left->find(end);
        found = left->substr(0, at);
        if (at == std::string_view::npos) left.reset();
        else left->remove_prefix(at + 1);
        return true;
    }

    template <size_t size, typename Value>
    bool named(const std::pair<std::string_view, Value> (&names)[size], Value &value) {
        std::string_view found;
        if (!word(found)) return false;
        for (const auto &it : names) {
            if (it.first != found) continue;
            value = it.second;
            return true;
        }
        return false;
    }

    bool is(std::string_view wanted) {
        std::string_view found;
        return word(found) && found == wanted;
    }

    bool number(uint64_t &value) {
        std::string_view found;
        if (!word(found) || found.empty() || (found[0] == '0' && found.size() > 1)) return false;
        const auto ended = std::from_chars(found.data(), found.data() + found.size(), value);
        return ended.ec == std::errc() && ended.ptr == found.data() + found.size() && value <= greatest_number;
    }

    bool number_behind(std::string_view name, uint64_t &value) { return is(name) && number(value); }

    bool txid(std::string &value) {
        std::string_view found;
        if (!word(found) || found.size() != 64 || !std::all_of(found.begin(), found.end(), is_hex)) return false;
        value = found;
        return true;
    }

    bool txids(uint64_t count, std::vector<std::string> &values) {
        for (std::string value; left; values.push_back(value))
            if (!txid(value)) return false;
        return values.size() == count;
    }

    bool flags(std::vector<std::string> &values) {
        std::string_view found, flag;
        if (!word(found)) return false;
        for (Words names(found); names.word(flag, ','); values.emplace_back(flag))
            if (flag.empty() || !std::all_of(flag.begin(), flag.end(), is_lower)) return false;
        if (found == "none") values.clear();
        return true;
    }

    bool rule(std::string &value) {
        std::string_view found;
        uint64_t number = 0;
        if (!word(found) || found.size() < 2 || found[0] < 'A' || found[0] > 'Z') return false;
        if (!Words(found.substr(1)).number(number) || number < 1 || number > 99) return false;
        value = found;
        return true;
    }

    bool token(std::string &value) {
        std::string_view found, word;
        if (!rest(found)) return false;
        for (Words words(found); words.word(word);)
            if (word.empty()) return false;
        value = found;
        return true;
    }

    // What stands before the next bar, or all that is left.
    bool piece(std::string_view &found) {
        if (!left) return false;
        const size_t bar = left->find(" | ");
        found = left->substr(0, bar);
        if (bar == std::string_view::npos) left.reset();
        else left->remove_prefix(bar + 3);
        return found.find('|') == std::string_view::npos;
    }

    bool verdict(Reply &reply) {
        std::string_view found;
        if (!piece(found)) return false;
        if (found == "success" || found == "transaction failed") {
            reply.token = found;
            return true;
        }
        Words words(found);
        return words.rule(reply.rule) && words.token(reply.token);
    }

    bool member(std::vector<Member> &members) {
        std::string_view found;
        if (!piece(found)) return false;
        Words words(found);
        Member &member = members.emplace_back();
        if (!words.named(fates, member.fate)) return false;
        if (member.fate == Fate::denied) return words.rule(member.rule) && words.token(member.token);
        if (!words.txid(member.txid)) return false;
        if (member.fate == Fate::known) return words.is_over();
        return words.number_behind("fee", member.fee) && words.number_behind("vsize", member.vsize)
            && words.number_behind("replaced", member.replaced) && words.is_over();
    }

    bool answer(Reply &reply) {
        std::string_view found;
        if (!left) return false;
        if (left->substr(0, 1) != "{") return is("denied") && rule(reply.rule) && token(reply.token);
        if (!rest(found)) return false;
        reply.body = found;
        return true;
    }

private:
    std::optional<std::string_view> left;
};

// Whether the words behind the first are those of this kind.
inline bool read(Words &words, Reply &reply) {
    switch (reply.kind) {
    case Kind::entered: return words.flags(reply.flags);
    case Kind::left: return true;
    case Kind::admitted:
        return words.txid(reply.txid) && words.number_behind("fee", reply.fee) && words.number_behind("vsize", reply.vsize)
            && words.number_behind("replaced", reply.replaced);
    case Kind::packaged:
        return words.named(thens, reply.then) && words.verdict(reply) && words.member(reply.members) && words.member(reply.members);
    case Kind::listing: return words.number(reply.count) && words.txids(reply.count, reply.txids);
    case Kind::block: return words.number(reply.height) && words.number(reply.time);
    case Kind::headers: return words.number(reply.height) && words.number(reply.count);
    case Kind::filter: return words.number(reply.rate);
    case Kind::rpc: return words.number(reply.status) && words.answer(reply);
    case Kind::chain:
        return words.number(reply.tip) && words.number_behind("removed", reply.removed)
            && words.number_behind("entered", reply.entered);
    case Kind::set: return true;
    case Kind::forgotten: return words.number(reply.blocks) && words.number(reply.coins) && words.number(reply.rows);
    case Kind::denied: return words.rule(reply.rule) && words.named(thens, reply.then) && words.token(reply.token);
    case Kind::refused: return words.rule(reply.rule) && words.token(reply.token);
    case Kind::fault: return words.token(reply.token);
    }
    return false;
}

inline const uint8_t *bytes(std::string_view text) {
    // no pointer may be null, also where the size is 0
    return reinterpret_cast<const uint8_t *>(text.empty() ? "" : text.data());
}

inline uint8_t *bytes(std::string &text) { return reinterpret_cast<uint8_t *>(&text[0]); }

constexpr size_t first_room = 256;

// The text of a call, and of the one that repeats it in a greater buffer where the text has no room.
template <typename Call, typename Again>
uint32_t fill(std::string &out, Call call, Again again) {
    size_t size = 0;
    out.assign(first_room, '\0');
    uint32_t status = call(bytes(out), out.size(), &size);
    if (status == GATE_BUFFER_TOO_SMALL) {
        out.assign(size, '\0');
        status = again(bytes(out), out.size(), &size);
    }
    out.resize(size);
    return status;
}

[[noreturn]] inline void raise(uint32_t status) {
    switch (status) {
    case GATE_OUT_OF_MEMORY: throw std::bad_alloc();
    case GATE_REPLY_KEPT: throw ReplyKept();
    case GATE_NOT_OPEN: throw NotOpen();
    case GATE_LINE_TOO_LONG: throw LineTooLong();
    default: throw Error(status, "status " + std::to_string(status));
    }
}

// The fault that the line `opening LINE TOKEN` names.
[[noreturn]] inline void raise_refusal(std::string_view text) {
    if (!text.empty() && text.back() == '\n') text.remove_suffix(1);
    Words words(text);
    uint64_t line = 0;
    std::string token;
    if (!words.number_behind("opening", line) || !words.token(token)) throw NotAReply(text);
    throw OpeningRefused(std::string(text), line, token);
}

}  // namespace detail

inline Reply Reply::parse(std::string_view line) {
    Reply reply;
    std::string_view text = line;
    if (!text.empty() && text.back() == '\n') text.remove_suffix(1);
    detail::Words words(text);
    const bool is_one_line = text.find('\n') == std::string_view::npos;
    if (!is_one_line || !words.named(detail::kinds, reply.kind) || !detail::read(words, reply) || !words.is_over()) throw NotAReply(text);
    return reply;
}

inline Changes Changes::parse(std::string_view lines) {
    Changes changes;
    for (std::string_view left = lines, line; !left.empty(); left.remove_prefix(line.size() + 1)) {
        line = left.substr(0, left.find('\n'));
        detail::Words words(line);
        std::string_view sign;
        std::string txid;
        if (line.size() == left.size() || !words.word(sign) || !words.txid(txid) || !words.is_over()) throw NotAReply(line);
        if (sign == "+") changes.arrived.push_back(txid);
        else if (sign == "-" && changes.arrived.empty()) changes.departed.push_back(txid);
        else throw NotAReply(line);
    }
    return changes;
}

// Keys that nobody knows.
inline gate_keys random_keys() {
    std::random_device device;
    std::uniform_int_distribution<uint64_t> number;
    return {number(device), number(device)};
}

// What a line asks for, read before a gate is asked: a transaction in it is decoded and hashed, and the rules on it alone are
// tested. Threads may read at the same time, without a lock. An event can be answered by several gates, one call at a time. It can be
// moved: the event that it was moved from is closed.
class Event {
public:
    // A closed event.
    Event() = default;

    // The line is given without its newline.
    explicit Event(std::string_view line) { read(line); }

    Event(const Event &) = delete;
    Event &operator=(const Event &) = delete;
    Event(Event &&other) noexcept { swap(other); }
    Event &operator=(Event &&other) noexcept {
        Event moved(std::move(other));
        swap(moved);
        return *this;
    }
    ~Event() { gate_event_close(&handle); }

    void swap(Event &other) noexcept { std::swap(handle, other.handle); }
    friend void swap(Event &one, Event &other) noexcept { one.swap(other); }

    bool is_open() const { return handle.is_open; }

    void close() { gate_event_close(&handle); }

    // Reads a line in the place of what the event holds, which stays if this throws.
    void read(std::string_view line) {
        const uint32_t status = gate_read(&handle, detail::bytes(line), line.size());
        if (status != GATE_DONE) detail::raise(status);
    }

private:
    friend class Gate;

    ::gate_event handle = GATE_CLOSED;
};

// A gate from its opening on. It serves one call at a time: threads that share it lock a mutex of theirs. It can be moved: the
// gate that it was moved from is closed.
class Gate {
public:
    // A closed gate.
    Gate() = default;

    // Throws OpeningRefused if the opening has a fault.
    Gate(const gate_keys &keys, std::string_view opening) {
        std::string out;
        const auto open = [&](uint8_t *to, size_t room, size_t *size) {
            return gate_open(&handle, &keys, detail::bytes(opening), opening.size(), to, room, size);
        };
        const uint32_t status = detail::fill(out, open, open);
        if (status == GATE_OPENING_REFUSED) detail::raise_refusal(out);
        if (status != GATE_DONE) detail::raise(status);
    }

    explicit Gate(std::string_view opening) : Gate(random_keys(), opening) {}

    Gate(const Gate &) = delete;
    Gate &operator=(const Gate &) = delete;
    Gate(Gate &&other) noexcept { swap(other); }
    Gate &operator=(Gate &&other) noexcept {
        Gate moved(std::move(other));
        swap(moved);
        return *this;
    }
    ~Gate() { gate_close(&handle); }

    void swap(Gate &other) noexcept {
        std::swap(handle, other.handle);
        std::swap(answered, other.answered);
    }
    friend void swap(Gate &one, Gate &other) noexcept { one.swap(other); }

    bool is_open() const { return handle.is_open; }

    void close() { gate_close(&handle); }

    // A second gate with the same state and the same last reply. Both answer alike from then on, and neither knows what the
    // other is asked.
    Gate copy() {
        Gate made;
        const uint32_t status = gate_copy(&handle, &made.handle);
        if (status != GATE_DONE) detail::raise(status);
        made.answered = answered;
        return made;
    }

    // The reply to a line, in its parts; nothing where the line asks for nothing.
    std::optional<Reply> ask(std::string_view line) { return parsed(answer(line)); }

    // The same for a line that was read beforehand.
    std::optional<Reply> ask(Event &event) { return parsed(answer(event)); }

    // The reply to a line as text, with its newline; nothing where the line asks for nothing. The line is given without one.
    // After std::bad_alloc either nothing has changed, or the line is answered and reply() gives the reply: is_answered() says
    // which.
    std::string answer(std::string_view line) {
        return answer_by([&](uint8_t *to, size_t room, size_t *size) {
            return gate_answer(&handle, detail::bytes(line), line.size(), to, room, size);
        });
    }

    // The same for a line that was read beforehand.
    std::string answer(Event &event) {
        return answer_by([&](uint8_t *to, size_t room, size_t *size) { return gate_answer_event(&handle, &event.handle, to, room, size); });
    }

    // The reply to the last line once more.
    std::string reply() {
        const auto call = [this](uint8_t *to, size_t room, size_t *size) { return gate_reply(&handle, to, room, size); };
        return text_of(call, call);
    }

    // What the last line moved in the pool. What left and came back by one line is in neither list. Nothing has moved in a gate that
    // was opened or copied just now, nor by a line that is no event or was not answered.
    Changes changes() {
        const auto call = [this](uint8_t *to, size_t room, size_t *size) { return gate_changes(&handle, to, room, size); };
        return Changes::parse(text_of(call, call));
    }

    // Lets the gate explain its lines from the next one on, which gets this number; 0 lets it explain none.
    void explain(uint64_t line = 1) {
        const uint32_t status = gate_explain(&handle, line);
        if (status != GATE_DONE) detail::raise(status);
    }

    // What is said of the reply to the last line: a JSON object with a newline, or nothing. After std::bad_alloc the line is
    // answered all the same, and what is said of it is lost.
    std::string explanation() {
        const auto call = [this](uint8_t *to, size_t room, size_t *size) { return gate_explanation(&handle, to, room, size); };
        return text_of(call, call);
    }

    bool is_answered() const { return answered; }

private:
    static std::optional<Reply> parsed(const std::string &text) {
        if (text.empty()) return std::nullopt;
        return Reply::parse(text);
    }

    template <typename Call>
    std::string answer_by(Call call) {
        answered = false;
        const auto first = [&](uint8_t *to, size_t room, size_t *size) {
            const uint32_t status = call(to, room, size);
            answered = status == GATE_DONE || status == GATE_BUFFER_TOO_SMALL || status == GATE_REPLY_KEPT;
            return status;
        };
        return text_of(first, [this](uint8_t *to, size_t room, size_t *size) { return gate_reply(&handle, to, room, size); });
    }

    template <typename Call, typename Again>
    static std::string text_of(Call call, Again again) {
        std::string out;
        const uint32_t status = detail::fill(out, call, again);
        if (status != GATE_DONE) detail::raise(status);
        return out;
    }

    ::gate handle = GATE_CLOSED;
    bool answered = false;
};

// What `gate check -` prints, and whether the transaction is standard.
struct Check {
    bool is_standard;
    std::string lines;
};

inline Check check(std::string_view digits) {
    std::string out;
    const auto call = [&](uint8_t *to, size_t room, size_t *size) {
        return gate_check(detail::bytes(digits), digits.size(), to, room, size);
    };
    const uint32_t status = detail::fill(out, call, call);
    if (status != GATE_DONE && status != GATE_DENIED) detail::raise(status);
    return {status == GATE_DONE, out};
}

inline std::string version() {
    std::string out;
    const uint32_t status = detail::fill(out, gate_version, gate_version);
    if (status != GATE_DONE) detail::raise(status);
    return out;
}

}  // namespace gate_c

#endif
