"""Random lanes of several callers at once: their replies next to their journal, and the journal next to a plain model, to
`gate run` and to `gate audit`."""

import copy
import random

import caller_streams
import chain_streams
import living_streams
from callers import CallerModel, address_of
from chain_model import ChainModel
from gate import Differs, lines, same, same_lines
from living_model import LivingModel

STREAMS = 60
EVENTS = 120
EXCHANGES = 4
BAD, WRONG = "refused L1 bad-line", "fault wrong-caller"
BAD_LINES = ("peer", "x", "peer 1 Leave", "operator", "user a rpc 0", "---\r", " ", "chain", "> peer 1 leave")
# what the events of the streams ask of a model
ASKED = ("enter", "leave", "mempool", "headers", "fee_filter", "block", "submit", "switch", "set_floor", "call", "chain", "learn_coin", "learn_verdict", "forget")


class Recorded:
    """A model that notes what its events ask of it, so that another one can be asked the same."""

    def __init__(self, model):
        self.model, self.asked = model, []

    def __getattr__(self, name):
        found = getattr(self.model, name)
        if name not in ASKED:
            return found

        def asked(*values):
            # a stream may change a transaction later, to submit another one
            self.asked.append((name, copy.deepcopy(values)))
            return found(*values)

        return asked


class Callers:
    """Peers, users and the operator, with permissions and calls."""

    def __init__(self, seed):
        self.made = caller_streams.Callers(seed)
        self.model = Recorded(CallerModel(self.made.opening))
        self.first = [1, 2, 3]

    def line(self):
        return (self.made.enter(self.model, self.first.pop()) if self.first else self.made.event(self.model))[0]

    def opening(self):
        return self.made.opening_lines()

    def fresh(self):
        return CallerModel(self.made.opening)


class Chains:
    """Peers, the operator, and the chain, whose blocks come and go."""

    def __init__(self, seed):
        self.made = chain_streams.Reorganisations(seed, seed % 2 == 0)
        self.model = self.made.model = Recorded(self.made.model)

    def line(self):
        return self.made.event()[0]

    def opening(self):
        return chain_streams.opening_lines(self.made.opening)

    def fresh(self):
        return ChainModel(self.made.opening)


class LivingChains(Chains):
    """The same with coins and verdicts that are learnt, and blocks that are forgotten."""

    def __init__(self, seed):
        self.made = living_streams.Living(seed)
        self.model = self.made.model = Recorded(self.made.model)

    def fresh(self):
        return LivingModel(self.made.opening)


def caller_of(line):
    """Who calls: a peer with its number, a user with its name, the chain, the operator."""
    words = line.split(" ")
    return " ".join(words[:2]) if words[0] in ("peer", "user") else words[0]


def printed_address(text):
    """IPv4 in decimal parts, IPv6 in eight groups without leading zeros."""
    address = address_of(text)
    return str(address) if address.version == 4 else ":".join("%x" % int(group, 16) for group in address.exploded.split(":"))


def spelled(line, asked):
    """The line of an event as a journal has it."""
    name, values = asked
    words = line.split(" ")
    if name == "enter":
        words[3] = printed_address(words[3])
    elif name == "submit":
        words[4] = "-" if values[2] is None else words[4].lower()
    elif name == "chain":
        words[3:] = ["-" if block is None else word.lower() for word, block in zip(words[3:], values[2])]
    elif name in ("learn_coin", "learn_verdict"):
        return line.lower()
    return " ".join(words)


class Lanes:
    """The events of a stream, each in the lane of its caller, with lines between them that are no calls."""

    def __init__(self, stream, seed, count):
        self.stream, self.random = stream, random.Random(seed)
        self.lanes = {}
        for _ in range(count):
            line = stream.line()
            if stream.model.asked:
                self.lanes.setdefault(caller_of(line), []).append((line, stream.model.asked.pop()))
                same("what an event asks", stream.model.asked, [])
        self.callers = list(self.lanes)
        self.random.shuffle(self.callers)
        self.texts = {caller: self.text(caller) for caller in self.callers}

    def text(self, caller):
        """The lines of a lane, each with what it is: an event, or the reply line that it gets, None for no reply."""
        found, begun = [], False
        for event in self.lanes[caller]:
            while self.random.random() < 0.1:
                found.append(self.random.choice((("", None), ("# " + event[0], None), (self.random.choice(BAD_LINES), BAD))))
            if begun and self.random.random() < 0.05:
                found.append(("peer 77 leave" if caller != "peer 77" else "operator bloom on", WRONG))
            found.append(event)
            begun = True
        return found

    def opening(self):
        return lines(self.stream.opening()) + "---\n"

    def input(self):
        return lines(self.stream.opening()) + "".join("---\n" + lines(line for line, _ in self.texts[caller]) for caller in self.callers)


def raced(gate, text):
    """What `gate lanes --journal` prints: the replies of each lane, the number of calls, and the journal in pairs."""
    done = gate.run("lanes --journal", text)
    same("standard error", done.stderr, b"")
    same("status", done.status, 0)
    printed = done.stdout.decode().split("\n")[:-1]
    place = next(number for number, line in enumerate(printed) if line.startswith("settled "))
    found = []
    for line in printed[:place]:
        if line == "lane %d" % (len(found) + 1):
            found.append([])
        else:
            found[-1].append(line)
    entries = printed[place + 1:]
    same("the marks of the journal", [line[:2] for line in entries], ["> ", "< "] * (len(entries) // 2))
    return found, int(printed[place].split(" ")[1]), [(event[2:], reply[2:]) for event, reply in zip(entries[::2], entries[1::2])]


def audited(gate, opening, journal):
    done = gate.run("audit", opening + lines("> %s\n< %s" % pair for pair in journal))
    same("standard error", done.stderr, b"")
    return done.stdout.decode(), done.status


def is_the_journal_of(lanes, found, journal):
    """The lanes' calls are the journal's entries, each lane's in its order, and their replies are the replies printed."""
    left = {caller: [pair for pair in journal if caller_of(pair[0]) == caller] for caller in lanes.callers}
    same("lanes", len(found), len(lanes.callers))
    for caller, replies in zip(lanes.callers, found):
        same_lines([event for event, _ in left[caller]], [spelled(*event) for event in lanes.lanes[caller]])
        answers = iter([reply for _, reply in left[caller]])
        wanted = [next(answers) if isinstance(what, tuple) else what for _, what in lanes.texts[caller]]
        same_lines(replies, [reply for reply in wanted if reply is not None])


def is_what_the_model_says(lanes, journal):
    """Each reply of the journal is the one that the plain model gives in the journal's order."""
    model, left = lanes.stream.fresh(), {caller: [asked for _, asked in events] for caller, events in lanes.lanes.items()}
    for number, (event, reply) in enumerate(journal, 1):
        name, values = left[caller_of(event)].pop(0)
        same("entry %d, %s" % (number, event[:100]), reply, getattr(model, name)(*values))


def exchanged(gate, lanes, journal):
    """With two unequal replies exchanged the journal is illegal from the first of them on."""
    for _ in range(EXCHANGES):
        one, other = sorted(lanes.random.sample(range(len(journal)), 2))
        wrong = list(journal)
        wrong[one], wrong[other] = (journal[one][0], journal[other][1]), (journal[other][0], journal[one][1])
        is_same = journal[one][1] == journal[other][1]
        wanted = ("legal %d\n" % len(journal), 0) if is_same else ("illegal %d\n" % (one + 1), 1)
        same("the audit with replies %d and %d exchanged" % (one + 1, other + 1), audited(gate, lanes.opening(), wrong), wanted)


def race(gate, lanes):
    """Runs the lanes of one stream."""
    found, count, journal = raced(gate, lanes.input())
    same("settled", (count, len(journal)), (sum(map(len, lanes.lanes.values())),) * 2)
    is_the_journal_of(lanes, found, journal)
    is_what_the_model_says(lanes, journal)
    alone = gate.run("run", lanes.opening() + lines(event for event, _ in journal))
    same_lines(alone.stdout.decode().split("\n")[:-1], [reply for _, reply in journal])
    same("the audit", audited(gate, lanes.opening(), journal), ("legal %d\n" % count, 0))
    exchanged(gate, lanes, journal)
    return [reply.split(" ")[0] for _, reply in journal]


def races(gate, kind):
    met = set()
    for seed in range(STREAMS):
        try:
            met.update(race(gate, Lanes(kind(seed), seed, EVENTS)))
        except Differs as error:
            raise Differs("seed %d\n%s" % (seed, error))
    return met


def test_random_callers_at_once(gate):
    """Peers, users and the operator."""
    met = races(gate, Callers)
    same("replies that no stream met", {"entered", "left", "admitted", "listing", "block", "headers", "filter", "rpc", "set", "denied"} - met, set())


def test_random_chains_at_once(gate):
    """Peers and the chain: what a peer is told depends on the blocks that came before."""
    met = races(gate, Chains)
    same("replies that no stream met", {"entered", "admitted", "listing", "filter", "set", "denied", "chain", "refused"} - met, set())


def test_random_living_chains_at_once(gate):
    """Peers and a chain that learns and forgets: a journal spells coins and verdicts one way."""
    met = races(gate, LivingChains)
    same("replies that no stream met", {"entered", "admitted", "listing", "set", "denied", "chain", "refused", "forgotten"} - met, set())
