"""A plain model of docs/POLICY.md for transactions that spend version 0 key hashes, bare multisig of one key, and anchors.

Their outputs are these too, but for anchors, or they carry data. Their inputs have no scripts, so A14 and A15 fail nowhere,
A31 for a coin without a script, an anchor or its count alone, and A32 for an anchor alone; sizes stay far below A4. The pool is a list, and families
are found by asking all of it again and again.
"""

import os
import re
from collections import Counter
from dataclasses import dataclass, field
from fractions import Fraction

from bitcoin import WITNESS_KEY_HASH, Transaction, printed
from gate import ROOT

GREATEST_AMOUNT = 2100000000000000
NULL = (bytes(32), 0xFFFFFFFF)
RETURN = 0x6A
MULTISIG = bytes.fromhex("5121" + "02" * 33 + "51ae")
ANCHOR = bytes.fromhex("51024e73")
LAST_SIGNAL = 0xFFFFFFFD
SMALL = 10000
TRUC = 3
TRUC_SIZE = 10000
TRUC_CHILD_SIZE = 1000
MOST_REPLACED = 100
TWO_WEEKS = 1209600
HOUR = 3600
KILO = 1000


def text_of(*path):
    with open(os.path.join(ROOT, *path), encoding="utf-8") as file:
        return file.read()


def closing(policy):
    """The rules after which a session is closed: of admission by a sentence of the policy, of peers by its table."""
    listed = re.search(r"((?:A\d+(?: to A\d+)?(?:, | and )?)+) close the session", policy)[1]
    found = re.findall(r"^\| (P\d+) \| .* \| close[^|]*\|$", policy, re.MULTILINE)
    for first, last in re.findall(r"A(\d+)(?: to A(\d+))?", listed):
        found += ["A%d" % number for number in range(int(first), int(last or first) + 1)]
    return found


POLICY = text_of("docs", "POLICY.md")
TOKENS = dict(re.findall(r"^\| ([APCJ]\d+) \| `([^`]+)` \|", POLICY, re.MULTILINE))
CLOSING = closing(POLICY)
# the settings of admission and their defaults; a limit that no opening without its line has is None
SETTINGS = text_of("docs", "FORMATS.md").partition("\n### Settings\n")[2].partition("\nWhat peers and users may do:\n")[0]
DEFAULTS = re.findall(r"^\| `(\w+)` \|.*\| ([\d,]+|none) \|[^|]*\|$", SETTINGS, re.MULTILINE)
USUAL = {word: None if number == "none" else int(number.replace(",", "")) for word, number in DEFAULTS}


def releases():
    """By its name, the settings that a release has otherwise than usual."""
    table, found = text_of("docs", "FORMATS.md").partition("\n### Releases\n")[2].partition("\n### ")[0], {}
    for name, told in re.findall(r"^\| `([\w-]+)` \| [^|]+ \| ([^|]*) \|", table, re.MULTILINE):
        found[name] = {}
        for word, number in re.findall(r"`([\w-]+)(?: (\d+))?`", told):
            found[name].update({word: int(number)} if number else found[word])
    return found


@dataclass
class Coin:
    value: int
    height: int
    is_coinbase: bool
    script: bytes = WITNESS_KEY_HASH

    def line(self, point):
        """The words of its line."""
        kind = "cb" if self.is_coinbase else "plain"
        return "coin %s %d %d %d %s %s" % (printed(point[0]), point[1], self.value, self.height, kind, self.script.hex() or "-")


@dataclass
class Opening:
    """What an opening says: times from the first height on, coins by outpoint, verdicts by wtxid and input, `*` for the rest,
    and by their words the settings of admission that it has."""

    times: list
    coins: dict = field(default_factory=dict)
    verdicts: dict = field(default_factory=dict)
    bloom: bool = False
    budget: int = 300000000
    first: int = 0
    settings: dict = field(default_factory=dict)

    def __getitem__(self, word):
        """The number of a setting."""
        return self.settings.get(word, USUAL[word])

    def tip(self):
        """The height of the last time."""
        return self.first + len(self.times) - 1


@dataclass(eq=False)
class Entry:
    """A transaction of the pool, and what is asked of it often."""

    tx: Transaction
    fee: int
    size: int
    time: int

    def __post_init__(self):
        self.hash, self.wtxid = self.tx.hash(), self.tx.wtxid()
        self.spent = outpoints(self.tx)
        self.parents = {one.hash for one in self.tx.inputs}

    def signals(self):
        """Whether it says itself that it may be replaced."""
        return any(one.sequence <= LAST_SIGNAL for one in self.tx.inputs)

    def is_truc(self):
        """Whether it has version 3."""
        return self.tx.version == TRUC


def policy_lines(opening, spoken):
    """The lines of settings: what is usual stands only where `spoken` says so."""
    said = {word: opening[word] for word, usual in USUAL.items() if opening[word] != usual or spoken()}
    return ["%s %d" % (word, number) for word, number in said.items() if number is not None]


def draw_policy(random, opening):
    """Limits from 1 to 40, of which the least and the usual one come most often, and full replacement."""
    for word in ("limitancestorcount", "limitdescendantcount"):
        draw = random.random()
        if draw < 0.7:
            opening.settings[word] = random.choice((1, 1, 2, 3)) if draw < 0.35 else random.randint(1, 40)
    opening.settings["mempoolfullrbf"] = int(random.random() < 0.5)


def among(limit):
    """A limit of families by its size, for counts of what is met."""
    return "1" if limit == 1 else "2 or 3" if limit <= 3 else "4 to 40"


@dataclass
class Limits:
    """What a family may come to, the transaction itself counted."""

    ancestors: int
    ancestors_size: int
    descendants: int
    descendants_size: int


def outpoints(tx):
    return {(one.hash, one.index) for one in tx.inputs}


def carries_data(output):
    """Such an output is no coin."""
    return output.script[:1] == bytes([RETURN])


def dust(output, opening):
    """What an output has at least: what it costs to make and to spend it."""
    return 0 if carries_data(output) else fee_at(opening["dustrelayfee"], 194 if output.script == MULTISIG else 98, opening["feesroundup"])


def cost_of(tx, coins):
    """The signature operations: one for each input that spends a key hash, 80 for each multisig output. Coins of other scripts are
    the opening's."""
    others = [one for one in tx.inputs if (one.hash, one.index) in coins and coins[one.hash, one.index].script != WITNESS_KEY_HASH]
    return len(tx.inputs) - len(others) + 80 * len([output for output in tx.outputs if output.script == MULTISIG])


def size_of(entries):
    return sum(entry.size for entry in entries)


def fees_of(entries):
    return sum(entry.fee for entry in entries)


def rate_of(fee, size):
    """Satoshi per 1,000 virtual bytes."""
    return fee * 1000 // size


def fee_at(rate, size, rounds_up=False):
    """What a rate asks of a size: rounded up, or rounded down and 1 where that is less, and the rate asks for anything."""
    return (rate * size + 999) // 1000 if rounds_up else rate * size // 1000 or min(1, rate)


class Model:
    def __init__(self, opening):
        self.opening = opening
        self.tip = opening.tip()
        self.sessions = {}
        self.rates = {}
        self.pool = []
        self.floor = 0
        self.gone = Counter()

    # --- events

    def enter(self, peer):
        if peer in self.sessions:
            return self.denied("P3", peer)
        self.sessions[peer] = True
        return "entered none"

    def leave(self, peer):
        refusal = self.refusal(peer)
        if refusal:
            return self.denied(refusal, peer)
        self.sessions[peer] = False
        return "left"

    def mempool(self, peer):
        refusal = self.refusal(peer) or (None if self.opening.bloom else "P6")
        if refusal:
            return self.denied(refusal, peer)
        return self.listing(peer)

    def fee_at(self, rate, size):
        """What a rate asks of a size under this opening."""
        return fee_at(rate, size, self.opening["feesroundup"])

    def listing(self, peer):
        """What a peer is told: the entries that its own rate doesn't hide."""
        told = [entry for entry in self.pool if entry.fee >= self.fee_at(self.rates.get(peer, 0), entry.size)]
        return " ".join(["listing", str(len(told))] + [entry.tx.txid() for entry in told])

    def fee_filter(self, peer, rate):
        """The rate that is in force then."""
        refusal = self.refusal(peer)
        if refusal:
            return self.denied(refusal, peer)
        if rate <= GREATEST_AMOUNT:
            self.rates[peer] = rate
        return "filter %d" % self.rates.get(peer, 0)

    def set_floor(self, rate):
        self.floor = rate
        return "set"

    def submit(self, peer, now, tx):
        """A transaction, or None for bytes that are none."""
        rule = self.refusal(peer) or self.failing(tx)
        if rule:
            return self.denied(rule, peer)
        entry, replaced = self.grant(tx, now)
        self.expire(now)
        self.trim()
        if entry not in self.pool:
            return self.denied("A46", peer)
        return "admitted %s fee %d vsize %d replaced %d" % (tx.txid(), entry.fee, entry.size, len(replaced))

    def grant(self, tx, now):
        """Its entry at the end of the pool, and what it replaced."""
        entry = Entry(tx, self.fee(tx), self.size(tx), now)
        self.gone["evicted"] += len(self.sibling(tx))
        replaced = self.remove(self.counted(tx), "replaced")
        self.pool.append(entry)
        return entry, replaced

    def remove(self, entries, why):
        """Takes out entries with all that is below them, and gives these."""
        family = self.below(entries)
        self.pool = [one for one in self.pool if one not in family]
        self.gone[why] += len(family)
        return family

    def expire(self, now):
        self.remove([entry for entry in self.pool if entry.time + HOUR * self.opening["mempoolexpiry"] < now], "expired")

    def trim(self):
        while size_of(self.pool) > self.opening.budget:
            family = self.remove([self.least()], "trimmed")
            self.floor = max(self.floor, rate_of(fees_of(family), size_of(family)) + self.opening["incrementalrelayfee"])
            self.gone["trimmed as a family"] += len(family) > 1

    def least(self):
        """The entry of least score, of equals the later."""
        return min(reversed(self.pool), key=self.score)

    def score(self, entry):
        family = self.below([entry])
        return max(Fraction(entry.fee, entry.size), Fraction(fees_of(family), size_of(family)))

    def closes(self, rule):
        """Whether a denial by this rule closes a session."""
        return rule in CLOSING and not (self.opening["keepinvalid"] and rule.startswith("A"))

    def denied(self, rule, peer):
        if self.closes(rule):
            self.sessions[peer] = False
        return "denied %s %s %s" % (rule, "close" if self.closes(rule) else "keep", TOKENS[rule])

    def refusal(self, peer):
        if peer not in self.sessions:
            return "P1"
        return None if self.sessions[peer] else "P2"

    # --- the written order

    def failing(self, tx):
        """The first rule that fails."""
        if tx is None:
            return "A1"
        wtxid = tx.wtxid()
        if any(entry.wtxid == wtxid for entry in self.pool):
            return "P5"
        return next((rule for rules in (self.first_half, self.second_half) for rule in rules(tx)), None)

    def first_half(self, tx):
        """The rules that fail, up to A37."""
        for rules in (self.alone, self.in_pool_and_chain, self.amounts, self.limited, self.family_of_version_three, self.conflicts_above):
            yield from rules(tx)

    def second_half(self, tx):
        """Those behind A37."""
        for rules in (self.sweeping, self.replacement, self.judged):
            yield from rules(tx)

    def alone(self, tx):
        points = [(one.hash, one.index) for one in tx.inputs]
        if not tx.inputs:
            yield "A2"
        if not tx.outputs:
            yield "A3"
        total = 0
        for output in tx.outputs:
            if output.value < 0:
                yield "A5"
            if output.value > GREATEST_AMOUNT:
                yield "A6"
            total += output.value
            if total > GREATEST_AMOUNT:
                yield "A7"
        if len(set(points)) < len(points):
            yield "A8"
        if points == [NULL]:
            yield "A11" if 2 <= len(tx.inputs[0].script) <= 100 else "A9"
        if NULL in points:
            yield "A10"
        if tx.version not in ((1, 2, TRUC) if self.opening["truc"] else (1, 2)):
            yield "A12"
        if tx.weight() > 400000:
            yield "A13"
        left = self.opening["datacarriertotal"]
        for output in tx.outputs:
            if self.is_strange(output):
                yield "A16"
            if left is not None and carries_data(output):
                left -= len(output.script)
                if left < 0:
                    yield "A51"
            if not self.opening["ephemeraldust"] and output.value < dust(output, self.opening):
                yield "A17"
        if self.opening["ephemeraldust"] and self.dusty(tx) > 1:
            yield "A17"
        if len([output for output in tx.outputs if carries_data(output)]) > self.opening["datacarrieroutputs"]:
            yield "A18"
        if len(tx.stripped()) < self.opening["mintxsize"]:
            yield "A19"

    def dusty(self, tx):
        """How many outputs are dust."""
        return len([output for output in tx.outputs if output.value < dust(output, self.opening)])

    def unswept(self, tx, parents):
        """Whether dust of these parents is left unspent."""
        spent = outpoints(tx)
        return any(
            output.value < dust(output, self.opening) and (entry.hash, index) not in spent
            for entry in parents
            for index, output in enumerate(entry.tx.outputs)
        )

    def is_strange(self, output):
        """Whether an output is one that the operator doesn't take for standard."""
        return output.script == MULTISIG and not self.opening["permitbaremultisig"] or carries_data(output) and len(output.script) > self.opening["datacarriersize"]

    def in_pool_and_chain(self, tx):
        if not self.is_final(tx):
            yield "A20"
        hash = tx.hash()
        if any(entry.hash == hash for entry in self.pool):
            yield "A22"
        if not self.may_replace(self.conflicts(tx)):
            yield "A23"
        lacks = any(self.coin(one) is None for one in tx.inputs)
        own = any((hash, index) in self.chain_coins() for index in range(len(tx.outputs)))
        if lacks and own or any(point[0] == hash for point in self.opening.coins):
            yield "A24"
        if lacks:
            yield "A25"
        if not all(self.lock_met(tx, one) for one in tx.inputs):
            yield "A26"

    def may_replace(self, direct):
        """Whether all direct conflicts may be replaced."""
        return self.opening["mempoolfullrbf"] or all(entry.signals() or self.opening["truc"] and entry.is_truc() for entry in direct)

    def amounts(self, tx):
        total = 0
        for one in tx.inputs:
            coin = self.coin(one)
            if coin.is_coinbase and self.tip + 1 - coin.height < 100:
                yield "A27"
            total += coin.value
            if not 0 <= coin.value <= GREATEST_AMOUNT or total > GREATEST_AMOUNT:
                yield "A28"
        if self.fee(tx) < 0:
            yield "A29"
        scripts = [self.coin(one).script for one in tx.inputs]
        most = self.opening["maxtxlegacysigops"]
        if most is not None and scripts.count(MULTISIG) > most:
            yield "A31"
        if not all(script and (script != ANCHOR or self.opening["anchors"]) for script in scripts):
            yield "A31"
        if any(script == ANCHOR and one.witness for script, one in zip(scripts, tx.inputs)):
            yield "A32"
        if self.opening["ephemeraldust"] and self.dusty(tx) and self.fee(tx) > 0:
            yield "A48"
        if cost_of(tx, self.opening.coins) > 16000:
            yield "A33"
        asked = [("A34", self.floor), ("A35", self.opening["minrelaytxfee"])]
        relay_first = self.opening["relayfeefirst"] and not (self.opening["truc"] and tx.version == TRUC)
        for rule, rate in reversed(asked) if relay_first else asked:
            if self.fee(tx) < self.fee_at(rate, self.size(tx)):
                yield rule

    def limited(self, tx):
        above = self.above(tx)
        if all(self.passed(limits, above, self.size(tx)) for limits in self.tries(tx)):
            yield "A36"

    def family_of_version_three(self, tx):
        if not self.opening["truc"]:
            return
        above, is_truc = self.above(tx), tx.version == TRUC
        if any(entry.is_truc() != is_truc for entry in above):
            yield "A47"
        if is_truc and (len(above) > 1 or self.size(tx) > (TRUC_CHILD_SIZE if above else TRUC_SIZE)):
            yield "A47"
        if is_truc and len(above) == 1 and self.others_below(tx) and not self.replaces_child(tx) and not self.sibling(tx):
            yield "A47"

    def others_below(self, tx):
        """The descendants of its only ancestor, without that."""
        above = self.above(tx)
        return self.below(above) - above

    def replaces_child(self, tx):
        """Whether it conflicts with a child of its only ancestor."""
        hashes = {entry.hash for entry in self.above(tx)}
        return any(entry.parents & hashes for entry in self.conflicts(tx))

    def sibling(self, tx):
        """The entry that a transaction of version 3 evicts, in a list of its own."""
        if not self.opening["truc"] or tx.version != TRUC or len(self.above(tx)) != 1 or self.replaces_child(tx):
            return []
        others = list(self.others_below(tx))
        return others if len(others) == 1 and len(self.above(others[0].tx)) == 1 else []

    def counted(self, tx):
        """The entries that count as direct conflicts: a sibling too."""
        return self.conflicts(tx) + self.sibling(tx)

    def conflicts_above(self, tx):
        direct = self.conflicts(tx)
        if any(entry in direct for entry in self.above(tx)):
            yield "A37"

    def sweeping(self, tx):
        if self.opening["ephemeraldust"] and self.unswept(tx, self.parents(tx)):
            yield "A49"

    def replacement(self, tx):
        return self.replacing(tx, self.counted(tx))

    def replacing(self, tx, direct):
        if not direct:
            return
        fee, size = self.fee(tx), self.size(tx)
        if any(rate_of(fee, size) <= rate_of(entry.fee, entry.size) for entry in direct):
            yield "A38"
        if sum(len(self.below([entry])) for entry in direct) > MOST_REPLACED:
            yield "A39"
        spent = {hash for entry in (self.below(direct) if self.opening["replacedparents"] else direct) for hash in entry.parents}
        if any(entry.hash not in spent for entry in self.parents(tx)):
            yield "A40"
        paid = fees_of(self.below(direct))
        if fee < paid:
            yield "A41"
        if fee - paid < self.fee_at(self.opening["incrementalrelayfee"], size):
            yield "A42"

    def judged(self, tx):
        verdicts, failing = self.opening.verdicts, {None: "A43", "soft": "A44", "hard": "A45"}
        for index in range(len(tx.inputs)):
            verdict = verdicts.get((tx.wtxid(), index), verdicts.get("*"))
            if verdict in failing:
                yield failing[verdict]

    # --- their words

    def coin(self, one):
        """The coin of an input: an output of the pool, as though it were in the next block, else the chain's."""
        for entry in self.pool:
            outputs = entry.tx.outputs
            if entry.hash == one.hash and one.index < len(outputs) and not carries_data(outputs[one.index]):
                return Coin(outputs[one.index].value, self.tip + 1, False)
        return self.chain_coins().get((one.hash, one.index))

    def chain_coins(self):
        """The unspent coins of the chain by outpoint."""
        return self.opening.coins

    def times(self):
        """The times of the chain's blocks, from the first height that has one."""
        return self.opening.times

    def size(self, tx):
        return tx.virtual_size(cost_of(tx, self.opening.coins), self.opening["bytespersigop"])

    def conflicts(self, tx):
        """The entries that spend what it spends."""
        points = outpoints(tx)
        return [entry for entry in self.pool if entry.spent & points]

    def parents(self, tx):
        """The entries whose outputs it spends."""
        hashes = {one.hash for one in tx.inputs}
        return [entry for entry in self.pool if entry.hash in hashes]

    def above(self, tx):
        """The set of its parents, their parents, and so on."""
        found, more = set(), set(self.parents(tx))
        while found != more:
            found, hashes = more, {hash for entry in more for hash in entry.parents}
            more = found | {entry for entry in self.pool if entry.hash in hashes}
        return found

    def below(self, entries):
        """The set of these entries, their children, the children of these, and so on."""
        found, more = set(), set(entries)
        while found != more:
            found, hashes = more, {entry.hash for entry in more}
            more = found | {entry for entry in self.pool if entry.parents & hashes}
        return found

    def tries(self, tx):
        """The limits of its family: the usual ones, and for a small transaction those of the carve-out."""
        direct, descendants, size = self.conflicts(tx), self.opening["limitdescendantcount"], KILO * self.opening["limitdescendantsize"]
        if len(direct) == 1:
            descendants, size = descendants + 1, size + size_of(self.below(direct))
        most = KILO * self.opening["limitancestorsize"]
        usual = Limits(self.opening["limitancestorcount"], most, descendants, size)
        carved_out = Limits(2, most, descendants + 1, size + SMALL)
        return [usual, carved_out] if self.size(tx) <= SMALL and tx.version != TRUC else [usual]

    def passed(self, limits, above, size):
        """Which of the limits a transaction with these ancestors passes."""
        found = set()
        if len(above) + 1 > limits.ancestors:
            found.add("ancestors")
        if above and size_of(above) + size > limits.ancestors_size:
            found.add("ancestors size")
        for entry in above:
            family = self.below([entry])
            if len(family) + 1 > limits.descendants:
                found.add("descendants")
            if size_of(family) + size > limits.descendants_size:
                found.add("descendants size")
        return found

    def fee(self, tx):
        return sum(self.coin(one).value for one in tx.inputs) - sum(output.value for output in tx.outputs)

    def median_time(self, height):
        """Of the times that are known of a height and of the ten before it."""
        last = height - self.opening.first
        times = sorted(self.times()[max(0, last - 10):last + 1])
        return times[len(times) // 2]

    def is_final(self, tx):
        below = self.tip + 1 if tx.locktime < 500000000 else self.median_time(self.tip)
        return tx.locktime == 0 or tx.locktime < below or all(one.sequence == 0xFFFFFFFF for one in tx.inputs)

    def lock_met(self, tx, one):
        if tx.version % 2**32 < 2 or one.sequence >> 31:
            return True
        height, blocks = self.coin(one).height, one.sequence & 0xFFFF
        if one.sequence >> 22 & 1:
            before = max(0, height - 1)
            return before >= self.opening.first and self.median_time(before) + 512 * blocks - 1 < self.median_time(self.tip)
        return height + blocks - 1 < self.tip + 1
