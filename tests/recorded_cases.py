"""What a node of today answered, case by case, beside the gate's replies under its policy (data/README.md).

A case is an opening, and events with the node's answers, each of which is compared.
"""

import json
import lzma
import os
import re
import sys
from collections import Counter
from dataclasses import dataclass
from itertools import chain

from gate import ROOT, lines, same, same_lines, true
from kinds import heavy
from model import USUAL, releases

sys.path.insert(0, os.path.join(ROOT, "gated"))

from gated import node

# cases over a pool with room, and over a full one
CASES, FULL = "knots-29-cases", "knots-29-full"
# the release whose policy the node had, and what it had otherwise
RELEASE = "core-29"
OTHERWISE = {"permitbaremultisig": 0, "keepinvalid": 1}
# what not every case says: the node's own number is the release's
UNSAID = ("maxtxlegacysigops", "truc", "packages", "packageallparents", "ephemeraldust")
# how the node names a refusal, where the policy has another name
NAMES = {
    "bad-txns-input-sigops-toomany-overall": "bad-txns-nonstandard-inputs",
    "bad-txns-input-witness-unknown": "bad-txns-nonstandard-inputs",
    "bad-witness-anchor-not-empty": "bad-witness-nonstandard",
    "bad-witness-stackitem-size": "bad-witness-nonstandard",
    "bip125-replacement-disallowed": "txn-mempool-conflict",
    "mempool-script-verify-flag-failed": "non-mandatory-script-verify-flag",
    "truc-ancestors-toomany": "TRUC-violation",
    "truc-child-toobig": "TRUC-violation",
    "truc-descendants-toomany": "TRUC-violation",
    "truc-parent-and-child-both": "TRUC-violation",
    "truc-sibling-known": "TRUC-violation",
    "truc-spends-nontruc": "TRUC-violation",
    "truc-spent-by-nontruc": "TRUC-violation",
    "truc-vsize-toobig": "TRUC-violation",
    "Transaction outputs already in utxo set": "txn-already-known",
    "Unspendable output exceeds maximum configured by user": "max-burn-exceeded",
    "package topology disallowed. not child-with-parents or parents depend on each other.": "package-not-child-with-parents",
}
# a refusal in which the node names an entry
TOPOLOGY = re.compile("(package RBF failed: )[0-9a-f]{64} ")
# the codes of calls: the node has several for parameters that are none
DENIED, UNDECODABLE, INVALID = -25, -22, -32602
# how many answers were compared when this was written
COMPARED = {CASES: 1036, FULL: 35}


def read(digits):
    """The transaction, or None for a text that is none."""
    try:
        return node.read_transaction(digits)
    except (ValueError, KeyError):
        return None


class Event:
    """An event, the node's answer to it (None if it wasn't asked), and what it carries."""

    def __init__(self, about, line, answer):
        self.about, self.line, self.answer = about, line, answer
        words = line.split(" ", 4)
        self.call = json.loads(words[4]) if words[0] == "user" else None
        self.kind = self.call["method"] if self.call else words[0] if words[0] == "chain" else words[2]
        self.transaction = read(words[4]) if self.kind == "tx" else None

    def told(self):
        """The node's answer to a call, without what stands around it."""
        return self.answer.get("result", self.answer.get("reply", self.answer)) if isinstance(self.answer, dict) else self.answer

    def refusal(self):
        """How the node's refusal of a transaction begins; empty if it took it."""
        told = self.told() or {}
        return told.get("message", told.get("reject-reason", ""))


@dataclass
class Case:
    """A case."""

    name: str
    opening: list
    events: list

    def settings(self):
        """What the opening says of admission."""
        return {word: int(number) for word, number in (it.split() for it in self.opening if it.split()[0] in USUAL)}

    def lines(self):
        """The opening's lines with the release's name in place of what the release has."""
        usual = {**USUAL, **releases()[RELEASE]}
        return [it for it in self.opening if it.split()[0] not in USUAL] + ["policy " + RELEASE] + ["%s %d" % it for it in self.settings().items() if it[1] != usual[it[0]]]


def written(name):
    """The cases of a file, as it has them."""
    with lzma.open(os.path.join(ROOT, "tests", "data", name + ".jsonl.xz"), "rt", encoding="utf-8") as file:
        yield from map(json.loads, file)


def recorded(name):
    for it in written(name):
        yield Case(it["name"], it["opening"], [Event(*event) for event in it["events"]])


def policy_name(said, met):
    """The policy's name of what the node refused, without what the node says more."""
    name = said.partition(", ")[0].partition(" (")[0]
    met[name] += 1
    entry = TOPOLOGY.match(name)
    if entry:
        return entry[1] + "conflict topology"
    return NAMES.get(name, name)


def in_order(found):
    """What is told of an entry, with its parents and children in one order."""
    return {name: sorted(it) if isinstance(it, list) else it for name, it in found.items()}


def of_member(told, name_of, unit):
    """What became of a member, amounts in satoshi of which a unit of the answer has so many."""
    if "error" in told:
        return "denied", name_of(told["error"])
    if "other-wtxid" in told:
        return "other", told["other-wtxid"]
    amounts = {name: round(it * unit) for name, it in told["fees"].items() if name != "effective-includes"}
    return "held", told["vsize"], amounts, told["fees"].get("effective-includes")


def of_package(told, name_of, unit):
    """What became of a package: the message, each member by its wtxid, and what was replaced."""
    members = {wtxid: of_member(it, name_of, unit) for wtxid, it in told["tx-results"].items()}
    return name_of(told["package_msg"]), members, sorted(told["replaced-transactions"])


def of_refused_call(error, met):
    """The code of the policy for the node's error, and the name of the rule, if it is one."""
    code = error["code"] if error["code"] in (DENIED, UNDECODABLE) else INVALID
    return (code, policy_name(error["message"], met)) if code == DENIED else code


def of_trial(told, name_of, unit):
    """What is said of one of those that are tested, of each in its own words."""
    found = {name: told[name] for name in ("txid", "wtxid", "allowed") if name in told}
    if "package-error" in told:
        return {**found, "of all": name_of(told["package-error"])}
    if "allowed" not in told:
        return found
    if told["allowed"]:
        return {**found, "vsize": told["vsize"], "fee": round(told["fees"]["base"] * unit)}
    return {**found, "reason": name_of(told["reject-reason"])}


def wanted_of(event, met):
    """What the gate has to say, from the node's answer."""
    told = event.told()
    if event.kind == "tx":
        return ("denied", policy_name(told["message"], met)) if event.refusal() else ("admitted", [event.transaction.txid], len(told["left"]))
    if event.call and "error" in told:
        return of_refused_call(told["error"], met)
    if event.kind == "submitpackage":
        return of_package(told, lambda it: policy_name(it, met), 1e8)
    if event.kind == "testmempoolaccept":
        return [of_trial(it, lambda name: policy_name(name, met), 1e8) for it in (told if isinstance(told, list) else [told])]
    return sorted(told) if event.kind == "getrawmempool" else in_order(told)


def found_of(event, reply):
    """The same from the gate's reply."""
    words = reply.split(" ")
    if event.kind == "tx":
        return ("denied", " ".join(words[3:])) if words[0] == "denied" else (words[0], [words[1]], int(words[7]))
    if event.kind == "chain":
        return dict(zip(("tip", "removed", "entered"), map(int, words[1::2])))
    body = json.loads(reply.split(" ", 2)[2])
    error, result = body["error"], body["result"]
    if error:
        return (error["code"], error["message"]) if error["code"] == DENIED else error["code"]
    if event.kind == "submitpackage":
        return of_package(result, str, 1)
    if event.kind == "testmempoolaccept":
        return [of_trial(it, str, 1) for it in result]
    return sorted(result) if event.kind == "getrawmempool" else in_order({name: result[name] for name in event.told() if name in result})


def compared(gate, case, met):
    """Each answer of the node that differs, and how many there were."""
    done = gate.run("run", lines(case.lines()) + "---\n" + lines(it.line for it in case.events))
    same("%s: status and standard error" % case.name, (done.status, done.stderr), (0, b""))
    asked = [(event, reply) for event, reply in zip(case.events, done.stdout.decode().splitlines()) if event.answer is not None]
    pairs = [(event, found_of(event, reply), wanted_of(event, met)) for event, reply in asked]
    differ = ["%s, %r: %s: gate: %s; node: %s" % (case.name, event.about, event.kind, found, wanted) for event, found, wanted in pairs if found != wanted]
    return differ, len(pairs)


def all_compared(gate, name):
    """Compares each answer of a file, and says how many there were. It gives how the node named its refusals."""
    differ, met, count, cases = [], Counter(), 0, 0
    for case in recorded(name):
        more, number = compared(gate, case, met)
        differ, count, cases = differ + more, count + number, cases + 1
    print("%s: %d answers in %d cases compared" % (name, count, cases), flush=True)
    same_lines(differ, [])
    true("%d answers compared, and not %d" % (COMPARED[name], count), count == COMPARED[name])
    return met


def test_a_node_of_today(gate):
    """Each answer that a node with Bitcoin Core 29's policy gave."""
    met = all_compared(gate, CASES)
    same("names that the node doesn't use", [it for it in NAMES if not met[it]], [])


@heavy
def test_full_pools(gate):
    """The same of a node whose pool is full: what it takes and refuses by its floor. The budget, in virtual bytes, stands for
    the node's bytes of memory."""
    all_compared(gate, FULL)


def test_the_policy_of_that_node(gate):
    """What the cases say of admission is the release's, but for what the node had otherwise and for the options of a case."""
    release, usual = releases()[RELEASE], {**USUAL, **releases()[RELEASE]}
    for it in chain(written(CASES), written(FULL)):
        case = Case(it["name"], it["opening"], [])
        said = case.settings()
        same(case.name, [it for it in release if it not in said and it not in UNSAID], [])
        options = {"maxtxlegacysigops", "limitdescendantcount", "limitancestorcount", "minrelaytxfee", "mempoolfullrbf"}
        same(case.name, {word: number for word, number in said.items() if number != usual[word] and word not in options}, OTHERWISE)
