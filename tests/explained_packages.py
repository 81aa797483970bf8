"""`gate run --explain` of packages: the figures of each member that is denied, in words and as objects."""

import re
from collections import Counter

from bitcoin import Input, Output, Transaction, coin, number_hash, payment, printed
from explained import ENTER, NO_VERDICT, OPENING, TIMES, listed, said_of, sent, spending
from gate import lines, same, same_lines, true
from model import fees_of, size_of
from objects import objects
from package_model import PackageModel, Terms
from package_streams import BUDGETS, FULL, MIXED, PAIRS, REPLACED, REPLACING, Packages

PACKAGES = OPENING + ["packages 1"]
FLOOR = "operator floor 2000"
# 82 virtual bytes of a payment need 82 satoshi, 164 at a floor of 2,000; a child of two parents has 123


def package(*made, bounds=""):
    """A call that submits these as a package."""
    return 'user a rpc 5000 {"method":"submitpackage","params":[[%s]%s],"id":1}' % (",".join('"%s"' % tx.hex() for tx in made), bounds)


def pair(parent, child):
    return "peer 1 package 5000 %s %s" % (parent.hex(), child.hex())


def told_of(gate, opening, events):
    """What is said of the last of these events."""
    told, _ = said_of(gate, opening, events)
    return [line for event, line in told if event == events[-1]]


def tells(gate, opening, events, *lines):
    """What is said of the last of these events: these lines."""
    same_lines(told_of(gate, opening, events), list(lines))


def tells_members(gate, opening, events, *lines):
    """What is said of the last event, a package of two that a user submits, or that a peer does: these lines, behind the numbers."""
    tells(gate, opening, events, *("transaction %s of 2: %s" % it for it in zip("12", lines) if it[1]))


def test_fees(gate):
    """What a member pays by itself, and what those pay together that were denied by themselves: fee, size and what that needs."""
    parent = payment(1, 99900)
    child, poor = (spending((parent, 0), value=value) for value in (99800, 99890))
    floor = "A34 pays 100, needs 164"
    for submitted in (package, pair):
        before = [ENTER, FLOOR]
        tells_members(gate, PACKAGES + [coin(1)], before + [submitted(parent, child)], floor, "A34 2 together pay 200 for 164 virtual bytes, need 328")
        # each of those that are judged together pays what every relay asks
        tells_members(gate, PACKAGES + [coin(1)], before + [submitted(parent, poor)], floor, "A35 pays 10, needs 82")
    low = payment(1, 99950)
    child = spending((low, 0), value=90000)
    # no child mends that
    tells_members(gate, PACKAGES + [coin(1)], [package(low, child)], "A35 pays 50, needs 82", "A25 input 0: no coin %s:0" % low.txid())
    tells(gate, PACKAGES + [coin(1)], [package(low)], "transaction 1 of 1: A35 pays 50, needs 82")


def test_version_three(gate):
    """A35 is asked of what both pay, and not of each."""
    parent = Transaction([Input(number_hash(1))], [Output(100000)], version=3)
    child = Transaction([Input(parent.hash())], [Output(99900)], version=3)
    opening = PACKAGES + [coin(1), "truc 1"]
    tells_members(gate, opening, [package(parent, child)], "A35 pays 0, needs 82", "A35 2 together pay 100 for 164 virtual bytes, need 164")


def test_behind_what_came_in(gate):
    """What a member pays, also together with others, and what it is by itself, is known behind one that came in; no other figures are."""
    rich, low = payment(1, 99000), payment(2, 99900)
    child = spending((rich, 0), (low, 0), value=198700)
    before = [ENTER, FLOOR]
    tells(gate, PACKAGES + [coin(1), coin(2)], before + [package(rich, low, child)],
          "transaction 2 of 3: A34 pays 100, needs 164", "transaction 3 of 3: A34 2 together pay 300 for 205 virtual bytes, need 410")
    poor = spending((rich, 0), value=98990)
    tells_members(gate, PACKAGES + [coin(1)], [package(rich, poor)], None, "A35 pays 10, needs 82")
    lost = Transaction([Input(rich.hash()), Input(number_hash(9))], [Output(1000)])
    found = told_of(gate, PACKAGES + [coin(1)], [package(rich, lost)])
    true("the sentence, without figures: %s" % found, len(found) == 1 and found[0].startswith("transaction 2 of 2: A25 ") and printed(number_hash(9)) not in found[0])
    tells_members(gate, PACKAGES + [coin(1)], [package(rich, spending((rich, 0), value=293), bounds=",0")], None, "A17 output 0: value 293, needs 294")
    # one that was in the pool before leaves all as it was
    tells_members(gate, PACKAGES + [coin(1)], [ENTER, sent(rich), package(rich, lost)], None, "A25 input 1: no coin %s:0" % printed(number_hash(9)))


def test_the_first_try_alone(gate):
    """A member has no second try of A36, which lets a transaction have one parent in any case."""
    parent = payment(1, 99000)
    child = spending((parent, 0), value=98000)
    opening = PACKAGES + [coin(1), "limitancestorcount 1"]
    tells(gate, opening, [ENTER, sent(parent), package(child)], "transaction 1 of 1: A36 2 ancestors, 1 allowed")
    tells(gate, opening, [ENTER, sent(parent), sent(child)])
    opening = PACKAGES + [coin(1), "limitdescendantcount 1"]
    tells(gate, opening, [ENTER, sent(parent), package(child)],
          "transaction 1 of 1: A36 with it an entry would have more than 1 descendants, itself among them, or more than 101000 virtual bytes of them")


def test_verdicts(gate):
    """A member whose scripts nobody ran, by itself and together with its parent."""
    parent = payment(1, 99900)
    child = spending((parent, 0), value=99000)
    opening = [TIMES, "packages 1", coin(1), "verdict %s 0 ok" % parent.txid()]
    missing = "A43 input 0 of %s%s" % (child.txid(), NO_VERDICT)
    tells_members(gate, opening, [package(parent, child)], None, missing)
    tells_members(gate, opening, [FLOOR, package(parent, child)], "A34 pays 100, needs 164", missing)
    tells_members(gate, opening + ["verdict %s 0 soft" % child.txid()], [FLOOR, package(parent, child)], "A34 pays 100, needs 164", "A44 input 0 of %s" % child.txid())


def test_other_rules(gate):
    """Figures of a transaction alone; the sentence of a rule without figures; and the rule on the package before its members."""
    first = payment(1, 99000)
    again = payment(1, 98950)
    tells(gate, PACKAGES + [coin(1)], [ENTER, sent(first), package(again)], "transaction 1 of 1: A42 1050 - 1000 = 50, needs 82")
    dear = told_of(gate, PACKAGES + [coin(1)], [package(first, bounds=",1000")])
    true("A50: %s" % dear, len(dear) == 1 and dear[0].startswith("transaction 1 of 1: A50 The feerate "))
    low = payment(1, 99900)
    child = spending((low, 0), value=90000)
    told = told_of(gate, PACKAGES + [coin(1), "limitancestorcount 1"], [FLOOR, package(low, child)])
    true("J9, and then each: %s" % told, told[0].startswith("J9 "))
    same_lines(told[1:], ["transaction 1 of 2: A34 pays 100, needs 164", "transaction 2 of 2: A25 input 0: no coin %s:0" % low.txid()])


def test_lists(gate):
    """One of a list that is tested as one package pays as much behind the one before it."""
    parent = payment(1, 99000)
    tells(gate, PACKAGES + [coin(1)], [listed(parent, spending((parent, 0), value=98990))], "transaction 2 of 2: A35 pays 10, needs 82")


def test_objects(gate):
    """An object for each member that is denied, with its number and txid."""
    parent = payment(1, 99900)
    child = spending((parent, 0), value=99800)
    said, last = objects(gate, PACKAGES + [coin(1)], [FLOOR, package(parent, child)])
    token = "mempool min fee not met"
    same("objects", said, [
        {"line": 2, "transaction": 1, "denied": parent.txid(), "rule": "A34", "token": token, "pays": 100, "needs": 164},
        {"line": 2, "transaction": 2, "denied": child.txid(), "rule": "A34", "token": token, "together": 2, "pays": 200, "size": 164, "needs": 328},
    ])
    same("counts", (last["denied"], last["rules"]), (2, {"A34": 2}))


FEES = "A34", "A35"
MEMBER = re.compile(r"gate: line (\d+): transaction (\d+) of (\d+): (A\d+) (.*)")
# how often all streams together have to say what one pays, what one pays behind one that came in, and what several pay together
FLOORS = {"denied": 900, "alone": 270, "behind one that came in": 40, "together": 36}


class Paying(PackageModel):
    """The plain model, which also says what those pay that A34 and A35 deny."""

    def sum_told(self, rule, fee, size, count=1):
        needs = self.fee_at({"A34": self.floor, "A35": self.opening["minrelaytxfee"]}[rule], size)
        return "pays %d, needs %d" % (fee, needs) if count == 1 else "%d together pay %d for %d virtual bytes, need %d" % (count, fee, size, needs)

    def fee_told(self, tx, rule, before):
        with self.on(Terms(before)):
            return self.sum_told(rule, self.fee(tx), self.size(tx))

    def by_itself(self, tx, now, most):
        member = super().by_itself(tx, now, most)
        member.paid = self.fee_told(tx, member.rule, []) if member.rule in FEES else None
        return member

    def denying_together(self, members, several, now, most):
        for rule, member in super().denying_together(members, several, now, most):
            if member:
                before = [other.tx for other in members[:members.index(member)]]
                member.paid = None
                if rule in FEES:
                    member.paid = self.sum_told(rule, fees_of(several), size_of(several), len(several)) if several else self.fee_told(member.tx, rule, before)
            yield rule, member


def denied_of(members):
    """The number, the rule and the figures of fees of each member that is denied."""
    return [(number, len(members), it.rule, it.rule in FEES and it.paid) for number, it in enumerate(members, 1) if it.rule]


def watched(gate, made, events, met):
    """What a stream's lines say of the members of its packages is what the model knows."""
    wanted, told = {}, []
    made.model = Paying(made.opening)
    for number in range(events):
        made.model.members = []
        told.append(made.event()[0])
        wanted[number] = denied_of(made.model.members)
        entered = [it.entered is not None or it.rule == "A46" for it in made.model.members]
        for place, _, rule, paid in wanted[number]:
            met["denied"] += 1
            met["together" if paid and "together" in paid else "alone" if paid else rule] += 1
            met["behind one that came in"] += bool(paid) and any(entered[:place - 1])
    opening = made.opening_lines()
    said = {number: [] for number in wanted}
    for line in gate.run("run --explain", lines(opening) + "---\n" + lines(told)).stderr.decode().splitlines():
        found = MEMBER.fullmatch(line)
        if found:
            number, place, count, rule, figures = found.groups()
            said[int(number) - len(opening) - 2].append((int(place), int(count), rule, rule in FEES and figures))
    same("seed %d" % made.seed, said, wanted)


def test_streams(gate):
    """What is said of each member of random packages: its rule, and what it pays, or what several pay together."""
    met = Counter()
    for seed in range(40):
        watched(gate, Packages(seed, *(("user", FULL, {}, BUDGETS), ("peer", PAIRS), ("user", MIXED), ("user", REPLACING, REPLACED))[seed % 4]), 40, met)
    same("said too seldom: %s" % met, {kind: met[kind] for kind, floor in FLOORS.items() if met[kind] < floor}, {})
