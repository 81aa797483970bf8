"""A plain model of docs/POLICY.md with packages: those that users submit, lists that they test, and pairs of peers.

Each of several is judged by the rules of the other models on terms of its own. The diagrams of J16 are the policy's broken
lines, whose heights are fractions.
"""

from contextlib import contextmanager
from dataclasses import dataclass, field
from fractions import Fraction
from itertools import chain

from bitcoin import Transaction
from callers import METHODS, CallerModel, Error, InOrder
from living_model import is_unspendable
from model import GREATEST_AMOUNT, KILO, MOST_REPLACED, TOKENS, TRUC, TRUC_CHILD_SIZE, TRUC_SIZE, Coin, Entry, Limits, carries_data, fees_of, outpoints, rate_of, size_of

MOST_MEMBERS = 25
MOST_WEIGHT = 404000
USUAL_RATE, GREATEST_RATE = 10000000, 99999999
GREATEST_OPCODE = 0xB9
LONGEST_PUSH = 520
# how many bytes tell the length of a push
LENGTHS = {0x4C: 1, 0x4D: 2, 0x4E: 4}
# denials of a member by itself that what follows may mend, beside A35 of version 3
MENDED = ("A25", "A34", "A38", "A41", "A42")


def is_burnt(script):
    """Whether what is paid to a script is lost."""
    place = 0
    while place < len(script):
        opcode, place = script[place], place + 1
        if opcode > GREATEST_OPCODE:
            return True
        if opcode <= 0x4E:
            width = LENGTHS.get(opcode, 0)
            length = int.from_bytes(script[place:place + width], "little") if width else opcode
            if place + width + length > len(script) or length > LONGEST_PUSH:
                return True
            place += width + length
    return is_unspendable(script)


def names(tx):
    """The hashes that its inputs name."""
    return {one.hash for one in tx.inputs}


def height(chunks, size):
    """How high the broken line through chunks, fees and sizes by falling feerate, is at a size: behind its end it is level."""
    found = Fraction(0)
    for fee, width in sorted(chunks, key=lambda chunk: Fraction(*chunk), reverse=True):
        found += Fraction(fee * min(size, width), width)
        size -= min(size, width)
    return found


def corners(chunks):
    """The sizes at which the line breaks."""
    widths = [width for _, width in sorted(chunks, key=lambda chunk: Fraction(*chunk), reverse=True)]
    return [sum(widths[:count]) for count in range(len(widths) + 1)]


def is_improved(before, after):
    """Whether the line of the chunks after is nowhere below that of the chunks before, and above it somewhere."""
    rises = [height(after, size) - height(before, size) for size in corners(before) + corners(after)]
    return min(rises) >= 0 and max(rises) > 0


@dataclass
class Terms:
    """How one of several is judged: which transactions before it make coins, whether it may replace entries and evict a
    sibling, and the greatest feerate, of which 0 bounds nothing."""

    before: list = field(default_factory=list)
    replaces: bool = True
    evicts: bool = False
    most: int = 0


@dataclass
class Member:
    """A transaction of a package: the entry that it is or that has its txid, the rule that denies it, what it replaced, and
    with whom it entered."""

    tx: Transaction
    entry: Entry = None
    rule: str = None
    replaced: list = field(default_factory=list)
    entered: list = None


class PackageModel(CallerModel):
    def __init__(self, opening):
        super().__init__(opening)
        self.terms = None
        # what became of those of the last package
        self.members = []

    # --- the shape of a package

    def fault(self, made):
        """J2 to J7 without J5: the first rule that fails of a package."""
        *others, last = made
        hashes = {tx.hash() for tx in others}
        if any(tx.hash() not in names(last) or names(tx) & hashes for tx in others):
            return "J2"
        lacks = any(one.hash not in hashes and (one.hash, one.index) not in self.chain_coins() for one in last.inputs)
        rule = self.fault_of_any(made)
        return rule or ("J7" if others and lacks and self.opening["packageallparents"] else None)

    def fault_of_any(self, made, is_list=False):
        """J3 to J6, J5 of lists alone."""
        hashes = [tx.hash() for tx in made]
        points = [point for tx in made for point in outpoints(tx)]
        if len(made) > 1 and sum(tx.weight() for tx in made) > MOST_WEIGHT:
            return "J3"
        if len(set(hashes)) < len(hashes):
            return "J4"
        if is_list and any(names(tx) & set(hashes[place:]) for place, tx in enumerate(made)):
            return "J5"
        if len(set(points)) < len(points) or not all(tx.inputs for tx in made):
            return "J6"
        return None

    # --- one of several

    @contextmanager
    def on(self, terms):
        """Judges one of several meanwhile."""
        self.terms = terms
        yield
        self.terms = None

    def coin(self, one):
        for tx in self.terms.before if self.terms else []:
            if tx.hash() == one.hash and one.index < len(tx.outputs) and not carries_data(tx.outputs[one.index]):
                return Coin(tx.outputs[one.index].value, self.tip + 1, False)
        return super().coin(one)

    def may_replace(self, direct):
        return super().may_replace(direct) if self.terms is None or self.terms.replaces else not direct

    def tries(self, tx):
        if self.terms is None:
            return super().tries(tx)
        limit = self.opening
        return [Limits(limit["limitancestorcount"], KILO * limit["limitancestorsize"], limit["limitdescendantcount"], KILO * limit["limitdescendantsize"])]

    def sibling(self, tx):
        return super().sibling(tx) if self.terms is None or self.terms.evicts else []

    def first_half(self, tx):
        """Of one of several A50 too. What is in the pool passes those before A21, which stands where peers meet P5."""
        is_known = any(entry.wtxid == tx.wtxid() for entry in self.pool)
        yield from ("A21" if rule == "A22" and is_known else rule for rule in super().first_half(tx))
        if self.terms and self.terms.most and rate_of(self.fee(tx), self.size(tx)) > self.terms.most:
            yield "A50"

    def is_strange(self, output):
        return super().is_strange(output) or is_burnt(output.script) and not carries_data(output)

    def is_free(self, tx):
        """Whether another may pay the relay fee for it."""
        return self.opening["truc"] and tx.version == TRUC

    def is_mended(self, member):
        """Whether what follows may mend its denial."""
        return member.rule in MENDED or member.rule == "A35" and self.is_free(member.tx)

    def by_itself(self, tx, now, most):
        found = [entry for entry in self.pool if entry.hash == tx.hash()]
        if found:
            return Member(tx, found[0])
        with self.on(Terms(evicts=True, most=most)):
            rule = next(chain(self.first_half(tx), self.second_half(tx)), None)
            if rule:
                return Member(tx, rule=rule)
            replaced = self.listed(self.below(self.counted(tx)))
            entry, _ = self.grant(tx, now)
        return Member(tx, entry, replaced=replaced, entered=[entry])

    # --- several together

    def judged_in_turn(self, made, now, most=0, unasked=lambda tx: (), replaces=True):
        """Each up to A37 and A50, with the coins of those before it: the entries that they would be, and, if one is denied, by
        which rule."""
        found = []
        for tx in made:
            with self.on(Terms([one.tx for one in found], replaces, most=most)):
                rule = next((rule for rule in self.first_half(tx) if rule not in unasked(tx)), None)
                if rule:
                    return found, rule
                found.append(Entry(tx, self.fee(tx), self.size(tx), now))
        return found, None

    def breaks_families(self, several):
        """J8."""
        return self.opening["truc"] and any(self.breaks_family(one, several) for one in several)

    def breaks_family(self, one, several):
        above = list(self.above(one.tx)) + [other for other in several if other.hash in one.parents]
        if not one.is_truc():
            return any(entry.is_truc() for entry in above)
        if one.size > TRUC_SIZE or len(above) > 1:
            return True
        if not above:
            return False
        parent = above[0]
        beside = any(other.parents & {parent.hash, one.hash} for other in several if other is not one)
        return one.size > TRUC_CHILD_SIZE or not parent.is_truc() or beside or parent in self.pool and len(self.below([parent])) > 1

    def passed_together(self, several):
        """J9: which limits of families they may pass."""
        count, size, opening = len(several), size_of(several), self.opening
        above = {entry for one in several for entry in self.above(one.tx)}
        most_above, most_below = KILO * opening["limitancestorsize"], KILO * opening["limitdescendantsize"]
        families = [self.below([entry]) for entry in above]
        found = {
            "their count": count > min(opening["limitancestorcount"], opening["limitdescendantcount"]),
            "their size": size > min(most_above, most_below),
            "ancestors": len(above) + count > opening["limitancestorcount"],
            "ancestors size": above and size_of(above) + size > most_above,
            "descendants": any(len(family) + count > opening["limitdescendantcount"] for family in families),
            "descendants size": any(size_of(family) + size > most_below for family in families),
        }
        return [limit for limit, holds in found.items() if holds]

    def conflicts_of(self, several):
        """The entries that spend what one of them spends."""
        return [entry for entry in self.pool if any(entry.spent & one.spent for one in several)]

    def replacing_together(self, several):
        """J10 to J16, those that fail."""
        direct = self.conflicts_of(several)
        if not direct:
            return
        replaced = self.below(direct)
        fee, size, paid = fees_of(several), size_of(several), fees_of(replaced)
        if len(several) != 2:
            yield "J10"
        if any(self.parents(one.tx) for one in several):
            yield "J11"
        if sum(len(self.below([entry])) for entry in direct) > MOST_REPLACED:
            yield "J12"
        if fee < paid or fee - paid < self.fee_at(self.opening["incrementalrelayfee"], size):
            yield "J13"
        if rate_of(fee, size) <= rate_of(several[0].fee, several[0].size):
            yield "J14"
        if any(len(self.joined(entry)) > 2 for entry in replaced):
            yield "J15"
        before, left = self.chunks(replaced)
        if not is_improved(before, left + [(fee, size)]):
            yield "J16"

    def joined(self, entry):
        """It and the entries that it is joined to, by parent steps either way."""
        found, more = set(), {entry}
        while found != more:
            found, more = more, self.below(more) | {other for one in more for other in self.parents(one.tx)}
        return found

    def chunks(self, replaced):
        """The chunks of what is replaced, with a parent that stays; and those of such parents."""
        before, left = [], []
        for family in {frozenset(self.joined(entry)) for entry in replaced}:
            child = max(family, key=lambda one: len(self.above(one.tx)))
            together = fees_of(family), size_of(family)
            pays_more = Fraction(child.fee, child.size) > Fraction(*together)
            before += [together] if pays_more else [(one.fee, one.size) for one in family]
            left += [(one.fee, one.size) for one in family if one not in replaced]
        return before, left

    def denying_together(self, members, several, now, most):
        """The rules that fail of those that were denied by themselves, each with the member that a rule A denies. The entries
        that they would be are put into a list."""
        made = [member.tx for member in members]
        found, rule = self.judged_in_turn(made, now, most, lambda tx: ("A34", "A35") if self.is_free(tx) else ("A34",))
        if rule:
            yield rule, members[len(found)]
        several += found
        if self.breaks_families(several):
            yield "J8", None
        for rule, rate in (("A34", self.floor), ("A35", self.opening["minrelaytxfee"])):
            if fees_of(several) < self.fee_at(rate, size_of(several)):
                yield rule, members[-1]
        limits = self.passed_together(several)
        self.gone.update("J9 by " + limit for limit in limits)
        if limits:
            yield "J9", None
        for rule in self.replacing_together(several):
            yield rule, None
        for member in members:
            if self.leaves_dust(member.tx, several):
                yield "J17", member
        for member in members:
            for rule in self.judged(member.tx):
                yield rule, member

    def leaves_dust(self, tx, several):
        """Whether A49 fails, with parents among several or in the pool."""
        parents = [one for one in several if one.hash in names(tx)] + self.parents(tx)
        return self.opening["ephemeraldust"] and self.unswept(tx, parents)

    def together(self, members, now, most):
        """Judges those together that were denied by themselves: the rule J that fails, if one does."""
        several = []
        rule, denied = next(self.denying_together(members, several, now, most), (None, None))
        if denied:
            denied.rule = "A49" if rule == "J17" else rule
        if rule:
            return rule if rule.startswith("J") else None
        direct = self.conflicts_of(several)
        members[0].replaced = self.listed(self.below(direct))
        self.gone["replaced together"] += bool(self.remove(direct, "replaced"))
        self.pool += several
        for member, entry in zip(members, several):
            member.entry, member.rule, member.entered = entry, None, several
        return None

    # --- a package

    def outcome(self, made, now, most):
        """What becomes of a package that has no fault: its members, whether it failed, and the rule J that denied it."""
        self.members = members = [self.by_itself(tx, now, most) for tx in made]
        denied = [member for member in members if member.rule]
        failed, rule = not all(self.is_mended(member) for member in denied), None
        if not failed and len(denied) > 1:
            rule = self.together(denied, now, most)
        self.expire(now)
        self.trim()
        for member in members:
            if member.rule is None and member.entry not in self.pool:
                member.rule, failed = "A46", True
        return members, failed or not rule and any(member.rule for member in members), None if failed else rule

    def packaged(self, peer, now, made):
        """What is said of a peer's package that has no fault."""
        members, failed, rule = self.outcome(made, now, 0)
        closes = any(self.closes_for(member.rule, peer) for member in members)
        if closes:
            self.close(peer)
        what = "%s %s" % (rule, TOKENS[rule]) if rule else "transaction failed" if failed else "success"
        return " | ".join(["packaged %s %s" % ("close" if closes else "keep", what)] + [self.told(member) for member in members])

    def told(self, member):
        if member.rule:
            return "denied %s %s" % (member.rule, TOKENS[member.rule])
        if member.entered is None:
            return "known " + member.tx.txid()
        return "admitted %s fee %d vsize %d replaced %d" % (member.tx.txid(), member.entry.fee, member.entry.size, len(member.replaced))

    def package(self, peer, now, made):
        """A pair of transactions, or of None for bytes that are none."""
        denied = super().package(peer, now, made)
        if denied:
            return denied
        rule = "A1" if None in made else self.fault(made)
        return self.denied(rule, peer) if rule else self.packaged(peer, now, made)

    # --- calls

    def methods(self):
        return METHODS + ("submitpackage",) * self.opening["packages"]

    def submitpackage(self, now, made, most=USUAL_RATE, most_burnt=0):
        if not 1 <= len(made) <= MOST_MEMBERS or not 0 <= most <= GREATEST_RATE or not 0 <= most_burnt <= GREATEST_AMOUNT:
            raise Error(500, -32602, "Invalid params")
        for tx in made:
            if tx is None:
                raise Error(500, -22, TOKENS["A1"], "A1")
            if any(output.value > most_burnt and is_burnt(output.script) for output in tx.outputs):
                raise Error(500, -25, TOKENS["J1"], "J1")
        rule = self.fault(made)
        if rule == "J2":
            raise Error(500, -25, TOKENS[rule], rule)
        if rule:
            return self.answer(rule, False, [])
        members, failed, rule = self.outcome(made, now, most)
        return self.answer(rule, failed, members)

    def answer(self, rule, failed, members):
        found = {
            "package_msg": TOKENS[rule] if rule else "transaction failed" if failed else "success",
            "replaced-transactions": [txid for member in members if member.rule is None for txid in member.replaced],
            "tx-results": InOrder({member.tx.wtxid(): self.result(member) for member in members}),
        }
        return {**found, "rule": rule} if rule else found

    def result(self, member):
        tx, entry = member.tx, member.entry
        if member.rule:
            return {"error": TOKENS[member.rule], "rule": member.rule, "txid": tx.txid()}
        if member.entered is None and entry.wtxid != tx.wtxid():
            return {"other-wtxid": entry.wtxid, "txid": tx.txid()}
        fees = {"base": entry.fee}
        if member.entered:
            fees["effective-feerate"] = rate_of(fees_of(member.entered), size_of(member.entered))
            fees["effective-includes"] = [one.wtxid for one in member.entered]
        return {"fees": fees, "txid": tx.txid(), "vsize": entry.size}

    def testmempoolaccept(self, now, made):
        """Two or more are one package, if packages are taken."""
        if len(made) < 2 or None in made or not self.opening["packages"]:
            return super().testmempoolaccept(now, made)
        several = []
        rule, place = next(self.denying_listed(made, several, now), (None, None))
        allowed = len(made) if rule is None else place if rule in ("A43", "A44", "A45") else 0
        found = [{"txid": tx.txid(), "wtxid": tx.wtxid()} for tx in made]
        for one, entry in zip(found[:allowed], several):
            one.update({"allowed": True, "fees": {"base": entry.fee}, "vsize": entry.size})
        if place is not None:
            found[place] = self.tested(made[place], rule)
        elif rule:
            found = [{**ids, "package-error": TOKENS[rule], "rule": rule} for ids in found]
        return found

    def denying_listed(self, made, several, now):
        """The rules that fail of a list, each with the place that a rule A denies. The entries that they would be are put into
        a list."""
        rule = self.fault_of_any(made, True)
        if rule:
            yield rule, None
        found, rule = self.judged_in_turn(made, now, replaces=False)
        if rule:
            yield rule, len(found)
        several += found
        if self.breaks_families(several):
            yield "J8", None
        if self.passed_together(several):
            yield "J9", None
        for place, tx in enumerate(made):
            if self.leaves_dust(tx, several):
                yield "A49", place
        for place, tx in enumerate(made):
            for rule in self.judged(tx):
                yield rule, place
