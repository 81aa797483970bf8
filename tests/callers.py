"""The plain model with permission flags, switches and RPC. Networks are those of Python's `ipaddress`, and JSON is Python's."""

import ipaddress
import json
import re
from dataclasses import dataclass, field

from bitcoin import printed
from model import TOKENS, Entry, Model, Opening, fees_of, size_of

FLAGS = ("bloomfilter", "noban", "forcerelay", "relay", "mempool", "download", "addr")
WORDS = {"": (), "bloom": ("bloomfilter",), "noban": ("noban", "download"), "forcerelay": ("forcerelay", "relay"), "all": FLAGS}
WEEK = 604800
METHODS = (
    "sendrawtransaction", "testmempoolaccept", "getrawmempool", "getmempoolentry", "getmempoolancestors", "getmempooldescendants", "getmempoolinfo",
    "getrawtransaction", "gettxspendingprevout",
)


@dataclass
class Settings(Opening):
    """An opening with entries of `whitelist` and `rpcwhitelist`, as their texts; None where a setting has no line."""

    whitelist: list = field(default_factory=list)
    rpcwhitelist: list = field(default_factory=list)
    relay: bool = None
    forcerelay: bool = None
    default: bool = None
    blocksonly: bool = None


@dataclass
class Session:
    flags: set
    is_open: bool = True


# of an outpoint that a call names, as in Bitcoin Core
GREATEST_VOUT = 2**31 - 1


class Error(Exception):
    """An answer that is no result."""

    def __init__(self, status, code, message, rule=None):
        super().__init__(message)
        self.status, self.error = status, {"code": code, "message": message}
        if rule:
            self.error["rule"] = rule


class InOrder(dict):
    """An object whose members stand as they were put in."""


def json_text(value):
    """Compact JSON with sorted keys, but for objects that have an order of their own."""
    if isinstance(value, dict):
        members = value.items() if isinstance(value, InOrder) else sorted(value.items())
        return "{%s}" % ",".join("%s:%s" % (json_text(name), json_text(one)) for name, one in members)
    if isinstance(value, (list, tuple)):
        return "[%s]" % ",".join(json_text(one) for one in value)
    return json.dumps(value, ensure_ascii=False)


def address_of(text):
    address = ipaddress.ip_address(text)
    return getattr(address, "ipv4_mapped", None) or address


def methods_of(entries, user):
    """A user's list of methods, None without one."""
    methods = None
    for entry in entries:
        name, colon, words = entry.partition(":")
        if name == user:
            listed = set(re.split("[, ]", words)) if colon else None
            if methods is None:
                methods = listed or set()
            elif listed is not None:
                methods &= listed
    return methods


class CallerModel(Model):
    def __init__(self, opening):
        super().__init__(opening)
        self.switches = {"bloom": opening.bloom, "upload": False, "historic": False, "ibd": False}
        given = (opening.relay, not opening.blocksonly), (opening.forcerelay, False)
        relay, forcerelay = [default if value is None else value for value, default in given]
        self.implicit = {"noban", "download", "mempool"} | ({"relay"} if relay or forcerelay else set()) | ({"forcerelay"} if forcerelay else set())

    # --- peers

    def flags_of(self, address):
        found = set()
        for entry in self.opening.whitelist:
            words, at, subnet = entry.rpartition("@")
            if address_of(address) in ipaddress.ip_network(subnet, strict=False):
                found |= {flag for word in words.split(",") for flag in WORDS.get(word, (word,))} if at else self.implicit
        return found

    def enter(self, peer, address="192.0.2.1"):
        if peer in self.sessions:
            return self.denied("P3", peer)
        flags = self.flags_of(address)
        self.sessions[peer] = Session(flags)
        return "entered " + (",".join(flag for flag in FLAGS if flag in flags) or "none")

    def leave(self, peer):
        return self.refused(peer) or self.close(peer)

    def close(self, peer):
        self.sessions[peer].is_open = False
        return "left"

    def mempool(self, peer):
        flags = self.flags(peer)
        return (
            self.refused(peer, ("P6", not flags & {"mempool", "bloomfilter"} and not self.switches["bloom"]), ("P7", "mempool" not in flags and self.switches["upload"]))
            or self.listing(peer)
        )

    def headers(self, peer, height):
        hidden = self.switches["ibd"] and "download" not in self.flags(peer)
        return self.refused(peer, ("P8", hidden), ("P9", height > self.tip)) or "headers %d %d" % (height + 1, min(2000, self.tip - height))

    def block(self, peer, height):
        times = dict(enumerate(self.opening.times, self.opening.first))
        old = self.switches["historic"] and "download" not in self.flags(peer) and height in times and times[self.tip] - times[height] > WEEK
        return self.refused(peer, ("P9", height not in times), ("P10", old)) or "block %d %d" % (height, times[height])

    def submit(self, peer, now, tx):
        return self.refused(peer, ("P4", self.is_shut(peer))) or super().submit(peer, now, tx)

    def package(self, peer, now, made):
        """The denial of a package whose texts aren't read; None where they are."""
        return self.refused(peer, ("P4", self.is_shut(peer)), ("P11", not self.opening["packages"]))

    def is_shut(self, peer):
        """Whether the peer's transactions are not wanted."""
        return self.opening.blocksonly and "relay" not in self.flags(peer)

    def flags(self, peer):
        return self.sessions[peer].flags if peer in self.sessions else set()

    def refusal(self, peer):
        if peer not in self.sessions:
            return "P1"
        return None if self.sessions[peer].is_open else "P2"

    def refused(self, peer, *rules):
        """The denial of the first rule that fails; None where none does."""
        failing = [self.refusal(peer)] + [rule for rule, fails in rules if fails]
        return next((self.denied(rule, peer) for rule in failing if rule), None)

    def closes_for(self, rule, peer):
        """Whether a denial by this rule closes this peer's session."""
        return self.closes(rule) and ("noban" not in self.flags(peer) or rule == "P4")

    def denied(self, rule, peer):
        then = "close" if self.closes_for(rule, peer) else "relay" if rule == "P5" and "forcerelay" in self.flags(peer) else "keep"
        if then == "close":
            self.sessions[peer].is_open = False
        return "denied %s %s %s" % (rule, then, TOKENS[rule])

    def switch(self, name, is_on):
        self.switches[name] = is_on
        return "set"

    # --- users

    def call(self, user, now, call):
        """A call that is a request, of a method that may be unknown; `call` is what its JSON says."""
        try:
            if not self.may_call(user, call["method"]):
                return "rpc 403 denied U1 rpc-whitelist"
            if call["method"] not in self.methods():
                raise Error(404, -32601, "Method not found")
            found = getattr(self, call["method"])(now, *call.get("params", []))
            return "rpc 200 " + json_text({"error": None, "id": call.get("id"), "result": found})
        except Error as error:
            return "rpc %d %s" % (error.status, json_text({"error": error.error, "id": call.get("id"), "result": None}))

    def methods(self):
        """The methods that there are."""
        return METHODS

    def may_call(self, user, method):
        entries, default = self.opening.rpcwhitelist, self.opening.default
        methods = methods_of(entries, user)
        if methods is None:
            return not (bool(entries) if default is None else default)
        return method in methods

    def user_failing(self, tx):
        """The first rule that fails. What is in the pool passes those before A21, which stands where peers meet P5."""
        rule = self.failing(tx)
        return "A21" if rule == "P5" else rule

    def sendrawtransaction(self, now, tx):
        rule = self.user_failing(tx)
        if rule is None:
            self.sessions[None] = Session(set(FLAGS))
            reply = super().submit(None, now, tx)
            del self.sessions[None]
            rule = "A46" if reply.startswith("denied") else None
        if rule:
            raise Error(500, {"A1": -22, "A25": -25}.get(rule, -26), TOKENS[rule], rule)
        return tx.txid()

    def testmempoolaccept(self, now, made):
        """Each over the pool with those before it that are allowed. In a list of several nothing is replaced."""
        if None in made:
            raise Error(500, -22, TOKENS["A1"], "A1")
        before, told = self.pool, []
        for tx in made:
            rule = self.user_failing(tx)
            if len(made) > 1 and self.conflicts(tx) and (rule is None or 23 < int(rule[1:]) <= 47):
                rule = "A23"
            told.append(self.tested(tx, rule))
            if rule is None:
                self.pool = self.pool + [Entry(tx, self.fee(tx), self.size(tx), now)]
        self.pool = before
        return told

    def tested(self, tx, rule):
        ids = {"txid": tx.txid(), "wtxid": tx.wtxid()}
        if rule:
            return {"allowed": False, "reject-reason": "missing-inputs" if rule == "A25" else TOKENS[rule], "rule": rule, **ids}
        return {"allowed": True, "fees": {"base": self.fee(tx)}, "vsize": self.size(tx), **ids}

    def getrawmempool(self, now, verbose=False):
        return InOrder({txid: self.getmempoolentry(now, txid) for txid in self.listed(self.pool)}) if verbose else self.listed(self.pool)

    def getrawtransaction(self, now, txid, verbose=False):
        return self.entry(txid).tx.hex()

    def gettxspendingprevout(self, now, points):
        if any(point["vout"] > GREATEST_VOUT for point in points):
            raise Error(500, -32602, "Invalid params")
        spenders = {(printed(hash), index): entry.tx.txid() for entry in self.pool for hash, index in entry.spent}
        return [{**point, **{"spendingtxid": spenders[at] for at in [(point["txid"], point["vout"])] if at in spenders}} for point in points]

    def getmempoolinfo(self, now):
        relayed = self.opening["minrelaytxfee"]
        return {"bytes": size_of(self.pool), "maxmempool": self.opening.budget, "mempoolminfee": max(relayed, self.floor), "minrelaytxfee": relayed, "size": len(self.pool)}

    def getmempoolentry(self, now, txid):
        entry = self.entry(txid)
        above, below = self.above(entry.tx) | {entry}, self.below([entry])
        return {
            "ancestorcount": len(above), "ancestorfees": fees_of(above), "ancestorsize": size_of(above),
            "descendantcount": len(below), "descendantfees": fees_of(below), "descendantsize": size_of(below),
            "bip125-replaceable": any(one.signals() for one in above),
            "depends": self.listed(self.parents(entry.tx)), "spentby": self.listed(one for one in self.pool if entry.hash in one.parents),
            "fee": entry.fee, "time": entry.time, "vsize": entry.size, "weight": entry.tx.weight(), "wtxid": entry.wtxid,
        }

    def getmempoolancestors(self, now, txid):
        return self.listed(self.above(self.entry(txid).tx))

    def getmempooldescendants(self, now, txid):
        entry = self.entry(txid)
        return self.listed(self.below([entry]) - {entry})

    def entry(self, txid):
        found = [entry for entry in self.pool if entry.tx.txid() == txid]
        if not found:
            raise Error(500, -5, "Transaction not in mempool")
        return found[0]

    def listed(self, entries):
        """Their txids in the order of admission."""
        kept = set(entries)
        return [entry.tx.txid() for entry in self.pool if entry in kept]
