"""Packages that callers submit through gated: answers in the form of Bitcoin Core 29, and what the gate takes is at the node, too."""

import itertools
import json
import shutil
import tempfile
import threading
import time
import unittest

from bitcoin import Input, Output, Transaction
from gate import Differs, same, true
from hosting import until
from live import NODES, TRUTHS, Live, script_of
from model import releases
from model_node import COIN_VALUE, WITHOUT_MEMBERS, Failure, RpcError, number_hash, payment_of
from test_answering import failed, fresh
from test_following import Beside
from test_sending import CLOSED, KINDS, LISTS, SHOP, USERS, Held

from gated import forms, scripts
from gated.node import Refused, read_transaction

PACKAGES = ("--forward", "--line", "truc 1", "--line", "packages 1")
TRUC = {"truc": 1}
# a payment of one coin to one output, without witnesses
SIZE = 82
FAILED = "transaction failed"


def beside(gate, *words, **kinds):
    return Beside(gate, *PACKAGES, *words, settings=dict(TRUC), **kinds)


def version_three(it, spent, value, fee):
    """A payment of version 3 that callers may send."""
    return it.node.knows(Transaction([Input(*spent)], [Output(value - fee)], version=3))


def family(it, fee=0, of_child=5000):
    """A parent that pays so little, and its child, which pays for both."""
    parent = version_three(it, (number_hash(it.spare.pop(0)), 0), COIN_VALUE, fee)
    return [parent, version_three(it, (parent.hash(), 0), COIN_VALUE - fee, of_child)]


def hex_of(members):
    return [it.hex() for it in members]


def submits(it, members, *bounds):
    return it.gated.rpc("submitpackage", hex_of(members), *bounds)


def asked(it):
    """What the node was asked to take: whole packages, and single payments."""
    return it.node.asked.count("submitpackage"), it.node.asked.count("sendrawtransaction")


def sent_packages(it):
    """The parameters of what the node is asked from now on."""
    usual, found = it.node.do_submitpackage, []

    def submit(*params):
        if params[0]:
            found.append(list(params))
        return usual(*params)

    it.node.do_submitpackage = submit
    return found


def is_nowhere(it, openings=1):
    """Neither side has anything, and nobody has noticed."""
    same("nothing is anywhere", (it.gated.rpc("getrawmempool"), it.node.pool()), ([], {}))
    same("openings", it.gated.metric("gate_openings_total"), openings)


def test_a_parent_without_a_fee(gate):
    """A child pays for its parent: both are taken together, here and at the node, which is asked once. The same package again is
    known, and the node has it again."""
    with beside(gate) as it:
        it.open()
        parent, child = family(it)
        status, text = it.gated.raw({"method": "submitpackage", "params": {"package": hex_of([parent, child])}, "id": 1})
        # 5,000 satoshi for twice 82 virtual bytes
        fees = '"effective-feerate":0.00030487,"effective-includes":["%s","%s"]' % (parent.wtxid(), child.wtxid())
        each = '"%s":{"txid":"%s","vsize":82,"fees":{"base":%s,%s}}'
        results = ",".join(each % (one.wtxid(), one.txid(), base, fees) for one, base in ((parent, "0.00000000"), (child, "0.00005000")))
        wanted = '{"result":{"package_msg":"success","tx-results":{%s},"replaced-transactions":[]},"error":null,"id":1}\n' % results
        same("taken", (status, text), (200, wanted))
        same("the node has both", set(it.node.pool()), {parent.txid(), child.txid()})
        same("it was asked once", asked(it), (1, 0))
        it.is_alike()
        known = {one.wtxid(): {"txid": one.txid(), "vsize": SIZE, "fees": {"base": base}} for one, base in ((parent, 0), (child, 0.00005))}
        same("again", submits(it, [parent, child]), {"package_msg": "success", "tx-results": known, "replaced-transactions": []})
        same("it was asked again", asked(it), (2, 0))
        it.is_alike()
        it.agrees()
        same("openings", it.gated.metric("gate_openings_total"), 1)
        same("counted", it.gated.metric('gate_answers_total{rule="ok"}') >= 2, True)
        it.gated.end()
        it.gated.is_legal(1)


def test_packages_of_a_release(gate):
    """Beside a node of Bitcoin Core 28.0 packages are taken, and lists are packages, without a line; a line takes that away."""
    for lines, said in (((), ["package-not-sorted"] * 2), (("--line", "packages 0"), ["missing-inputs", None])):
        with Beside(gate, "--forward", *lines, release=280000, settings=releases()["core-28"]) as it:
            it.open()
            parent, child = family(it, fee=1000)
            told = it.gated.rpc("testmempoolaccept", hex_of([child, parent]))
            same("a child before its parent", [one.get("package-error", one.get("reject-reason")) for one in told], said)
            members = family(it)
            if lines:
                same("no method", failed(lambda it=it, members=members: submits(it, members)), (404, -32601, "Method not found"))
            else:
                same("taken", submits(it, members)["package_msg"], "success")
            it.is_alike()
            it.gated.end()
            it.gated.is_legal(1)


def test_a_package_that_the_node_has_lost(gate):
    """What the gate has already is handed to the node again."""
    with beside(gate) as it:
        it.open()
        members = family(it)
        submits(it, members)
        it.is_alike()
        with it.node.lock:
            it.node.model.pool.clear()
        same("again", submits(it, members)["package_msg"], "success")
        it.is_alike()
        same("openings", it.gated.metric("gate_openings_total"), 1)


def test_members_by_themselves(gate):
    """Each member that pays for itself has its own feerate; one that the gate has with another witness is named; what is replaced
    is listed; and what spends an entry of the node's pool that the gate wasn't given yet finds it."""
    with beside(gate, "--check", "3600") as it:
        it.open()
        parent = fresh(it, fee=1000)
        child = it.node.knows(payment_of((parent.hash(), 0), COIN_VALUE - 1000, 2000))
        own = {
            one.wtxid(): {"txid": one.txid(), "vsize": SIZE, "fees": {"base": base, "effective-feerate": rate, "effective-includes": [one.wtxid()]}}
            for one, base, rate in ((parent, 0.00001, 0.00012195), (child, 0.00002, 0.0002439))
        }
        same("by themselves", submits(it, [parent, child]), {"package_msg": "success", "tx-results": own, "replaced-transactions": []})
        other = it.node.knows(Transaction([Input(parent.inputs[0].hash, 0, sequence=0xFFFFFFFD, witness=[b"\x01"])], parent.outputs))
        told = submits(it, [other, child])
        same("another witness", told["tx-results"][other.wtxid()], {"txid": parent.txid(), "other-wtxid": parent.wtxid()})
        same("its child is known", told["tx-results"][child.wtxid()]["fees"], {"base": 0.00002})
        # what is announced once it is replaced would be a difference
        until("what the node announced is taken in", lambda: it.gated.metric("gate_agreements_total") == 2)
        better = it.node.knows(payment_of((parent.hash(), 0), COIN_VALUE - 1000, 9000))
        same("replaced", submits(it, [better])["replaced-transactions"], [child.txid()])
        same("the node has it", set(it.node.pool()), {parent.txid(), better.txid()})
        last = it.pay()
        told = submits(it, [it.node.knows(payment_of((last.hash(), 0), COIN_VALUE - 1000, 1000))])
        same("a child of the node's own", told["package_msg"], "success")
        it.is_alike()
        it.agrees()
        same("openings", it.gated.metric("gate_openings_total"), 1)
        it.gated.end()
        it.gated.is_legal(1)


def test_what_the_gate_denies_of_a_package(gate):
    """A member that pays for itself is taken though its child is denied, and it alone is handed to the node; of what is denied
    altogether the node hears nothing."""
    with beside(gate) as it:
        it.open()
        parent = fresh(it)
        dust = it.node.knows(Transaction([Input(parent.hash(), 0)], [Output(1), Output(COIN_VALUE - 9000)]))
        told = submits(it, [parent, dust])
        same("message", told["package_msg"], FAILED)
        same("the parent", told["tx-results"][parent.wtxid()]["fees"]["base"], 0.00001)
        same("the child", told["tx-results"][dust.wtxid()], {"txid": dust.txid(), "error": "dust", "rule": "A17"})
        same("the node has the parent", set(it.node.pool()), {parent.txid()})
        same("by itself", asked(it), (0, 1))
        same("counted", it.gated.metric('gate_answers_total{rule="A17"}'), 1)
        poor = family(it, of_child=163)
        told = submits(it, poor)
        same("too poor", [(one["error"], one["rule"]) for one in told["tx-results"].values()], [("min relay fee not met", "A35")] * 2)
        twice = fresh(it)
        alike = it.node.knows(payment_of((twice.inputs[0].hash, 0), COIN_VALUE, 2000))
        both = it.node.knows(Transaction([Input(twice.hash(), 0), Input(alike.hash(), 0)], [Output(COIN_VALUE)]))
        told = submits(it, [twice, alike, both])
        same("in conflict", told, {"package_msg": "conflict-in-package", "tx-results": {}, "replaced-transactions": [], "rule": "J6"})
        same("counted", it.gated.metric('gate_answers_total{rule="J6"}'), 1)
        same("no more was handed on", asked(it), (0, 1))
        it.is_alike()
        it.agrees()
        it.gated.end()
        it.gated.is_legal(1)


def test_parameters_of_a_package(gate):
    """What is wrong with them, in Core's words and with its codes, before anything is handed on."""
    with beside(gate) as it:
        it.open()
        it.node.do_help = lambda method="": "submitpackage [\"rawtx\",...] ( maxfeerate maxburnamount )"
        members = family(it)
        listed = hex_of(members)
        for wrong in ([], listed * 13):
            same("%d of them" % len(wrong), failed(lambda wrong=wrong: it.gated.rpc("submitpackage", wrong)), (500, -8, "Array must contain between 1 and 25 transactions."))
        same("no text", failed(lambda: it.gated.rpc("submitpackage", [1])), (500, -3, "JSON value of type number is not of expected type string"))
        message = 'Wrong type passed:\n{\n    "Position 1 (package)": "JSON value of type string is not of expected type array"\n}'
        same("no list", failed(lambda: it.gated.rpc("submitpackage", "00")), (500, -3, message))
        same("too many", failed(lambda: it.gated.rpc("submitpackage", listed, 0, 0, 0)), (500, -1, "submitpackage [\"rawtx\",...] ( maxfeerate maxburnamount )"))
        same("no transaction", failed(lambda: it.gated.rpc("submitpackage", [listed[0], "zz"])), (500, -22, "TX decode failed. Make sure the tx has at least one input."))
        for rate, code, message in ((1, -8, "Fee rates larger than or equal to 1BTC/kvB are not accepted"), ("x", -3, "Invalid amount"), (-1, -3, "Amount out of range"), ([], -3, "Amount is not a number or string")):
            same("rate %r" % (rate,), failed(lambda rate=rate: it.gated.rpc("submitpackage", listed, rate)), (500, code, message))
        same("burnt", failed(lambda: it.gated.rpc("submitpackage", listed, None, "21000000.1")), (500, -3, "Amount out of range"))
        message = "package topology disallowed. not child-with-parents or parents depend on each other."
        same("child first", failed(lambda: it.gated.rpc("submitpackage", listed[::-1])), (500, -25, message))
        is_nowhere(it)
        same("nothing is handed on", asked(it), (0, 0))
        it.gated.end()
        it.gated.is_legal(1)


def test_bounds_of_a_package(gate):
    """A caller's bounds, in BTC: 0.10 for 1,000 virtual bytes and nothing burnt, if the caller doesn't say otherwise. The node gets
    them as they were given."""
    with beside(gate) as it:
        it.open()
        found, high = sent_packages(it), fresh(it, fee=820_001)
        denied = {"txid": high.txid(), "error": "max feerate exceeded", "rule": "A50"}
        for bounds in ((), (None,), ("0.1",), ("0.00999999", 0)):
            same("bounded by %s" % (bounds,), submits(it, [high], *bounds)["tx-results"], {high.wtxid(): denied})
        same("within a bound of its own", submits(it, [high], "0.10000013")["package_msg"], "success")
        other = fresh(it, fee=2_000_000)
        same("no bound", submits(it, [other], 0)["package_msg"], "success")
        # an output that nobody can spend
        burn = it.node.knows(Transaction([Input(number_hash(it.spare.pop(0)))], [Output(1000, b"\x6a\x01\x41"), Output(COIN_VALUE - 2000)]))
        message = "Unspendable output exceeds maximum configured by user (maxburnamount)"
        for bounds in ((), (0,), (None, "0.00000999")):
            same("burnt, %s" % (bounds,), failed(lambda bounds=bounds: submits(it, [burn], *bounds)), (500, -25, message))
        same("allowed", submits(it, [burn], None, "0.00001")["package_msg"], "success")
        same("as they were given", found, [[[high.hex()], "0.10000013"], [[other.hex()], "0"], [[burn.hex()], None, "0.00001"]])
        it.is_alike()
        it.agrees()


def test_where_no_package_is_taken(gate):
    """A gate without packages has no such method, whatever is given; without --forward it is off; and who may not call it may
    not."""
    with Beside(gate, "--forward") as it:
        it.open()
        for params in ((["00"],), ([],), ("x",), ()):
            same("no packages: %s" % (params,), failed(lambda params=params: it.gated.rpc("submitpackage", *params)), (404, -32601, "Method not found"))
        same("the node isn't asked", [name for name in it.node.asked if name.startswith("submitpackage")], [])
        it.gated.end()
        it.gated.is_legal(1)
    with Beside(gate, *PACKAGES[1:]) as it:
        it.gated.start()
        same("off", failed(lambda: it.gated.rpc("submitpackage", ["00"])), (500, -1, "submitpackage is off: gated was started without --forward"))
    with beside(gate, *USERS, *LISTS) as it:
        it.gated.start()
        status, text = it.gated.raw({"method": "submitpackage", "params": [], "id": 1}, authorization=SHOP)
        same("not on the list", (status, json.loads(text)["error"]), (403, {"code": -2, "message": "rpc-whitelist", "rule": "U1"}))


def test_answers_in_satoshi(gate):
    """The gate's own form, if it is asked for."""
    with beside(gate, "--satoshi") as it:
        it.gated.start()
        one = fresh(it, fee=820)
        fees = {"base": 820, "effective-feerate": 10_000, "effective-includes": [one.wtxid()]}
        same("satoshi", submits(it, [one])["tx-results"], {one.wtxid(): {"txid": one.txid(), "vsize": SIZE, "fees": fees}})


def test_scripts_of_members(gate):
    """No script that the node doesn't hold good, or doesn't run, is held good by the gate; the node isn't handed such a package."""
    with beside(gate) as it:
        it.open()
        for place in (0, 1):
            members = family(it)
            it.node.model.opening.verdicts[(members[place].wtxid(), 0)] = "hard"
            told = submits(it, members)
            same("message", told["package_msg"], FAILED)
            same("not met", told["tx-results"][members[place].wtxid()]["error"], "verdict-missing, the node says: Witness program hash mismatch")
        members = family(it)
        method = "signrawtransactionwithkey"
        # it may put together another transaction whose scripts are met
        it.node.wrong[method] = lambda found: {**found, "result": {"hex": members[0].hex()[:-2] + "01", "complete": True}}
        told = submits(it, members)["tx-results"]
        same("another transaction", told[members[0].wtxid()], {"txid": members[0].txid(), "error": "verdict-missing, the node says: the scripts are not met", "rule": "A43"})
        it.node.wrong[method] = lambda found: {**found, "result": None, "error": {"code": -32601, "message": "Method not found"}}
        same("no such method", submits(it, members)["tx-results"][members[0].wtxid()]["error"], "verdict-missing, the node says: Method not found")
        it.node.wrong[method] = lambda found: {**found, "result": "00"}
        same("of no use", failed(lambda: submits(it, members))[:2], (500, -1))
        is_nowhere(it)
        same("nothing was handed on", asked(it), (0, 0))
        it.node.wrong.clear()
        same("now they are met", submits(it, members)["package_msg"], "success")
        it.is_alike()
        it.agrees()


def test_a_node_without_packages(gate):
    """It is asked before the gate is: the caller gets its words, the log says it, and the gate has nothing."""
    with beside(gate) as it:
        it.open()
        members = family(it)
        it.node.takes_packages = False
        same("no method", failed(lambda: submits(it, members)), (404, -32601, "Method not found"))
        true("the log says it", any("the node takes no packages: Method not found" in line for line in it.gated.lines()))
        it.node.wrong[WITHOUT_MEMBERS] = lambda found: {**found, "result": {"package_msg": "success"}, "error": None}
        same("a node that takes nothing for a package", failed(lambda: submits(it, members))[:2], (500, -1))
        is_nowhere(it)
        same("nothing was handed on", asked(it), (0, 0))


def test_a_package_that_the_node_refuses(gate):
    """What the gate takes and the node refuses is told in the node's words and counted, and the gate is opened anew without it: of
    a whole package, and of a child whose parent the node has."""
    limits = "package-mempool-limits, possibly exceeds descendant size limit for tx ab [limit: 101000]"
    with beside(gate) as it:
        it.open()
        usual, members = it.node.do_submitpackage, family(it)
        it.node.do_submitpackage = lambda listed, *_: {"package_msg": limits, "tx-results": {}, "replaced-transactions": []} if listed else usual([])
        same("refused", failed(lambda: submits(it, members)), (500, -26, limits))
        it.opened(2)
        is_nowhere(it, 2)
        same("differences", it.gated.differences(), {"node": 2})
        parent = fresh(it)
        child = it.node.knows(payment_of((parent.hash(), 0), COIN_VALUE - 1000, 2000))

        def half(listed, *_):
            if not listed:
                return usual([])
            found = usual(listed[:1])
            return {**found, "package_msg": FAILED, "tx-results": {**found["tx-results"], child.wtxid(): {"txid": child.txid(), "error": "non-final"}}}

        it.node.do_submitpackage = half
        same("its child", failed(lambda: submits(it, [parent, child])), (500, -26, "non-final"))
        it.opened(3)
        until("the gate has the parent", lambda: it.gated.listing() == {parent.txid()})
        same("differences", it.gated.differences(), {"node": 3})

        def refuse(listed, *_):
            raise RpcError(-25, "too bad") if listed else RpcError(-8, "empty")

        it.node.do_submitpackage = refuse
        same("an error", failed(lambda: submits(it, family(it))), (500, -25, "too bad"))
        it.opened(4)
        it.gated.end()
        it.gated.is_legal(4)


def test_a_node_that_counts_otherwise(gate):
    """A node that takes a package with another fee or another virtual size has taken it; the difference is counted. Of figures that
    it doesn't give nothing is said."""
    with beside(gate) as it:
        it.open()
        for number, (name, value) in enumerate((("vsize", 83), ("fees", {"base": 0.00000001}), ("fees", {}), ("vsize", "x"))):
            members = family(it)

            def other(found, members=members, name=name, value=value):
                found["result"]["tx-results"][members[0].wtxid()][name] = value
                return found

            it.node.wrong["submitpackage"] = other
            same("taken", submits(it, members)["package_msg"], "success")
            same("differences after %d" % number, it.gated.differences().get("fee", 0), (1, 2, 2, 3)[number])
        it.node.wrong.clear()
        it.is_alike()
        same("openings", it.gated.metric("gate_openings_total"), 1)


def test_a_member_that_the_node_refuses(gate):
    """Of members that the gate took by themselves, those behind one that the node refuses are handed on, too."""
    with beside(gate) as it:
        it.open()
        first, second = fresh(it), fresh(it)
        dust = it.node.knows(Transaction([Input(first.hash(), 0), Input(second.hash(), 0)], [Output(1), Output(COIN_VALUE)]))
        usual = it.node.do_sendrawtransaction

        def refuse(digits, *bounds):
            if digits == first.hex():
                raise RpcError(-26, "too bad")
            return usual(digits, *bounds)

        it.node.do_sendrawtransaction = refuse
        same("refused", failed(lambda: submits(it, [first, second, dust])), (500, -26, "too bad"))
        same("the node has the other", set(it.node.pool()), {second.txid()})
        it.opened(2)
        it.is_alike()


def test_an_answer_to_a_package_that_is_lost_once(gate):
    """Each way in which the node's answer can get lost, before the node took the package and after: it is asked again."""
    with beside(gate, "--timeout", "1") as it:
        it.open()
        for kind, is_done in itertools.product(KINDS, (False, True)):
            members = family(it)
            it.node.failures["submitpackage"] = Failure(kind, is_done, times=2)
            same("%s, %s" % (kind, is_done), submits(it, members)["package_msg"], "success")
            true("the node has it", {one.txid() for one in members} <= set(it.node.pool()))
        it.is_alike()
        it.agrees()
        same("openings", it.gated.metric("gate_openings_total"), 1)
        it.gated.end()
        it.gated.is_legal(1)


UNKNOWN = (500, -28, "whether the node has the package is not known: send it again")


def test_an_answer_to_a_package_that_stays_lost(gate):
    """The same if it stays so: the caller is told that the outcome isn't known, the gate is opened anew, and what the caller submits
    again is at both."""
    with beside(gate, "--timeout", "0.5") as it:
        it.open()
        openings = itertools.count(2)
        for kind, is_done in itertools.product(KINDS, (False, True)):
            members = family(it)
            it.node.failures["submitpackage"] = Failure(kind, is_done)
            same("%s, %s" % (kind, is_done), failed(lambda members=members: submits(it, members)), UNKNOWN)
            it.node.failures.clear()
            it.opened(next(openings))
            until("submitted again", lambda members=members: submitted_or_none(it, members) == "success")
            true("the node has it", {one.txid() for one in members} <= set(it.node.pool()))
        it.gated.end()
        it.gated.is_legal(None)


def test_an_answer_that_is_none_to_a_package(gate):
    """A node that answers by another form, or doesn't name each member, has not said that it has the package."""
    with beside(gate) as it:
        it.open()
        openings, members = itertools.count(2), family(it)
        for odd in (None, {}, {"package_msg": "success", "tx-results": {}}, {"package_msg": "success", "tx-results": {it.wtxid(): {"txid": "00" * 32} for it in members}}):
            it.node.wrong["submitpackage"] = lambda found, odd=odd: {**found, "result": odd}
            same("%r" % (odd,), failed(lambda: submits(it, members)), UNKNOWN)
            it.node.wrong.clear()
            it.opened(next(openings))
        until("submitted again", lambda: submitted_or_none(it, members) == "success")
        it.is_alike()


def test_packages_that_contradict_each_other(gate):
    """While the node hasn't answered to a package, another one of the same coin, which pays more, waits: the node gets both in the
    gate's order, and takes both."""
    with beside(gate) as it:
        it.open()
        coin = (number_hash(it.spare.pop(0)), 0)
        parents = [it.node.knows(payment_of(coin, COIN_VALUE, fee)) for fee in (1000, 9000)]
        pairs = [[one, it.node.knows(payment_of((one.hash(), 0), one.outputs[0].value, 1000))] for one in parents]
        held = it.node.failures["submitpackage"] = Held()
        told = {}

        def begins(number):
            thread = threading.Thread(target=lambda: told.update({number: submits(it, pairs[number])["package_msg"]}))
            thread.start()
            until("the node is asked whether it takes packages", lambda: it.node.asked.count(WITHOUT_MEMBERS) > number)
            return thread

        them = [begins(0)]
        try:
            until("it is handed on", lambda: not held.times)
            them.append(begins(1))
            time.sleep(0.5)
            same("both wait", told, {})
        finally:
            held.may_go.set()
            for thread in them:
                thread.join()
        same("both were taken", told, {0: "success", 1: "success"})
        same("the one that pays more is left", set(it.node.pool()), {one.txid() for one in pairs[1]})
        it.is_alike()
        same("openings", it.gated.metric("gate_openings_total"), 1)


def submitted_or_none(it, members):
    try:
        return submits(it, members)["package_msg"]
    except Exception as error:
        same("the gate is opened", getattr(error, "error", {}).get("message"), CLOSED)
        return None


def test_beside_a_running_node_with_packages_or_none(gate):
    """What a node of this machine says of scripts, met and not, also over outputs that it doesn't know; and a package: taken by
    both, or, if the node has no packages, by neither, with the node's words."""
    program = next(filter(None, map(shutil.which, NODES)), None)
    if program is None:
        raise unittest.SkipTest("none of %s is on this machine" % ", ".join(NODES))
    with tempfile.TemporaryDirectory(prefix="gated-packages-") as folder:
        live = Live(gate, program, folder)
        try:
            live.start()
            live.gated.words += PACKAGES[1:]
            scripts_beside(live.node, *live.first[:2])
            with live.gated:
                package_beside(live, live.first[2])
        finally:
            live.node.stop()


def scripts_beside(node, coin, other):
    """A parent and a child that spends each kind of its outputs, and what is wrong with either."""
    truth = TRUTHS[0]
    wrapped = node.ask("decodescript", truth.hex())
    hashed = [bytes.fromhex(node.ask("validateaddress", it)["scriptPubKey"]) for it in (wrapped["p2sh"], wrapped["segwit"]["p2sh-segwit"])]
    paid = [Output(10_000_000, it) for it in (script_of(truth), *hashed)]
    parent = Transaction([coin.input()], paid)
    push = [b"", b"\x01" + truth, b"\x22" + script_of(truth)]
    witnesses = [[truth], [], [truth]]

    def child(at=None, script=b"", witness=(b"\x00",)):
        """The child, with another input at this place."""
        each = [(it, own) if index != at else (script, list(witness)) for index, (it, own) in enumerate(zip(push, witnesses))]
        inputs = [Input(parent.hash(), index, *spent[:1], 0xFFFFFFFD, spent[1]) for index, spent in enumerate(each)]
        return Transaction([*inputs, other.input()], [Output(1_000_000, script_of(truth))])

    def why_not(tx, *members):
        one = read_transaction(tx.hex())
        try:
            told = node.ask(scripts.METHOD, *json.loads(forms.text_of(scripts.question(one, [read_transaction(it.hex()) for it in members]))))
        except Differs as error:
            told = Refused(str(error))
        return scripts.why_not(one, told)

    same("a parent", why_not(parent, parent), "")
    same("its child", why_not(child(), parent, child()), "")
    true("not without the parent", why_not(child()))
    for at, script in enumerate(push):
        true("another script at %d" % at, why_not(child(at, script), parent) if witnesses[at] else why_not(child(at, b"\x01\x00", ()), parent))
    bad = Transaction([coin.input(truth=b"\x00")], paid)
    true("another script of the chain's", why_not(bad, bad))


def package_beside(live, coin):
    """A child that pays for its parent."""
    parent = Transaction([coin.input()], [Output(coin.value, script_of(coin.truth))], version=3)
    child = Transaction([Input(parent.hash(), witness=[coin.truth])], [Output(coin.value - 5000, script_of(coin.truth))], version=3)
    try:
        live.node.ask("submitpackage", [])
    except Differs as error:
        has_none = "Method not found" in str(error)
    if has_none:
        same("no method", failed(lambda: submits(live, [parent, child])), (404, -32601, "Method not found"))
        same("nothing is anywhere", (live.gated.rpc("getrawmempool"), live.node.ask("getrawmempool")), ([], []))
    else:
        same("taken", submits(live, [parent, child])["package_msg"], "success")
        same("at the node", set(live.node.ask("getrawmempool")), {parent.txid(), child.txid()})
        live.alike()
    same("differences", live.gated.differences(), {})
