"""Payments that callers send through gated: each is at the node and at the gate in the end, or at neither, whatever becomes of the
node's answer; and what one caller sends stops no other."""

import itertools
import json
import os
import threading
import time
from collections import Counter

from bitcoin import Input, Output, Transaction
from gate import same, true
from hosting import RpcFailed, until
from model_node import COIN_VALUE, SENDING_HELP, WITHOUT_COINS, Failure, RpcError, number_hash, payment_of
from test_answering import basic, failed, fresh, rpcauth
from test_following import Beside

CLOSED = "The gate is being opened from its node: try again"
KINDS = ("busy", "cut", "late", "odd")
USERS = ("--rpcauth", rpcauth("shop", "secret"), "--rpcauth", rpcauth("viewer", "other"))
LISTS = ("--line", "rpcwhitelist shop:sendrawtransaction,testmempoolaccept", "--line", "rpcwhitelist viewer:getmempoolinfo", "--line", "rpcwhitelistdefault 0")
# a list of one user's is none of the others' as long as the default is off
SHOP, VIEWER = basic("shop", "secret"), basic("viewer", "other")


def sends(it, tx, *bounds, authorization=SHOP):
    """The status, and the result or the error, of a payment that a user sends."""
    status, text = it.gated.raw({"method": "sendrawtransaction", "params": [tx.hex(), *bounds], "id": 1}, authorization=authorization)
    told = json.loads(text)
    return status, told["result"] if told["error"] is None else told["error"]


class Viewer(threading.Thread):
    """A user who asks again and again, and counts what is answered."""

    def __init__(self, it):
        super().__init__(daemon=True)
        self.it, self.statuses, self.messages, self.is_over = it, {}, set(), threading.Event()

    def run(self):
        while not self.is_over.is_set():
            status, text = self.it.gated.raw({"method": "getmempoolinfo", "id": 1}, authorization=VIEWER)
            self.statuses[status] = self.statuses.get(status, 0) + 1
            if status != 200:
                self.messages.add(json.loads(text)["error"]["message"])
            self.is_over.wait(0.02)

    def __enter__(self):
        self.start()
        return self

    def __exit__(self, *failed):
        self.is_over.set()
        self.join()


def test_an_answer_that_is_lost_once(gate):
    """Each way in which the node's answer to a payment can get lost, before the node took it and after: it is asked again, the
    caller gets the txid, and the gate is not opened anew."""
    with Beside(gate, "--forward", "--timeout", "1") as it:
        it.open()
        for kind, is_done in itertools.product(KINDS, (False, True)):
            one = fresh(it)
            it.node.failures["sendrawtransaction"] = Failure(kind, is_done, times=2)
            same("%s, %s" % (kind, is_done), it.gated.rpc("sendrawtransaction", one.hex()), one.txid())
            true("the node has it", one.txid() in it.node.pool())
        it.is_alike()
        it.agrees()
        same("openings", it.gated.metric("gate_openings_total"), 1)
        it.gated.end()
        it.gated.is_legal(1)


def test_an_answer_that_stays_lost(gate):
    """The same if it stays so: the caller is told that the outcome isn't known, the gate is opened anew, and what the caller sends
    again is at both."""
    with Beside(gate, "--forward", "--timeout", "0.5") as it:
        it.open()
        openings = itertools.count(2)
        for kind, is_done in itertools.product(KINDS, (False, True)):
            one = fresh(it)
            it.node.failures["sendrawtransaction"] = Failure(kind, is_done)
            wanted = (500, -28, "whether the node has the transaction is not known: send it again")
            same("%s, %s" % (kind, is_done), failed(lambda one=one: it.gated.rpc("sendrawtransaction", one.hex())), wanted)
            it.node.failures.clear()
            it.opened(next(openings))
            until("the gate has what the node has", lambda: it.gated.listing() == set(it.node.pool()))
            same("it is there if the node took it", one.txid() in it.gated.listing(), is_done)
            same("sent again", it.gated.rpc("sendrawtransaction", one.hex()), one.txid())
            true("the node has it", one.txid() in it.node.pool())
            it.is_alike()
        it.gated.end()
        it.gated.is_legal(None)


def test_an_answer_of_another_transaction(gate):
    """A node that answers by another txid, or by nothing, has not said that it has the transaction."""
    with Beside(gate, "--forward") as it:
        it.open()
        for openings, odd in enumerate((None, "00" * 32, 7, {}), 2):
            one = fresh(it)
            it.node.wrong["sendrawtransaction"] = lambda found, odd=odd: {**found, "result": odd}
            same("%r" % (odd,), failed(lambda one=one: it.gated.rpc("sendrawtransaction", one.hex()))[:2], (500, -28))
            it.node.wrong.clear()
            it.opened(openings)
            until("sent again", lambda one=one: sent_or_none(it, one) == one.txid())
            it.is_alike()


def sent_or_none(it, tx):
    try:
        return it.gated.rpc("sendrawtransaction", tx.hex())
    except RpcFailed:
        return None


def test_what_is_known_already(gate):
    """A transaction that the gate has is asked of the node again, and answered by its txid, as a node does; the node takes one that
    it had lost. So is one that the gate has with another witness."""
    with Beside(gate, "--forward") as it:
        it.open()
        one = it.pay()
        it.is_alike()
        it.node.knows(one)
        with it.node.lock:
            it.node.model.pool.clear()
        true("the gate has it, and the node not", it.gated.listing() == {one.txid()} and not it.node.pool())
        same("sent again", it.gated.rpc("sendrawtransaction", one.hex()), one.txid())
        true("the node has it", one.txid() in it.node.pool())
        same("it was asked", it.node.asked.count("sendrawtransaction"), 1)
        other = it.node.knows(Transaction([Input(one.inputs[0].hash, 0, sequence=0xFFFFFFFD, witness=[b"\x01"])], one.outputs))
        same("another witness", (other.txid(), other.wtxid() == one.wtxid()), (one.txid(), False))
        same("its txid", it.gated.rpc("sendrawtransaction", other.hex()), one.txid())
        it.is_alike()
        it.agrees()
        same("openings", it.gated.metric("gate_openings_total"), 1)


def burn(it, value=1000):
    """A payment with an output that nobody can spend."""
    hash = number_hash(it.spare.pop(0))
    return it.node.knows(Transaction([Input(hash, 0, sequence=0xFFFFFFFD)], [Output(value, b"\x6a\x01\x41"), Output(COIN_VALUE - value - 1000)]))


def test_burns(gate):
    """What burns more than its caller allows the node refuses before the gate has it: the bound is the node's to look at. Nobody
    else notices."""
    with Beside(gate, "--forward", *USERS, *LISTS, release=250000) as it:
        it.gated.start()
        with Viewer(it) as viewer:
            for bounds in ((), (None, None), ("0.1", 0), (0, "0.00000999")):
                for _ in range(2):
                    status, error = sends(it, burn(it), *bounds)
                    same("refused with %s" % (bounds,), (status, error["code"], error["message"]), (500, -25, "Unspendable output exceeds maximum configured by user (maxburnamount)"))
            one = burn(it)
            same("allowed", sends(it, one, None, "0.00001"), (200, one.txid()))
        same("what others got", (set(viewer.statuses), viewer.messages), ({200}, set()))
        same("the node has one", set(it.node.pool()), {one.txid()})
        same("it was sent one", it.node.asked.count("sendrawtransaction"), 1)
        same("openings", it.gated.metric("gate_openings_total"), 1)
        it.agrees()


def test_burns_beside_an_older_node(gate):
    """A node before Bitcoin Core 25.0 has no such bound: without one nothing is refused, and whoever gives one gets its help."""
    with Beside(gate, "--forward") as it:
        it.open()
        one, other = burn(it), burn(it)
        same("without", it.gated.rpc("sendrawtransaction", one.hex()), one.txid())
        same("with a bound", failed(lambda: it.gated.rpc("sendrawtransaction", other.hex(), None, 1)), (500, -1, SENDING_HELP))
        it.is_alike()
        same("the pool", it.gated.rpc("getrawmempool"), [one.txid()])
        same("openings", it.gated.metric("gate_openings_total"), 1)


def test_a_node_that_takes_what_has_no_coins(gate):
    """A node that answers the question about what is burnt by a txid can't be trusted with a payment: it isn't sent."""
    with Beside(gate, "--forward") as it:
        it.open()
        one = fresh(it)
        it.node.wrong[WITHOUT_COINS] = lambda found: {**found, "result": "00" * 32, "error": None}
        same("not sent", failed(lambda: it.gated.rpc("sendrawtransaction", one.hex()))[:2], (500, -1))
        same("nothing is anywhere", (it.gated.rpc("getrawmempool"), it.node.pool()), ([], {}))


def test_what_the_node_would_refuse(gate):
    """The node is asked before the gate has a payment: what it refuses for a reason of its own is refused in its words, and
    nobody else notices."""
    with Beside(gate, "--forward", *USERS, *LISTS) as it:
        it.gated.start()
        with Viewer(it) as viewer:
            for _ in range(5):
                one = fresh(it)
                # a gate that knows the verdict on its scripts would take it
                same("tried", it.gated.rpc("testmempoolaccept", [one.hex()])[0]["allowed"], True)
                it.node.model.alone = lambda tx: iter(["A17"])
                status, error = sends(it, one)
                same("refused", (status, error["code"], error["message"]), (500, -26, "dust"))
                del it.node.model.alone
        same("what others got", set(viewer.statuses), {200})
        same("nothing is anywhere", (it.node.asked.count("sendrawtransaction"), it.node.pool()), (0, {}))
        same("openings", it.gated.metric("gate_openings_total"), 1)
        same("differences", it.gated.differences(), {"node": 5})


class Counted:
    """How often the node's pool was listed for callers: what follows it asks for the number of its messages, too."""

    def __init__(self, node):
        self.usual, self.count = node.do_getrawmempool, 0
        node.do_getrawmempool = self

    def __call__(self, *given):
        self.count += not given
        return self.usual(*given)


def said_at_last(run):
    """A result, or the message of an error, once the gate doesn't wait for its node."""
    while True:
        try:
            return run()
        except RpcFailed as error:
            if error.error["code"] != -28:
                return error.error["message"]


def test_callers_who_differ_again_and_again(gate):
    """Callers try and send what the gate would take and the node refuses: each is answered, and the node lists its pool seldom,
    however many they are."""
    with Beside(gate, "--forward") as it:
        it.open()
        for _ in range(5):
            it.pay()
        them, answers, listed = [fresh(it) for _ in range(24)], Counter(), Counted(it.node)
        it.node.model.alone = lambda tx: iter(["A17"])
        began = time.monotonic()

        def calls(own):
            for one in own:
                answers[said_at_last(lambda one=one: it.gated.rpc("testmempoolaccept", [one.hex()])[0]["reject-details"])] += 1
                answers[said_at_last(lambda one=one: it.gated.rpc("sendrawtransaction", one.hex()))] += 1

        threads = [threading.Thread(target=calls, args=(them[number::12],)) for number in range(12)]
        for thread in threads:
            thread.start()
        for thread in threads:
            thread.join()
        seconds = time.monotonic() - began
        # no script was judged, so both say no
        same("answers", answers, {"verdict-missing, the node says: dust": 2 * len(them)})
        true("%d listings in %.1f seconds" % (listed.count, seconds), 1 <= listed.count <= 2 + seconds)
        same("openings", it.gated.metric("gate_openings_total"), 1)


class Held:
    """The next answer of a method is held back, and then it is that of a busy node, which is asked again."""

    is_done, times = False, 1

    def __init__(self):
        self.may_go = threading.Event()

    def answer(self):
        self.may_go.wait(60)
        return 503, b"Work queue depth exceeded"


def test_nobody_waits_for_who_differs(gate):
    """While a payment that the node refuses waits for the listing that may explain it, others are sent."""
    with Beside(gate, "--forward", "--check", "3600") as it:
        it.open()
        one, other, usual = fresh(it), fresh(it), it.node.model.alone
        same("tried", it.gated.rpc("testmempoolaccept", [one.hex()])[0]["allowed"], True)
        it.node.model.alone = lambda tx: iter(["A17"]) if tx.txid() == one.txid() else usual(tx)
        held = it.node.failures["getrawmempool"] = Held()
        said = []
        thread = threading.Thread(target=lambda: said.append(failed(lambda: it.gated.rpc("sendrawtransaction", one.hex()))))
        thread.start()
        try:
            until("it waits for the listing", lambda: not held.times)
            same("another one", it.gated.rpc("sendrawtransaction", other.hex()), other.txid())
            same("the first one waits", said, [])
        finally:
            held.may_go.set()
            thread.join()
        # a busy machine may take longer than it waits
        true("refused: %s" % said, said[0] in ((500, -26, "dust"), (500, -28, CLOSED), (500, -28, "The gate waits for its node: try again")))
        it.is_alike()


def test_what_others_are_told(gate):
    """If the gate is opened anew for what one caller sent, others are told that it is being opened, and nothing of whom."""
    with Beside(gate, "--forward", *USERS, *LISTS) as it:
        it.gated.start()
        for _ in range(5):
            it.pay()

        def refuse(*_):
            raise RpcError(-26, "too bad")

        it.node.do_sendrawtransaction = refuse
        one = fresh(it)
        with Viewer(it) as viewer:
            status, error = sends(it, one)
            same("refused", (status, error["message"]), (500, "too bad"))
            # an opening takes so long that others notice
            it.node.late = 0.1
            until("others are told", lambda: viewer.messages)
            it.node.late = 0.0
            it.opened(2)
        same("what they are told", viewer.messages, {"The gate is being opened from its node: try again"})


def test_two_that_contradict_each_other(gate):
    """Pairs of payments of one coin, sent at once: the node gets them in the gate's order, so nothing is opened anew."""
    with Beside(gate, "--forward") as it:
        it.open()
        for _ in range(5):
            hash = number_hash(it.spare.pop(0))
            pair = [it.node.knows(payment_of((hash, 0), COIN_VALUE, fee)) for fee in (1000, 9000)]
            answers = {}
            them = [threading.Thread(target=lambda tx=tx: answers.update({tx.txid(): sent_or_none(it, tx)})) for tx in pair]
            for thread in them:
                thread.start()
            for thread in them:
                thread.join()
            true("the one that pays more is taken: %s" % answers, answers[pair[1].txid()] == pair[1].txid())
        it.is_alike()
        same("openings", it.gated.metric("gate_openings_total"), 1)


def test_a_node_that_hangs(gate):
    """While the node gives no answer at all, a gate that is closed for it says so at once to whoever tries a transaction or sends
    one, and those payments that waited behind another are told, too, each without a question to the node."""
    with Beside(gate, "--forward", "--timeout", "3") as it:
        it.open()
        paid, said = [fresh(it) for _ in range(12)], []
        same("tried", it.gated.rpc("testmempoolaccept", [paid[0].hex()])[0]["allowed"], True)
        it.node.failures["testmempoolaccept"] = Failure("late")
        them = [threading.Thread(target=lambda one=one: said.append(failed(lambda: it.gated.rpc("sendrawtransaction", one.hex())))) for one in paid]
        for thread in them:
            thread.start()
        until("all have been asked about what they burn", lambda: it.node.asked.count(WITHOUT_COINS) == len(paid))
        it.node.late = 60.0
        until("the gate is closed", lambda: any("opening the gate anew: the node does not answer" in line for line in it.gated.lines()))
        for method, one in (("testmempoolaccept", [paid[0].hex()]), ("sendrawtransaction", paid[0].hex())):
            same(method, failed(lambda method=method, one=one: it.gated.rpc(method, one)), (500, -28, CLOSED))
        for thread in them:
            thread.join()
        # all but those that the node was asked about before the gate closed; their answers come in any order
        true("those that waited: %s" % said, said.count((500, -28, CLOSED)) >= len(paid) - 4)
        it.node.late = 0.0
        it.node.failures.clear()
        it.is_alike()
        for one in paid:
            same("sent again", it.gated.rpc("sendrawtransaction", one.hex()), one.txid())
        it.is_alike()
        it.gated.end()
        it.gated.is_legal(None)


def test_permissions_first(gate):
    """A call that a user may not make costs nothing but the gate's own word for it: no question to the node, and one entry of the
    journal, whatever it carries."""
    coins = [Input(number_hash(number), index) for number in range(50) for index in range(20)]
    many = Transaction(coins, [Output(1000)])
    with Beside(gate, "--forward", "--check", "3600", *USERS, *LISTS, "--line", "rpcwhitelist other:getmempoolinfo") as it:
        it.gated.start()
        time.sleep(1)
        size = sum(os.path.getsize(os.path.join(it.gated.journal, name)) for name in os.listdir(it.gated.journal))
        it.node.asked.clear()
        calls = [("sendrawtransaction", [many.hex()]), ("testmempoolaccept", [[many.hex()]]), ("getblock", ["00" * 32]), ("getmempoolentry", ["x"]), ("getrawmempool", [True, True]), ("submitpackage", [[many.hex()]])]
        calls += [("sendrawtransaction", []), ("testmempoolaccept", ["x"]), ("getrawtransaction", ["00" * 32, True]), ("gettxspendingprevout", [[]]), ("nothing", [])]
        for method, params in calls:
            status, text = it.gated.raw({"method": method, "params": params, "id": 1}, authorization=VIEWER)
            same(method, (status, json.loads(text)["error"]), (403, {"code": -2, "message": "rpc-whitelist", "rule": "U1"}))
        own = {"getbestblockhash", "getrawmempool", "getmempoolinfo"}
        same("the node is asked of none of it", [name for name in it.node.asked if name not in own], [])
        grown = sum(os.path.getsize(os.path.join(it.gated.journal, name)) for name in os.listdir(it.gated.journal)) - size
        true("the journal grew by %d bytes" % grown, grown < 200 * len(calls))
        it.gated.end()
        it.gated.is_legal(1)


def test_a_child_at_once(gate):
    """A payment is sent to the node, and at once its child is asked of gated: the gate is given what the node has before it
    answers. The same of the payment itself, and of its entry; with ZMQ, and without."""
    for kinds in ({}, {"has_zmq": False}):
        with Beside(gate, **kinds) as it:
            it.open()
            for _ in range(12):
                parent = it.pay(outputs=2)
                child = it.node.knows(payment_of((parent.hash(), 0), parent.outputs[0].value, 1000))
                same("a child", it.gated.rpc("testmempoolaccept", [child.hex()])[0].get("reject-reason"), None)
                other = it.node.knows(it.pay())
                same("itself", it.gated.rpc("testmempoolaccept", [other.hex()])[0]["reject-reason"], "txn-already-in-mempool")
                third = it.pay()
                same("its entry", it.gated.rpc("getmempoolentry", third.txid())["wtxid"], third.wtxid())
            it.is_alike()
            it.agrees()
