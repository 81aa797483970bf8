"""Calls that gated passes to the node, and what wallets, indexers and Lightning nodes ask first."""

import json
import os
import shutil
import subprocess
import tempfile
import unittest

from bitcoin import Output, Transaction
from gate import same, true
from gated.passing import PASSED
from hosting import until
from kinds import long
from live import NODES, Live, script_of
from model_node import COIN_VALUE, RpcError, number_hash, payment_of
from test_answering import basic, failed, fresh, rpcauth
from test_faults import ends
from test_following import Beside

HASH = "ab" * 32
# fields of an entry that no client goes without, but for its time: each of the two takes its own clock
ENTRY = (
    "vsize", "weight", "height", "descendantcount", "descendantsize", "ancestorcount", "ancestorsize", "wtxid", "fees", "depends", "spentby", "bip125-replaceable",
)  # fmt: skip


def test_passed_calls(gate):
    """Each call of the list is passed with its parameters as they came, by place and by name, and comes back as the node wrote it;
    its errors too, with their statuses. What is not on the list never reaches the node."""
    with Beside(gate) as it:
        it.open()
        taken = []

        def of_callers(usual):
            def take(*params, **named):
                if HASH not in (*params, *named.values()):
                    # gated's own question
                    return usual(*params, **named)
                taken.append(list(params) or named)
                return {"rate": "@0.00000001@", "rest": [None, True, "\u00e9"]}

            return take

        for method in PASSED:
            setattr(it.node, "do_" + method, of_callers(getattr(it.node, "do_" + method, None)))
        for method in sorted(PASSED - {"getrawtransaction"}):
            taken.clear()
            text = it.gated.raw({"method": method, "params": [HASH, 2, None, {"a": 1.50}], "id": "x"})
            same(method, text, (200, '{"result":{"rate":0.00000001,"rest":[null,true,"\\u00e9"]},"error":null,"id":"x"}\n'))
            same("its parameters", taken, [[HASH, 2, None, {"a": 1.5}]])
        taken.clear()
        same("by name", it.gated.raw({"method": "getblock", "params": {"blockhash": HASH, "verbosity": 0}, "jsonrpc": "2.0", "id": 1})[0], 200)
        same("its parameters", taken, [{"blockhash": HASH, "verbosity": 0}])
        for code, status in ((-8, 500), (-5, 500), (-1, 500), (-32601, 404)):
            def refuse(*_, code=code):
                raise RpcError(code, "so it is")

            it.node.do_uptime = refuse
            same("an error", failed(lambda: it.gated.rpc("uptime")), (status, code, "so it is"))
        it.node.asked.clear()
        for method in ("getpeerinfo", "stop", "invalidateblock", "getblock ", "GETBLOCK", ""):
            same("%r" % method, failed(lambda method=method: it.gated.rpc(method))[:2], (404, -32601))
        true("none reached the node: %s" % it.node.asked, not set(it.node.asked) & {"getpeerinfo", "stop", "invalidateblock", "getblock ", "GETBLOCK", ""})


def test_who_may_pass(gate):
    """The gate's whitelist decides of these calls too, and of those that an operator adds."""
    words = ["--rpcauth", rpcauth("shop", "secret"), "--line", "rpcwhitelist shop:getblockcount,getpeerinfo", "--line", "rpcwhitelistdefault 0"]
    with Beside(gate, *words, "--passthrough", "getpeerinfo", "--passthrough", "echo") as it:
        it.gated.start()
        it.node.do_getpeerinfo = it.node.do_echo = it.node.do_getblockcount = lambda *params: list(params)
        shop = basic("shop", "secret")
        it.node.asked.clear()
        for method, status in (("getblockcount", 200), ("getpeerinfo", 200), ("echo", 403), ("getblock", 403), ("getblockhash", 403), ("nothing", 403)):
            found, text = it.gated.raw({"method": method, "params": [], "id": 1}, authorization=shop)
            same(method, (found, json.loads(text)["error"]), (status, None if status == 200 else {"code": -2, "message": "rpc-whitelist", "rule": "U1"}))
        same("what reached the node", [name for name in it.node.asked if name in ("getblockcount", "getpeerinfo", "echo", "getblock", "getblockhash", "nothing")], ["getblockcount", "getpeerinfo"])
        same("without a list", it.gated.rpc("echo", 1, "b"), [1, "b"])
        it.gated.end()
        it.gated.is_legal(1)


def test_what_cannot_be_passed(gate):
    """A call that the gate answers is none that may be passed to the node."""
    with Beside(gate) as it:
        said = ends(*it.gated.words, "--passthrough", "getmempoolinfo")
        same("its end", said, (1, "gated: getmempoolinfo is a call that the gate answers\n"))


def test_transactions(gate):
    """`getrawtransaction`: an entry's text is the gate's, and the node is asked for more of it and for any other transaction."""
    with Beside(gate, has_index=True) as it:
        it.open()
        one = it.pay()
        it.is_alike()
        it.node.asked.clear()
        for params in ([one.txid()], [one.txid(), False], [one.txid(), 0]):
            same("an entry", it.gated.rpc("getrawtransaction", *params), one.hex())
        true("the node is not asked", "getrawtransaction" not in it.node.asked)
        it.node.mine()
        it.is_alike()
        same("of a block", it.gated.rpc("getrawtransaction", one.txid(), True)["hex"], one.hex())
        same("its text", it.gated.rpc("getrawtransaction", one.txid()), one.hex())
        same("by name", it.gated.rpc("getrawtransaction", txid=one.txid(), verbose=True)["txid"], one.txid())
        message = "No such mempool transaction. Use -txindex or provide a block hash"
        same("none", failed(lambda: it.gated.rpc("getrawtransaction", "00" * 32)), (500, -5, message))


def test_several_at_once(gate):
    """Several transactions are tried in one call: a child behind its parent, one that is denied, and one past the caller's bound.
    Beside a node that takes one at a time, a child whose parent nobody has is not judged."""
    with Beside(gate) as it:
        it.open()
        parent, other, dear = fresh(it, outputs=2), fresh(it), fresh(it, fee=2_000_000)
        child = it.node.knows(payment_of((parent.hash(), 0), parent.outputs[0].value, 1000))
        low = it.node.knows(payment_of((number_hash(it.spare.pop(0)), 0), COIN_VALUE, 1))

        def tried(*them, rate=None):
            told = it.gated.rpc("testmempoolaccept", [tx.hex() for tx in them], *([] if rate is None else [rate]))
            same("their ids", [(one["txid"], one["wtxid"]) for one in told], [(tx.txid(), tx.wtxid()) for tx in them])
            return [one.get("reject-reason", "ok") for one in told]

        same("a child behind its parent", tried(parent, child, other), ["ok", "ok", "ok"])
        same("before it", tried(child, parent), ["missing-inputs", "ok"])
        same("one that is denied", tried(parent, low, child, other), ["ok", "min relay fee not met", "ok", "ok"])
        same("past the bound", tried(other, dear), ["ok", "max-fee-exceeded"])
        same("without a bound", tried(other, dear, rate=0), ["ok", "ok"])
        same("none that does not parse", failed(lambda: it.gated.rpc("testmempoolaccept", [other.hex(), "00"]))[1], -22)
        it.node.takes_lists = False
        second = fresh(it, outputs=2)
        orphan = it.node.knows(payment_of((second.hash(), 0), second.outputs[0].value, 1000))
        same("one at a time", tried(second, orphan), ["ok", "verdict-missing"])
        same("nothing is in the pool", it.gated.rpc("getrawmempool"), [])
        it.gated.end()
        it.gated.is_legal(1)


def test_several_as_a_package(gate):
    """With `packages 1` several are tried as one package: of one that is denied its reason is told, of those that are not judged
    then their ids alone, and a rule on the package is told of each. Also if the node refuses its scripts, and its child with it."""
    with Beside(gate, "--line", "packages 1") as it:
        it.open()
        parent, other, low = fresh(it, outputs=2), fresh(it), fresh(it, fee=1)
        child, unproved = it.node.knows(payment_of((parent.hash(), 0), parent.outputs[0].value, 1000)), fresh(it, outputs=2)
        below = it.node.knows(payment_of((unproved.hash(), 0), unproved.outputs[0].value, 1000))
        it.node.model.opening.verdicts[(unproved.wtxid(), 0)] = "soft"

        def tried(*them):
            told = it.gated.rpc("testmempoolaccept", [tx.hex() for tx in them])
            same("their ids", [(one["txid"], one["wtxid"]) for one in told], [(tx.txid(), tx.wtxid()) for tx in them])
            return [one.get("reject-reason", one.get("package-error", one.get("allowed"))) for one in told]

        same("a child behind its parent", tried(parent, child, other), [True, True, True])
        same("before it", tried(child, parent), ["package-not-sorted"] * 2)
        same("one that is denied", tried(parent, low, other), [None, "min relay fee not met", None])
        same("one whose scripts fail", tried(other, unproved, below), [True, "non-mandatory-script-verify-flag", None])
        same("nothing is in the pool", it.gated.rpc("getrawmempool"), [])
        it.gated.end()
        it.gated.is_legal(1)


@long
def test_a_verbose_listing_of_many(gate):
    """`getrawmempool true` of more than a thousand entries, by one line of the gate."""
    with Beside(gate, "--check", "60") as it:
        it.open()
        for _ in range(45):
            parent = it.pay(outputs=24)
            for index in range(24):
                it.child(parent, index)
        until("the gate has the node's pool", lambda: it.gated.listing() == set(it.node.pool()), 600)
        found = it.gated.rpc("getrawmempool", True)
        same("entries", len(found), 45 * 25)
        for txid in list(found)[:: 45 * 25 // 20]:
            same("an entry", found[txid], it.gated.rpc("getmempoolentry", txid))
        it.gated.end()
        same("lines of the journal", lines_of(it.gated.journal, '"method":"getrawmempool","params":[true]'), 1)


def lines_of(folder, part):
    """How many lines of a journal have a text."""
    count = 0
    for name in os.listdir(folder):
        with open(os.path.join(folder, name)) as lines:
            count += sum(line.startswith("> user __cookie__") and part in line for line in lines)
    return count


class Client:
    """A node that runs with a gated beside it, and the node's own client for either."""

    def __init__(self, gate, folder):
        program = next(filter(None, map(shutil.which, NODES)), None)
        if program is None or shutil.which(program.replace("coind", "coin-cli")) is None:
            raise unittest.SkipTest("none of %s with its client is on this machine" % ", ".join(NODES))
        self.live, self.program = Live(gate, program, folder), program.replace("coind", "coin-cli")
        self.folder = folder

    def cli(self, *words, gated=True):
        """The status, the output and the errors of the node's own client, asked through gated or directly."""
        port, cookie = (self.live.gated.port, self.live.gated.cookie) if gated else (self.live.node.port, self.live.node.cookie)
        given = [self.program, "-datadir=" + self.folder, "-regtest", "-rpcport=%d" % port, "-rpccookiefile=" + cookie, *words]
        done = subprocess.run(given, capture_output=True, text=True, timeout=60, check=False)
        return done.returncode, done.stdout, done.stderr

    def is_alike(self, *words):
        """The client prints the same through gated as of the node."""
        found, wanted = self.cli(*words), self.cli(*words, gated=False)
        same(" ".join(words)[:80], found, wanted)
        return found[1].strip()


def test_first_calls_of_clients(gate):
    """Beside a node of this machine: what its own client (also by -getinfo), an Electrum server, a Lightning node and
    python-bitcoinlib ask first gets through gated the answers that the node gives."""
    with tempfile.TemporaryDirectory(prefix="gated-clients-") as folder:
        client = Client(gate, folder)
        try:
            client.live.start()
            with client.live.gated:
                asks_all(client)
                asks_by_library(client.live.gated)
                burns(client)
        finally:
            client.live.node.stop()


def asks_all(client):
    status, said, error = client.cli("-getinfo")
    true("-getinfo: %s %s" % (said, error), status == 0 and '"blocks": ' in said and '"chain": "regtest"' in said)
    for words in (("getblockchaininfo",), ("getnetworkinfo",), ("getblockcount",), ("getzmqnotifications",), ("getindexinfo",), ("help",), ("help", "getblock")):
        client.is_alike(*words)
    # with what only the node can say of its pool, in the node's order
    client.is_alike("getmempoolinfo")
    best = client.is_alike("getbestblockhash")
    for words in (("getblockhash", "1"), ("getblockheader", best), ("getblockheader", best, "false"), ("getblock", best), ("getblock", best, "0"), ("getblock", best, "2")):
        client.is_alike(*words)
    same("wrong", client.cli("getblockhash", "100000")[0], 8)
    client.is_alike("getblockhash", "100000")
    client.is_alike("getblock", "00")
    txid = json.loads(client.cli("getblock", client.is_alike("getblockhash", "1"))[1])["tx"][0]
    for words in (("gettxout", txid, "0"), ("getrawtransaction", txid), ("getrawtransaction", txid, "true"), ("estimatesmartfee", "2", "CONSERVATIVE"), ("estimatesmartfee", "100", "ECONOMICAL")):
        client.is_alike(*words)
    client.is_alike("-named", "getblock", "blockhash=" + best, "verbosity=0")
    # wrong calls of the gate's own methods: the same codes and words as the node's
    for words in (("getmempoolentry", "ab"), ("getmempoolentry", "z" * 64), ("getmempoolancestors", "00"), ("testmempoolaccept", "[]"), ("sendrawtransaction", "00")):
        found, wanted = client.cli(*words), client.cli(*words, gated=False)
        same("status of %s" % (words,), found[0], wanted[0])
    same("a hash", client.cli("getmempoolentry", "ab"), client.cli("getmempoolentry", "ab", gated=False))
    same("help", client.cli("getmempoolentry"), client.cli("getmempoolentry", gated=False))
    same("not passed", client.cli("getpeerinfo"), (89, "", "error code: -32601\nerror message:\nMethod not found\n"))


def burns(client):
    """A payment with an output that nobody can spend, without a bound and with one: the node's own answer, whether it has such a
    bound or not."""
    coin = client.live.first[0]
    paid = [Output(1000, b"\x6a\x01\x41"), Output(coin.value - 2000, script_of(coin.truth))]
    burnt = Transaction([coin.input()], paid)
    for bounds in ((), ("0", "1")):
        client.is_alike("sendrawtransaction", burnt.hex(), *bounds)
    same("the pool", client.is_alike("getrawmempool").split(), ["[", '"%s"' % burnt.txid(), "]"])
    # all that a client needs whose types have no place for less
    ours, theirs = (json.loads(client.cli("getmempoolentry", burnt.txid(), gated=it)[1]) for it in (True, False))
    same("its entry", {name: ours.get(name) for name in ENTRY}, {name: theirs[name] for name in ENTRY})


ASKS = """
import sys, bitcoin, bitcoin.rpc
bitcoin.SelectParams("regtest")
p = bitcoin.rpc.RawProxy(service_url=sys.argv[1])
best = p.getbestblockhash()
print(p.getblockcount() == p.getblockheader(best)["height"], len(p.getblock(best)["tx"]), p.getmempoolinfo()["size"], p.getblockchaininfo()["chain"])
"""


def asks_by_library(gated):
    """The same by python-bitcoinlib, if it is there."""
    there = subprocess.run(["/usr/bin/python3", "-c", "import bitcoin.rpc"], capture_output=True, check=False, cwd="/")
    if there.returncode:
        return
    with open(gated.cookie) as file:
        url = "http://%s@127.0.0.1:%d" % (file.read(), gated.port)
    environment = {name: value for name, value in os.environ.items() if name != "PYTHONPATH"}
    done = subprocess.run(["/usr/bin/python3", "-c", ASKS, url], capture_output=True, text=True, env=environment, cwd="/", check=False)
    same("its answers: %s" % done.stderr[-300:], done.stdout, "True 1 0 regtest\n")
