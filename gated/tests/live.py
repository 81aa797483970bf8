#!/usr/bin/env python3
"""gated beside a node that runs: bitcoind, or litecoind, in regtest on this machine, on a chain that is made for it.

  gated/tests/live.py PROGRAM

500 transactions that are drawn, 60 blocks, reorganisations of one to six blocks, a restart of the node and one of gated, with
blocks that are forgotten meanwhile. After each step the two pools, their floors and all entries are alike. Without a node on
this machine it is not tried, and says so. gated/tests/run does a part of it, and with --long all.
"""

import base64
import hashlib
import http.client
import json
import os
import random
import shutil
import subprocess
import sys
import tempfile
import time
import unittest
from collections import Counter
from decimal import Decimal

HERE = os.path.dirname(os.path.abspath(__file__))
ROOT = os.path.dirname(os.path.dirname(HERE))
sys.path[:0] = [it for it in (HERE, os.path.dirname(HERE), os.path.join(ROOT, "tests"), os.path.join(ROOT, "tools")) if it not in sys.path]

import hosting
from bitcoin import Input, Output, Transaction, counted, hashed
from gate import Differs, Gate, same, true
from hosting import Gated, RpcFailed, free_port, until
from kinds import long

NODES = ("bitcoind", "litecoind")
SEED = 66
# blocks that gated keeps for reorganisations: it forgets those below, ten at a time
KEPT = 8
# scripts that anybody may spend: OP_1 to OP_16, as witness scripts
TRUTHS = [bytes([0x50 + number]) for number in range(1, 17)]
# the settings of Bitcoin Core 22.0, where a release or another coin has others
OPTIONS = {
    "minrelaytxfee": "0.00001", "incrementalrelayfee": "0.00001", "dustrelayfee": "0.00003", "acceptnonstdtxn": "0", "txindex": "1",
    "listen": "0", "persistmempool": "1", "datacarriersize": "83", "blockmintxfee": "0",
}  # fmt: skip
# what a node of another coin has beside, which makes no blocks of a form that Bitcoin has not
OPTIONS_OF = {"litecoind": {"mempoolreplacement": "1", "vbparams": "mweb:-2:0"}}
COIN = 100_000_000
# the code by which a caller is told that the gate is opened
IN_WARMUP = -28
# seconds by which the times of an entry may differ, where each of the two takes its own clock
CLOCKS = 30


def script_of(truth):
    return b"\x00\x20" + hashlib.sha256(truth).digest()


def merkle(hashes):
    """The root over these hashes."""
    while len(hashes) > 1:
        hashes = hashes + hashes[-1:] * (len(hashes) % 2)
        hashes = [hashed(hashes[it] + hashes[it + 1]) for it in range(0, len(hashes), 2)]
    return hashes[0]


class Coin:
    """An output that anybody may spend."""

    def __init__(self, hash, index, value, truth):
        self.hash, self.index, self.value, self.truth = hash, index, value, truth

    def input(self, sequence=0xFFFFFFFD, truth=None):
        return Input(self.hash, self.index, b"", sequence, [truth or self.truth])


class LiveNode:
    """A node that runs in a folder of its own."""

    def __init__(self, program, folder):
        self.program, self.folder = program, folder
        self.port, self.zmq_port = free_port(), free_port()
        # further words that it is started with
        self.more = []
        self.cookie = os.path.join(folder, "regtest", ".cookie")
        self.process = None

    def start(self):
        words = [self.program, "-datadir=" + self.folder, "-regtest", "-rpcport=%d" % self.port, "-port=%d" % free_port(), "-printtoconsole=0"]
        options = OPTIONS | OPTIONS_OF.get(os.path.basename(self.program), {})
        words += self.more + ["-%s=%s" % it for it in options.items()] + ["-zmqpubsequence=tcp://127.0.0.1:%d" % self.zmq_port]
        with open(os.path.join(self.folder, "said.log"), "a") as said:
            self.process = subprocess.Popen(words, stdin=subprocess.DEVNULL, stdout=said, stderr=said)
        until("the node answers", self.answers)

    def answers(self):
        if self.process.poll() is not None:
            with open(os.path.join(self.folder, "said.log")) as said:
                raise Differs("the node ended: %s" % said.read()[-500:])
        try:
            return self.ask("getblockchaininfo")
        except (OSError, Differs, http.client.HTTPException):
            return None

    def stop(self):
        if self.process is not None:
            try:
                self.ask("stop")
            except (OSError, Differs, http.client.HTTPException):
                self.process.terminate()
            try:
                self.process.wait(hosting.SECONDS)
            except subprocess.TimeoutExpired:
                self.process.kill()
                raise Differs("the node doesn't end: it had to be killed") from None
            finally:
                self.process.wait()
                self.process = None

    def ask(self, method, *params):
        with open(self.cookie, "rb") as file:
            login = base64.b64encode(file.read()).decode()
        connection = http.client.HTTPConnection("127.0.0.1", self.port, timeout=hosting.SECONDS)
        try:
            connection.request("POST", "/", json.dumps({"method": method, "params": params, "id": 1}), {"Authorization": "Basic " + login})
            told = json.loads(connection.getresponse().read(), parse_float=Decimal)
        finally:
            connection.close()
        if told["error"] is not None:
            raise Differs("%s: %s" % (method, told["error"]["message"]))
        return told["result"]

    def announces(self):
        """Whether it speaks ZMQ: Debian's litecoind doesn't."""
        try:
            return bool(self.ask("getzmqnotifications"))
        except Differs:
            return False


class Live:
    """A node and a gated, and what is drawn for them."""

    def __init__(self, gate, program, folder):
        self.node = LiveNode(program, os.path.join(folder, "node"))
        os.mkdir(self.node.folder)
        self.draw, self.gate, self.folder = random.Random(SEED), gate, folder
        self.coins, self.counts, self.reasons = [], Counter(), Counter()
        self.sent = 0

    def start(self):
        self.node.start()
        # coins of a hundred blocks and more, so that some can be spent
        self.addresses = [self.address(it) for it in TRUTHS]
        self.generate(130)
        for height in range(1, 30):
            block = self.node.ask("getblock", self.node.ask("getblockhash", height), 2)
            self.coins += self.coins_of(block["tx"][0])
        self.first = list(self.coins)
        heard = ["--zmq", "tcp://127.0.0.1:%d" % self.node.zmq_port] if self.node.announces() else []
        self.gated = Gated(self.gate, self.folder, "http://127.0.0.1:%d" % self.node.port, self.node.cookie, *heard, "--forward", "--keep", str(KEPT))
        return "by ZMQ" if heard else "by asking again and again"

    def address(self, truth):
        told = self.node.ask("decodescript", truth.hex())["segwit"]
        return told["address"] if "address" in told else told["addresses"][0]

    def coins_of(self, told):
        scripts = {script_of(it).hex(): it for it in TRUTHS}
        hash = bytes.fromhex(told["txid"])[::-1]
        for it in told["vout"]:
            truth = scripts.get(it["scriptPubKey"]["hex"])
            if truth:
                yield Coin(hash, it["n"], int(it["value"] * COIN), truth)

    def generate(self, count):
        return self.node.ask("generatetoaddress", count, self.draw.choice(self.addresses))

    # what is drawn

    def transaction(self):
        """A transaction, and what it is; none if its coin is too small."""
        draw = self.draw
        coin, truth = draw.choice(self.coins[-60:] if draw.random() < 0.7 else self.coins), draw.choice(TRUTHS)
        kind = draw.choices(
            ("payment", "replacement", "two inputs", "low fee", "dust", "not final", "script", "version", "lock", "data", "missing", "final"),
            (40, 14, 8, 4, 3, 3, 3, 2, 6, 4, 2, 4),
        )[0]
        inputs = [coin.input(draw.choice((0xFFFFFFFD, 0xFFFFFFFD, 0xFFFFFFFF)))]
        total, outputs = coin.value, draw.randint(1, 4)
        fee = draw.choice((300, 500, 1000, 5000)) if kind != "replacement" else draw.choice((2000, 10_000, 50_000))
        version, locktime = 2, 0
        if kind == "two inputs":
            other = draw.choice(self.coins)
            inputs.append(other.input(draw.choice((0xFFFFFFFD, 0xFFFFFFFF))))
            total += other.value
        if kind == "low fee":
            fee = draw.randint(0, 150)
        if kind == "not final":
            locktime = draw.choice((10_000, int(time.time()) + 100_000))
        if kind == "final":
            locktime = draw.choice((1, 100))
        if kind == "script":
            inputs[0].witness = [b"\x00"]
        if kind == "version":
            version = draw.choice((0, 1, 3, -1))
        if kind == "lock":
            inputs[0].sequence = draw.choice((1, 2, 5, 100, 1000, 1 << 22 | 1, 1 << 22 | 300))
        if kind == "missing":
            inputs[0].hash = bytes(draw.randrange(256) for _ in range(32))
        each = (total - fee) // outputs
        paid = [Output(each, script_of(truth)) for _ in range(outputs)]
        if kind == "dust":
            paid.append(Output(draw.choice((0, 100, 329, 330)), script_of(truth)))
        if kind == "data":
            paid += [Output(0, b"\x6a\x14" + bytes(20))] * draw.choice((1, 1, 2))
        if each < 1000:
            return None, kind
        return Transaction(inputs, paid, version, locktime), kind

    def try_one(self):
        """Both are asked about one transaction, and then it is sent by one of the two ways."""
        tx, kind = self.transaction()
        while tx is None:
            tx, kind = self.transaction()
        self.sent += 1
        (ours,), (theirs,) = self.gated.rpc("testmempoolaccept", [tx.hex()], 0), self.node.ask("testmempoolaccept", [tx.hex()], 0)
        reason = theirs.get("reject-reason", "").partition(" (")[0]
        if (ours["allowed"], ours.get("reject-reason", "")) != (theirs["allowed"], reason):
            raise Differs("%s %s: gate: %s; node: %s\n%s" % (kind, tx.txid(), ours, theirs, tx.hex()))
        self.reasons[reason or "taken"] += 1
        if not ours["allowed"]:
            return
        self.counts[kind] += 1
        if self.draw.random() < 0.5:
            same("sent", self.gated.rpc("sendrawtransaction", tx.hex(), 0), tx.txid())
        else:
            same("sent", self.node.ask("sendrawtransaction", tx.hex(), 0), tx.txid())
            # the next question is to both, so the gate has to have heard of this one
            until("the gate has it", lambda: tx.txid() in (self.gated.listing() or ()))
        scripts = {script_of(it): it for it in TRUTHS}
        if self.draw.random() < 0.6:
            # seldom spent again, so that most of what is drawn spends a coin that is there
            spent = {(it.hash, it.index) for it in tx.inputs}
            self.coins = [it for it in self.coins if (it.hash, it.index) not in spent]
        self.coins += [Coin(tx.hash(), index, it.value, scripts[it.script]) for index, it in enumerate(tx.outputs) if it.script in scripts]

    def mine(self):
        """A block of the whole pool, or of its older part."""
        pool = self.node.ask("getrawmempool", True)
        if self.draw.random() < 0.5 or not pool:
            self.generate(1)
            return
        order = sorted(pool, key=lambda it: (pool[it]["ancestorcount"], pool[it]["time"]))
        chosen = order[: self.draw.randint(0, len(order))]
        self.node.ask("generateblock", self.draw.choice(self.addresses), chosen)

    def reorganise(self, depth):
        """Another branch in place of the last blocks, one block longer, which the node changes to at once: its first block has
        payments of coins that the pool may have spent otherwise."""
        fork = self.node.ask("getblockheader", self.node.ask("getblockhash", self.node.ask("getblockcount") - depth))
        paid, parent = [], fork
        for coin in self.draw.sample(self.first, 2):
            told = self.node.ask("gettxout", coin.hash[::-1].hex(), coin.index, False)
            if told:
                paid.append(Transaction([coin.input()], [Output(coin.value - 1000, script_of(coin.truth))]))
        for number in range(depth + 1):
            parent = self.branch(parent, [] if number else paid)
        same("the node's tip", self.node.ask("getbestblockhash"), parent["hash"])
        scripts = {script_of(it): it for it in TRUTHS}
        self.coins += [Coin(tx.hash(), 0, tx.outputs[0].value, scripts[tx.outputs[0].script]) for tx in paid]

    def branch(self, parent, txs):
        """A block above this one, which the node is given."""
        height = parent["height"] + 1
        commitment = hashed(merkle([bytes(32)] + [hashed(tx.text()) for tx in txs]) + bytes(32))
        outputs = [Output(0, script_of(TRUTHS[0])), Output(0, b"\x6a\x24\xaa\x21\xa9\xed" + commitment)]
        extra = b"\x03" + height.to_bytes(3, "little") + b"\x04" + self.draw.randbytes(4)
        coinbase = Transaction([Input(bytes(32), 0xFFFFFFFF, extra, 0xFFFFFFFF, [bytes(32)])], outputs)
        head = (0x20000000).to_bytes(4, "little") + bytes.fromhex(parent["hash"])[::-1] + merkle([tx.hash() for tx in [coinbase, *txs]])
        head += (parent["time"] + 1).to_bytes(4, "little") + bytes.fromhex(parent["bits"])[::-1]
        nonce = next(it for it in range(1 << 32) if self.work(head + it.to_bytes(4, "little"))[31] < 0x7F)
        header = head + nonce.to_bytes(4, "little")
        said = self.node.ask("submitblock", (header + counted([tx.text() for tx in [coinbase, *txs]])).hex())
        true("the node takes a block: %s" % said, said in (None, "inconclusive"))
        return {"hash": hashed(header)[::-1].hex(), "height": height, "time": parent["time"] + 1, "bits": parent["bits"]}

    def work(self, header):
        """The hash that has to be low: Litecoin's is scrypt."""
        if os.path.basename(self.node.program) == "litecoind":
            return hashlib.scrypt(header, salt=header, n=1024, r=1, p=1, dklen=32)
        return hashed(header)

    # what has to hold

    def moment(self):
        """What changes with the node's chain and pool."""
        return self.node.ask("getbestblockhash"), self.node.ask("getrawmempool", False, True)["mempool_sequence"]

    def alike(self, seconds=20):
        """The gate has the node's tip, pool, floor and entries, after so many seconds at the most. They are compared anew if the
        node's chain or pool changes meanwhile."""
        while True:
            moment = self.moment()
            try:
                return self.compare(seconds)
            except RpcFailed as error:
                # a gate that is opened anew is compared once it is open
                if not isinstance(error.error, dict) or error.error["code"] != IN_WARMUP:
                    raise
                until("the gate is open", self.gated.is_open)
            except Differs:
                if self.moment() == moment:
                    raise

    def compare(self, seconds):
        tip = self.node.ask("getblockcount")
        until("the gate is at the node's tip", lambda: self.gated.metric("gate_tip_height") == tip)
        wanted = self.node.ask("getrawmempool", True)
        try:
            until("the gate has the node's pool", lambda: self.gated.listing() == set(wanted), seconds)
        except Differs as error:
            ours = self.gated.listing() or set()
            raise Differs("only the node: %s; only the gate: %s; differences %s" % (set(wanted) - ours, ours - set(wanted), self.gated.differences())) from error
        found = json.loads(self.gated.raw({"method": "getrawmempool", "params": [True], "id": 1})[1], parse_float=Decimal)["result"]
        for txid, told in wanted.items():
            for name in ("vsize", "weight", "wtxid", "ancestorcount", "ancestorsize", "descendantcount", "descendantsize", "bip125-replaceable"):
                if name in told:
                    same("%s of %s" % (name, txid), found[txid][name], told[name])
            for name in ("base", "ancestor", "descendant"):
                same("fee %s of %s" % (name, txid), found[txid]["fees"][name], told["fees"][name])
            same("parents of %s" % txid, sorted(found[txid]["depends"]), sorted(told["depends"]))
            same("children of %s" % txid, sorted(found[txid]["spentby"]), sorted(told["spentby"]))
            true("time of %s" % txid, abs(found[txid]["time"] - told["time"]) <= CLOCKS)
        info, told = self.gated.rpc("getmempoolinfo"), self.node.ask("getmempoolinfo")
        same("floor", Decimal(str(info["mempoolminfee"])), told["mempoolminfee"])
        same("size", (info["size"], info["bytes"]), (told["size"], told["bytes"]))
        self.counts["comparisons"] += 1
        self.counts["entries compared"] += len(wanted)

    def forgotten(self):
        """How many blocks the journal says were forgotten."""
        found = 0
        for name in sorted(os.listdir(self.gated.journal)):
            with open(os.path.join(self.gated.journal, name)) as lines:
                found += sum(int(line.split(" ")[3]) for line in lines if line.startswith("> chain forget "))
        return found

    def run(self, transactions, blocks, depths):
        """The steps, in an order that is drawn."""
        draw = self.draw
        steps = ["tx"] * transactions + ["block"] * blocks
        draw.shuffle(steps)
        # reorganisations once there are blocks to take back, and the two restarts
        for number, depth in enumerate(depths):
            steps.insert(len(steps) * (number + 3) // (len(depths) + 3), depth)
        steps.insert(len(steps) // 2, "restart node")
        steps.insert(len(steps) * 2 // 3, "restart gated")
        for number, step in enumerate(steps):
            if step == "tx":
                self.try_one()
            elif step == "block":
                self.mine()
            elif step == "restart node":
                self.node.stop()
                until("callers are told", lambda: self.gated.is_open() is None)
                self.node.start()
            elif step == "restart gated":
                same("status", self.gated.end(), 0)
                self.gated.start()
            else:
                self.reorganise(step)
            if step != "tx" or number % 10 == 0:
                self.alike()
        self.alike()


def beside_a_node(gate, transactions, blocks, depths):
    """So many transactions and blocks, reorganisations of these depths and two restarts beside a node of this machine."""
    program = next(filter(None, map(shutil.which, NODES)), None)
    if program is None:
        raise unittest.SkipTest("none of %s is on this machine" % ", ".join(NODES))
    with tempfile.TemporaryDirectory(prefix="gated-live-") as folder:
        live = Live(gate, program, folder)
        try:
            way = live.start()
            with live.gated:
                live.run(transactions, blocks, depths)
                same("differences", live.gated.differences(), {})
                same("status", live.gated.end(), 0)
                entries = live.gated.is_legal(None)
                forgotten = live.forgotten()
        finally:
            live.node.stop()
    same("transactions", live.sent, transactions)
    true("some were taken and some refused: %s" % live.reasons, 0 < live.reasons["taken"] < transactions)
    version = subprocess.run([program, "--version"], capture_output=True, text=True, check=False).stdout.splitlines()[0]
    print("%s, followed %s: %d transactions were tried: %s" % (version, way, live.sent, dict(live.reasons)), file=sys.stderr)
    print("compared %d times, %d entries" % (live.counts["comparisons"], live.counts["entries compared"]), file=sys.stderr)
    print("legal: %s entries; %d blocks were forgotten" % (entries, forgotten), file=sys.stderr)
    return forgotten


@long
def test_beside_a_running_node(gate):
    """500 transactions, 60 blocks, reorganisations of one to six blocks and two restarts beside a node of this machine."""
    true("blocks were forgotten", beside_a_node(gate, 500, 60, (1, 2, 3, 4, 5, 6)) > 0)


def test_a_while_beside_a_running_node(gate):
    """The same with 60 transactions, 15 blocks and two reorganisations."""
    beside_a_node(gate, 60, 15, (1, 3))


if __name__ == "__main__":
    try:
        test_beside_a_running_node(Gate(os.path.abspath(sys.argv[1]), seconds=600))
    except unittest.SkipTest as reason:
        print("left out: %s" % reason)
        print("0 passed, 0 failed")
    else:
        print("1 passed, 0 failed")
