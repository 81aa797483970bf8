"""gated beside a node of ours: what it follows, and what becomes of a node that fails. What the gate has to have is what the
plain model of the policy has."""

import asyncio
import os
import random
import signal
import socket
import subprocess
import tempfile
import time

from bitcoin import Input, Output, Transaction
from gate import same, true
from gated.announcements import AskedAnnouncements, Came, Gone, Moved
from gated.pool import PoolWatch
from hosting import GATED, IN_PROCESS, Gated, environment_of, library_of, until
from model import fees_of, size_of
from model_node import COIN_VALUE, ModelNode, number_hash, payment_of


class Beside:
    """A node of ours with a gated beside it."""

    def __init__(self, gate, *words, **kinds):
        self.gate, self.words, self.kinds = gate, words, kinds
        self.folder = tempfile.TemporaryDirectory(prefix="gated-")

    def __enter__(self):
        self.node = ModelNode(self.folder.name, **self.kinds)
        heard = ["--zmq", self.node.endpoint] if self.node.endpoint else []
        self.gated = Gated(self.gate, self.folder.name, self.node.url, self.node.cookie, *heard, *self.words)
        self.spare = list(range(60))
        return self

    def __exit__(self, *failed):
        try:
            self.gated.__exit__(*failed)
        finally:
            self.node.close()
            self.folder.cleanup()

    def open(self):
        self.gated.start()
        self.is_alike()
        return self

    def pay(self, fee=1000, outputs=1):
        """A payment of a coin that nobody has spent, which the node takes."""
        tx = payment_of((number_hash(self.spare.pop(0)), 0), COIN_VALUE, fee, outputs)
        same("the node", self.node.submit(tx).split(" ")[0], "admitted")
        return tx

    def child(self, parent, index=0, fee=1000):
        tx = payment_of((parent.hash(), index), parent.outputs[index].value, fee)
        same("the node", self.node.submit(tx).split(" ")[0], "admitted")
        return tx

    def is_alike(self):
        """Waits until the gate has the node's pool and tip, and compares each entry with the model's."""
        wanted = {txid: facts(self.node, entry) for txid, entry in self.node.pool().items()}
        until("the gate has the node's pool", lambda: self.gated.is_open() and self.gated.listing() == set(wanted))
        until("the gate has the node's tip", lambda: self.gated.metric("gate_tip_height") == self.node.model.tip)
        for txid, entry in wanted.items():
            found = self.gated.rpc("getmempoolentry", txid)
            same("entry %s" % txid, {name: value for name, value in found.items() if name in entry}, entry)
        info = self.gated.rpc("getmempoolinfo")
        same("info", (info["size"], info["bytes"]), (len(wanted), size_of(self.node.model.pool)))
        same("floor", info["mempoolminfee"], max(1000, self.node.model.floor) / 100_000_000)

    def agrees(self):
        same("differences", self.gated.differences(), {})

    def opened(self, times):
        """The gate was opened so often."""
        until("the gate was opened %d times" % times, lambda: self.gated.metric("gate_openings_total") == times and self.gated.is_open())


def facts(node, entry):
    """What an entry has to say, by the model."""
    above, below = node.model.above(entry.tx) | {entry}, node.model.below([entry])
    return {
        "vsize": entry.size, "weight": entry.tx.weight(), "wtxid": entry.wtxid,
        "ancestorcount": len(above), "ancestorsize": size_of(above), "descendantcount": len(below), "descendantsize": size_of(below),
        "fees": {"base": entry.fee / 1e8, "modified": entry.fee / 1e8, "ancestor": fees_of(above) / 1e8, "descendant": fees_of(below) / 1e8},
    }  # fmt: skip


def test_pool_and_blocks(gate):
    """Opened beside a pool of three, it follows payments, children, a replacement and blocks; its journal is legal."""
    with Beside(gate) as it:
        first = it.pay(outputs=2)
        it.child(first)
        it.open()
        second = it.pay()
        it.child(second)
        it.is_alike()
        replacement = payment_of((second.inputs[0].hash, 0), COIN_VALUE, 9000)
        same("the node", it.node.submit(replacement).split(" ")[-1], "2")
        it.is_alike()
        it.node.mine()
        it.is_alike()
        # a payment that only the block has: its coin is learnt from the block
        unseen = payment_of((number_hash(it.spare.pop(0)), 0), COIN_VALUE, 500, 2)
        it.node.mine([unseen])
        it.child(unseen, 1)
        it.is_alike()
        it.agrees()
        same("openings", it.gated.metric("gate_openings_total"), 1)
        same("status", it.gated.end(), 0)
        it.gated.is_legal(1)


def test_the_library_in_the_process(gate):
    """The same over the library, which is what gated takes where it is there; the gate is opened anew in the same process, and an
    opening that it refuses ends gated. A library that asks the program stands for the one that has to be proved first."""
    with Beside(gate) as it:
        library = library_of(gate, it.folder.name)
        it.gated.takes_the_library()
        first = it.pay(outputs=2)
        it.gated.start(GATE_LIBRARY=library)
        same("the gate", it.gated.kinds(), [IN_PROCESS])
        it.is_alike()
        it.child(first)
        it.node.mine()
        it.is_alike()
        it.node.lost = 1
        it.pay()
        it.pay()
        it.opened(2)
        it.is_alike()
        it.agrees()
        same("status", it.gated.end(), 0)
        it.gated.is_legal(2)
        words = [GATED, *it.gated.words, "--line", "bogus 1"]
        done = subprocess.run(words, env=environment_of(GATE_LIBRARY=library), capture_output=True, text=True, timeout=60, check=False)
        same("its end", (done.returncode, done.stderr.splitlines()[-1]), (1, "gated: the gate refuses the opening: opening 2 bad-line: bogus 1"))


def test_asked_again_and_again(gate):
    """The same without ZMQ, and with a node whose blocks show no coins, but which has an index."""
    with Beside(gate, has_zmq=False, has_prevouts=False, has_index=True) as it:
        it.open()
        first = it.pay(outputs=2)
        it.child(first)
        it.is_alike()
        it.node.mine()
        it.is_alike()
        it.child(first, 1)
        it.node.mine()
        it.is_alike()
        it.agrees()
        same("openings", it.gated.metric("gate_openings_total"), 1)


class Shown:
    """A node that shows a pool."""

    def __init__(self, *txids):
        self.number = 0
        self.shows(*txids)

    def shows(self, *txids):
        self.number += 1
        self.listing = {"txids": list(txids), "mempool_sequence": self.number}

    async def ask(self, method, *_):
        return "a tip" if method == "getbestblockhash" else self.listing


def test_what_comes_back_between_two_questions(gate):
    """Beside a node without ZMQ: what a block takes from the pool and a reorganisation brings back before the next question is
    announced, if the pool was compared in between: else it would be in the node's pool and never have been announced."""
    async def heard():
        node = Shown("first", "second")
        announced, watch = AskedAnnouncements(node, 0), PoolWatch(announced={"first", "second"})
        announced.began(node.number, {"first", "second"})
        same("at first", await announced.next(0), [Moved()])
        node.shows()
        announced.looked(node.listing)
        watch.compare({"first", "second"}, set())
        node.shows("second", "third")
        found = await announced.next(0)
        same("what went", {it.txid for it in found if isinstance(it, Gone)}, {"first", "second"})
        same("what came, behind it", found[2:], [Came("second"), Came("third")])
        watch.came(it.txid for it in found[2:])
        same("what was never announced", watch.announced, {"second", "third"})
        same("nothing is told twice", await announced.next(0), [])

    asyncio.run(heard())


def test_a_block_whose_coins_nobody_shows(gate):
    """A node without prevouts and without an index: the gate is opened anew, and says why."""
    with Beside(gate, has_prevouts=False) as it:
        it.open()
        it.node.mine([payment_of((number_hash(it.spare.pop(0)), 0), COIN_VALUE, 500)])
        it.opened(2)
        it.is_alike()
        true("the log says why", any("-txindex" in line for line in it.gated.lines()))


def test_reorganisations(gate):
    """Of one to six blocks: what they had comes back, and what contradicts the new blocks goes."""
    with Beside(gate) as it:
        it.open()
        for depth in (1, 2, 3, 6):
            paid = [it.pay(outputs=2) for _ in range(2)]
            it.child(paid[0])
            it.node.mine()
            for _ in range(depth - 1):
                it.node.mine()
            it.is_alike()
            it.child(paid[1])
            it.is_alike()
            # another branch, one block longer, with a payment that spends the coin of the first one otherwise
            fork = (it.node.base + it.node.model.blocks)[-depth - 1]
            blocks, txs = [], [payment_of((paid[0].inputs[0].hash, 0), COIN_VALUE, 7000)]
            for _ in range(depth + 1):
                blocks.append(it.node.block(txs, blocks[-1] if blocks else fork, after=601))
                txs = []
            it.node.move(depth, blocks)
            it.is_alike()
            it.node.mine()
            it.is_alike()
        it.agrees()
        same("openings", it.gated.metric("gate_openings_total"), 1)
        it.gated.end()
        it.gated.is_legal(1)


def test_the_height_of_what_comes_back(gate):
    """What a reorganisation brings back has a height before the node announces it: that of the tip at which it came back."""
    with Beside(gate) as it:
        it.open()
        one = it.pay()
        it.is_alike()
        it.node.mine()
        it.is_alike()
        # the next comparison of the pools is over
        time.sleep(2)
        it.node.held = []
        fork = (it.node.base + it.node.model.blocks)[-2]
        first = it.node.block([], fork, after=601)
        it.node.move(1, [first, it.node.block([], first, after=601)])
        entry = until("it is back", lambda: one.txid() in (it.gated.listing() or ()) and it.gated.rpc("getmempoolentry", one.txid()))
        same("its height", entry.get("height"), it.node.model.tip)


def test_a_reorganisation_past_what_is_kept(gate):
    """With one block kept, and twelve more forgotten, a branch of thirteen blocks can't be followed: the gate is opened anew."""
    with Beside(gate, "--keep", "1") as it:
        it.open()
        for _ in range(13):
            it.pay()
            it.node.mine()
        it.is_alike()
        same("openings", it.gated.metric("gate_openings_total"), 1)
        fork, blocks = it.node.base[-1], []
        for _ in range(14):
            blocks.append(it.node.block([], blocks[-1] if blocks else fork, after=601))
        it.node.move(13, blocks)
        it.opened(2)
        it.is_alike()
        it.gated.end()
        it.gated.is_legal(2)


def test_forgetting(gate):
    """Over thirty blocks with two kept: what is forgotten is learnt again where it is spent."""
    with Beside(gate, "--keep", "2") as it:
        it.open()
        late = it.pay(outputs=20)
        for number in range(30):
            it.pay()
            it.node.mine()
            if number % 7 == 6:
                it.child(late, number // 7)
        it.is_alike()
        it.agrees()
        same("openings", it.gated.metric("gate_openings_total"), 1)
        it.gated.end()
        entries = it.gated.is_legal(1)
        with open(os.path.join(it.gated.journal, "gate-000001.journal")) as lines:
            forgotten = [line for line in lines if line.startswith("> chain forget ")]
        true("blocks were forgotten: %s, %s" % (forgotten, entries), len(forgotten) >= 2)


def test_lost_messages(gate):
    """A message that is missing is noticed at the next one, and one that nothing follows when the pools are compared."""
    with Beside(gate) as it:
        it.open()
        it.pay()
        it.is_alike()
        it.node.lost = 1
        it.pay()
        it.pay()
        it.opened(2)
        it.is_alike()
        it.node.lost = 1
        it.pay()
        it.opened(3)
        it.is_alike()
        it.node.lost = 1
        it.node.mine()
        it.is_alike()
        text = "".join(it.gated.lines())
        true("the log says that messages are missing", "messages of the node are missing: number 2 follows 0" in text)
        true("and that some were never announced", "were never announced" in text)


def test_a_node_that_dies_and_rises(gate):
    """While the node is away, callers are told; then the gate is opened anew, from what the node has then."""
    with Beside(gate) as it:
        it.open()
        it.pay()
        it.is_alike()
        it.node.die()
        until("callers are told", lambda: it.gated.is_open() is None)
        status, text = it.gated.raw({"method": "getmempoolinfo", "id": 4})
        same("status", status, 500)
        true("its code is -28: %s" % text, '"code":-28' in text)
        time.sleep(12)
        # what a node is asked again for is said once, however often it is asked
        again = [line for line in it.gated.lines() if "asked again" in line]
        true("lines of the log: %s" % again, 1 <= len(again) <= 3)
        it.node.rise()
        it.opened(2)
        it.pay()
        it.node.mine()
        it.is_alike()
        it.agrees()
        it.gated.end()
        it.gated.is_legal(2)


def test_a_node_that_is_late(gate):
    """Answers that come after a while change nothing but the time that it takes."""
    with Beside(gate) as it:
        it.open()
        it.node.late = 0.2
        for _ in range(3):
            it.pay()
            it.node.mine()
        it.is_alike()
        it.agrees()
        same("openings", it.gated.metric("gate_openings_total"), 1)


def test_wrong_answers(gate):
    """Answers that can't be used, and answers that contradict each other, never lead to a state that goes on."""

    def without_result(answer):
        return {"id": answer["id"]}

    def of_another(answer):
        return {**answer, "id": 10**9}

    def no_block(answer):
        return {**answer, "result": "00"} if isinstance(answer["result"], str) else answer

    wrongs = {
        "getbestblockhash": (without_result, of_another, lambda answer: {**answer, "result": "00" * 32}, lambda answer: {**answer, "result": 7}),
        "getblock": (no_block, lambda answer: {**answer, "result": None}, lambda answer: {**answer, "error": "text"}),
        "getmempoolinfo": (lambda answer: {**answer, "result": {}}, lambda answer: {**answer, "result": {"mempoolminfee": "x", "minrelaytxfee": 0}}),
        "getrawmempool": (lambda answer: {**answer, "result": []},),
        "getblockheader": (lambda answer: {**answer, "result": {"height": "high"}},),
    }
    with Beside(gate) as it:
        it.open()
        opened = 1
        for method, changes in wrongs.items():
            for change in changes:
                it.node.wrong[method] = change
                it.pay()
                it.node.mine()
                until("the gate is closed after %s" % method, lambda: it.gated.is_open() is None)
                del it.node.wrong[method]
                opened = until("it is opened anew", lambda: it.gated.is_open() and max(it.gated.metric("gate_openings_total"), opened + 1))
                it.is_alike()
        it.node.wrong["cut"] = True
        until("the gate is closed after answers that are cut", lambda: it.gated.is_open() is None)
        it.node.wrong.clear()
        until("it is opened anew", it.gated.is_open)
        it.is_alike()
        it.gated.end()
        lines, status = it.gated.audit()
        same("status of the audit of %s" % lines, status, 0)


def test_ends_and_crashes(gate):
    """A gated that is ended begins anew with another segment; one that is killed leaves a journal that is legal to its last
    whole entry."""
    with Beside(gate) as it:
        it.open()
        it.pay()
        it.is_alike()
        same("status", it.gated.end(), 0)
        true("the cookie is gone", not os.path.exists(it.gated.cookie))
        it.pay()
        it.open()
        it.pay()
        it.is_alike()
        it.gated.end(signal.SIGKILL)
        it.node.mine()
        it.open()
        it.gated.end()
        it.gated.is_legal(3)
        # what a crash may leave of an entry
        path = os.path.join(it.gated.journal, "gate-000002.journal")
        with open(path, "ab") as file:
            file.write(b"> peer 1 mempool\n< listi")
        lines, status = it.gated.audit()
        same("status", status, 0)
        true("the cut is told: %s" % lines, lines[1].endswith("(24 bytes of an entry that was cut are left out)"))
        with open(path, "ab") as file:
            file.write(b"ng 7\n")
        lines, status = it.gated.audit()
        same("a false entry", (status, lines[1].split(" ")[1]), (1, "illegal"))


def test_a_service(gate):
    """systemd is told when the gate is open, when it is not, and when gated ends."""
    with Beside(gate) as it:
        path = os.path.join(it.folder.name, "notify")
        with socket.socket(socket.AF_UNIX, socket.SOCK_DGRAM) as listens:
            listens.bind(path)
            listens.settimeout(60)
            it.gated.start(NOTIFY_SOCKET=path)
            same("open", listens.recv(1000).decode(), "READY=1\nSTATUS=follows the node, tip 119")
            it.node.mine()
            same("a block", listens.recv(1000).decode(), "STATUS=follows the node, tip 120")
            it.node.die()
            true("away", listens.recv(1000).decode().startswith("STATUS=not open: the node does not answer"))
            it.gated.process.send_signal(signal.SIGTERM)
            found = ""
            while found != "STOPPING=1":
                found = listens.recv(1000).decode()


def test_segments(gate):
    """A segment that is full ends, and the gate is opened anew with the next one."""
    with Beside(gate, "--segment", "40") as it:
        it.gated.start()
        for _ in range(30):
            it.pay()
            until("it is in the gate's pool", lambda: it.gated.listing() == set(it.node.pool()))
        true("several openings", it.gated.metric("gate_openings_total") >= 3)
        it.agrees()
        it.gated.end()
        lines, status = it.gated.audit()
        same("status", status, 0)
        true("several segments: %s" % lines, len(lines) >= 3)
        # the first is the peer's coming, and a job has seven entries at the most
        true("none has more than 40 behind its pool: %s" % lines, all(int(line.split(" ")[2]) <= 1 + 30 + 40 + 7 for line in lines))


def test_differences(gate):
    """What the node takes and the gate doesn't is counted by rule, with the figures of `gate run --explain`, and so is what the
    node drops and the gate keeps."""
    with Beside(gate) as it:
        it.open()
        dust = Transaction([Input(number_hash(it.spare.pop(0)))], [Output(200), Output(COIN_VALUE - 1000)])
        with it.node.lock:
            it.node.model.alone = lambda tx: iter(())
            same("the node", it.node.submit(dust).split(" ")[0], "admitted")
            del it.node.model.alone
        until("it is counted", lambda: it.gated.differences() == {"A17": 1})
        it.child(dust, 1)
        until("so is its child", lambda: it.gated.differences() == {"A17": 1, "parent": 1})
        kept = it.pay()
        until("it is there", lambda: kept.txid() in it.gated.rpc("getrawmempool"))
        with it.node.lock:
            before = it.node.pool()
            it.node.model.pool = [one for one in it.node.model.pool if one.tx is not kept]
            it.node.changed(before, set())
        until("what it keeps is counted", lambda: it.gated.differences() == {"A17": 1, "parent": 1, "kept": 1})
        until("the figures are there", lambda: "output 0: value 200, needs 294" in it.gated.page("/"))
        page = it.gated.page("/")
        true("the page has the transactions", dust.txid() in page and kept.txid() in page)
        true("and what the rule is", "A17: dust" in page)
        true("only in the node's pool", until("both pools were compared", lambda: it.gated.metric("gate_only_in_node") == 2))
        same("only in the gate's", it.gated.metric("gate_only_in_gate"), 1)


def test_random_streams(gate):
    """Payments, children, replacements, blocks and reorganisations that are drawn: the pools are alike after each."""
    draw = random.Random(66)
    with Beside(gate) as it:
        it.open()
        coins = {(number_hash(number), 0): COIN_VALUE for number in range(60)}
        for _ in range(150):
            kind = draw.random()
            if kind < 0.75:
                outpoint = draw.choice(list(coins))
                outputs, fee = draw.randint(1, 3), draw.choice((100, 150, 400, 2000, 5000))
                if coins[outpoint] > outputs * 1000 + fee:
                    tx = payment_of(outpoint, coins[outpoint], fee, outputs, draw.choice((0xFFFFFFFD, 0xFFFFFFFF)))
                    if it.node.submit(tx).startswith("admitted"):
                        coins.update({(tx.hash(), index): one.value for index, one in enumerate(tx.outputs)})
            elif kind < 0.9:
                pool = it.node.in_order([one.tx for one in it.node.model.pool])
                it.node.mine(pool[: draw.randint(0, len(pool))])
            elif it.node.model.blocks:
                depth = draw.randint(1, min(6, len(it.node.model.blocks)))
                blocks, fork = [], (it.node.base + it.node.model.blocks)[-depth - 1]
                for _ in range(depth + 1):
                    blocks.append(it.node.block([], blocks[-1] if blocks else fork, after=draw.randint(590, 650)))
                it.node.move(depth, blocks)
            if draw.random() < 0.2:
                it.is_alike()
        it.is_alike()
        it.agrees()
        same("openings", it.gated.metric("gate_openings_total"), 1)
        it.gated.end()
        it.gated.is_legal(1)
