"""tools/opening and tools/compare, on what two nodes answered (data/README.md)."""

import json
import os
import signal
import subprocess
import sys
import tempfile

from bitcoin import Input, Output, Transaction, WITNESS_KEY_HASH, number_hash
from gate import ROOT, same, same_lines
from model import releases

sys.path.insert(0, os.path.join(ROOT, "gated"))

from gated import node

DATA = os.path.join(ROOT, "tests", "data")
NODES = ("knots-29", "litecoin-0.21")
VERSION_3 = "679a1599a59ff7d18d3b27188abe082d71ecdae708bd26702561245abeebbef5"
DUST = "90f14d64b742aee6869e3203ecb235f4176f0e89bc31305038ac63d4ad11bc04"
FAILING_SCRIPT = "b3347f8030e4d37a3d5eadafb6e3816b18866e4169e53644138f19756ca42eda"
KNOTS_DIFFERS = [
    "known: gate: A12 version; node: taken with fee 400 and virtual size 96 (version 3 is standard (BIP 431))",
    "    " + VERSION_3,
    "known: gate: A17 dust; node: dust-nonanchor (the same refusal under another name)",
    "    " + DUST,
    "known: gate: A44 non-mandatory-script-verify-flag; node: mempool-script-verify-flag-failed"
    " (Witness program hash mismatch) (the same refusal under another name)",
    "    " + FAILING_SCRIPT,
]


def recording(name):
    return os.path.join(DATA, name + ".jsonl")


def trials(name):
    return os.path.join(DATA, name + ".hex")


def calls(name):
    with open(recording(name), encoding="utf-8") as lines:
        return [json.loads(line) for line in lines]


def result_of(recorded, method):
    """The first answer to this method, to be changed."""
    return next(call["result"] for call in recorded if call["method"] == method)


def ran(tool, *words):
    done = subprocess.run([os.path.join(ROOT, "tools", tool), *words], capture_output=True, text=True, check=False)
    return done.stdout.splitlines(), done.stderr, done.returncode


def compared(gate, *words):
    return ran("compare", *words, gate.program)


def compared_with(gate, recorded, name):
    """The same on a recording that was changed."""
    with tempfile.TemporaryDirectory() as folder:
        return compared(gate, "--from", written(folder, recorded), "--try", trials(name))


def written(folder, recorded):
    path = os.path.join(folder, "recording.jsonl")
    with open(path, "w", encoding="utf-8") as file:
        file.writelines(json.dumps(call) + "\n" for call in recorded)
    return path


def test_pools_and_trials(gate):
    """Every transaction of both pools is admitted with the node's fee and size, and every trial gets the node's decision,
    or differs as is known."""
    found = compared(gate, "--from", recording(NODES[1]), "--try", trials(NODES[1]))
    same("litecoin-0.21", found, (["71 compared: 71 alike, 0 known differences, 0 others"], "", 0))
    wanted = KNOTS_DIFFERS + ["71 compared: 68 alike, 3 known differences, 0 others"]
    found, said, status = compared(gate, "--from", recording(NODES[0]), "--try", trials(NODES[0]))
    same_lines(found, wanted)
    same("standard error and status", (said, status), ("", 0))


def opened_from(recorded, *words):
    """The lines that tools/opening makes of a recording."""
    with tempfile.TemporaryDirectory() as folder:
        lines, said, status = ran("opening", "--from", written(folder, recorded), *words)
    same("standard error and status", (said, status), ("", 0))
    return lines


def test_full_replacement_is_told(gate):
    """A node that replaces whatever pays more is followed in it, and no other is. One that doesn't say it does as its release,
    which the opening names."""
    recorded = calls(NODES[0])
    for is_on, release, wanted in (
        (True, 240000, ["mempoolfullrbf 1"]),
        (False, 280000, ["policy core-28", "mempoolfullrbf 0"]),
        (None, 280000, ["policy core-28"]),
        (None, 310000, ["policy core-30"]),
        (None, 220000, []),
        (None, 270200, ["policy core-27"]),
    ):
        result_of(recorded, "getnetworkinfo").update({"version": release, "subversion": ""})
        told = result_of(recorded, "getmempoolinfo")
        told.pop("fullrbf", None)
        if is_on is not None:
            told["fullrbf"] = is_on
        lines = opened_from(recorded)
        same_lines([it for it in lines[: lines.index("---")] if it.startswith(("policy", "mempoolfullrbf"))], wanted)


def test_names_of_releases(gate):
    """A node of each version is of the release whose name an opening has for it (docs/FORMATS.md), and of no name before them."""
    table = releases()
    for name, version in ((it, int(it.partition("-")[2]) * 10000) for it in table if it.startswith("core-")):
        wanted = name if table[name] else None
        # the numbers of the table are those of 29.1
        later = 100 if name == "core-29" else 0
        same(name, [node.policy_of({"version": version + it}) for it in (later, 9900)], [wanted, wanted])
    for version, subversion, wanted in (
        (210200, "/LitecoinCore:0.21.2/", None),
        (249900, "/Satoshi:24.99.0/", None),
        (290000, "/Satoshi:29.0.0/", "core-28"),
        (310000, "/Satoshi:31.0.0/", "core-30"),
        (280100, "/Satoshi:28.1.0/Knots:20250305/", "core-28"),
        (290403, "/Satoshi:29.4.3/Knots:20260508/", "knots-29"),
    ):
        same(subversion, node.policy_of({"version": version, "subversion": subversion}), wanted)
    same("a name for each release", {node.policy_of({"version": it}) for it in range(200000, 320000, 100)} | {"knots-29"}, {it if table[it] else None for it in table})


def test_data_outputs_are_told(gate):
    """Bitcoin Core 30.0 tells what all data of a transaction may come to: each output may have so much, and all together. What
    is above the greatest number of a line decides nothing."""
    recorded = calls(NODES[0])
    result_of(recorded, "getnetworkinfo").update({"version": 300000, "subversion": ""})
    for most, wanted in ((83, 83), (0, 0), (100000, 100000), (4000000, 100000)):
        result_of(recorded, "getmempoolinfo")["maxdatacarriersize"] = most
        lines = opened_from(recorded)
        same_lines([it for it in lines[: lines.index("---")] if it.startswith("data")], ["datacarriersize %d" % wanted, "datacarriertotal %d" % wanted])


def test_settings_that_are_said(gate):
    """Lines of a file and of `--set` stand in the opening in the place of what the node has, and a release in the place of its own."""
    recorded = calls(NODES[0])
    with tempfile.TemporaryDirectory() as folder:
        path = os.path.join(folder, "settings")
        with open(path, "w", encoding="utf-8") as file:
            file.write("# of this node\nmintxsize 70\nmempoolexpiry 24\n")
        lines = opened_from(recorded, "--settings", path, "--set", "mempoolexpiry 48", "--policy", "core-30")
    said = [it for it in lines[: lines.index("---")] if it.split(" ")[0] in ("mintxsize", "mempoolexpiry", "policy", "mempoolfullrbf")]
    same_lines(sorted(said), ["mempoolexpiry 48", "mempoolfullrbf 0", "mintxsize 70", "policy core-30"])
    done = gate.run("run", "".join(it + "\n" for it in lines[: lines.index("---") + 1]))
    same("the opening", (done.status, done.stdout), (0, b""))
    lines = opened_from(recorded)
    same_lines([it for it in lines if it.startswith("policy")], ["policy knots-29"])


def test_the_floor(gate):
    """The floor of the node's pool is set if it is above the node's relay minimum, which is the gate's then."""
    recorded = calls(NODES[1])
    told = result_of(recorded, "getmempoolinfo")
    for minimum, floor, wanted in (
        ("0.00001000", "0.00001000", []),
        ("0.00001000", "0.00001001", ["operator floor 1001"]),
        ("0.00005000", "0.00005000", []),
        ("0.00000100", "0.00000100", []),
        ("0.00000100", "0.00000500", ["operator floor 500"]),
        ("0.00000001", "0.00000002", ["operator floor 2"]),
    ):
        told["minrelaytxfee"], told["mempoolminfee"] = float(minimum), float(floor)
        lines, rate = opened_from(recorded), round(float(minimum) * 100000000)
        same_lines([it for it in lines if it.startswith("operator")], wanted)
        same_lines([it for it in lines if it.startswith("minrelaytxfee")], ["minrelaytxfee %d" % rate])
    told["minrelaytxfee"], told["mempoolminfee"] = 0.00001, 0.00001
    found, said, status = compared_with(gate, recorded, NODES[1])
    same("the last line, standard error, status", (found[-1], said, status), ("71 compared: 71 alike, 0 known differences, 0 others", "", 0))


class MovingNode(node.OneByOne):
    """A recorded node whose tip is another one from the second question for it on."""

    def __init__(self, path):
        self.node, self.tips = node.RecordedNode(path), 0

    def ask(self, method, *params):
        answer = self.node.ask(method, *params)
        if method == "getblockchaininfo":
            self.tips += 1
            return dict(answer, bestblockhash="%064x" % self.tips) if self.tips > 1 else answer
        return answer


def test_a_block_behind_the_listing(gate):
    """A block that comes while a node is asked is noticed, also if no coin is asked behind it."""
    moving = node.View(MovingNode(recording(NODES[1])))
    try:
        found = list(node.opening(moving, [], []))
    except node.Unusable as error:
        found = str(error)
    same("what is said", found, "a block came while the node was asked: start again")
    same_lines(list(node.opening(node.View(node.RecordedNode(recording(NODES[1]))), [], []))[-2:], ["---", "peer 1 enter 127.0.0.1"])


def test_a_reader_that_has_enough(gate):
    """Behind a closed pipe nothing is said."""
    for words in (["opening"], ["compare", gate.program]):
        read, write = os.pipe()
        os.close(read)
        words[1:1] = ["--from", recording(NODES[1])]
        done = subprocess.run([os.path.join(ROOT, "tools", words[0]), *words[1:]], stdout=write, stderr=subprocess.PIPE, check=False)
        os.close(write)
        same("standard error and status", (done.stderr, done.returncode), (b"", 128 + signal.SIGPIPE))


def test_a_running_node(gate):
    """A node that is asked by its command answers as its recording does. The pool is cut to three entries, since each
    question starts a process."""
    recorded = calls(NODES[1])
    pool = result_of(recorded, "getrawmempool")
    for txid in sorted(pool, key=lambda it: pool[it]["ancestorcount"])[3:]:
        del pool[txid]
    with tempfile.TemporaryDirectory() as folder:
        path = written(folder, recorded)
        command = "%s %s" % (os.path.join(ROOT, "tests", "recorded_node.py"), path)
        again = os.path.join(folder, "again.jsonl")
        same("opening", ran("opening", "--cli", command, "--record", again), ran("opening", "--from", path))
        same("compare with what was written down", compared(gate, "--from", again), (["3 compared: 3 alike, 0 known differences, 0 others"], "", 0))


def test_differences_are_told(gate):
    """What differs and isn't known is listed, and the status is 1."""
    recorded = calls(NODES[1])
    pool = result_of(recorded, "getrawmempool")
    dearer, larger = sorted(it for it in pool if not pool[it]["depends"])[:2]
    fee, size = round(pool[dearer]["fees"]["base"] * 1e8), pool[larger]["vsize"]
    other_fee = round(pool[larger]["fees"]["base"] * 1e8)
    pool[dearer]["fees"]["base"] = (fee + 1) / 1e8
    pool[larger]["vsize"] += 1
    refused = next(call["result"][0] for call in recorded if call["method"] == "testmempoolaccept" and call["result"][0]["allowed"])
    refused.update({"allowed": False, "reject-reason": "dust"})
    taken = "taken with fee %d and virtual size %d"
    wanted = [
        "differs: gate: %s; node: %s" % (taken % (fee, pool[dearer]["vsize"]), taken % (fee + 1, pool[dearer]["vsize"])),
        "    " + dearer,
        "differs: gate: %s; node: %s" % (taken % (other_fee, size), taken % (other_fee, size + 1)),
        "    " + larger,
        "differs: gate: taken with fee 400 and virtual size 96; node: dust",
        "    " + refused["txid"],
    ]
    found, said, status = compared_with(gate, recorded, NODES[1])
    same("in pairs of lines", sorted(zip(found[:-1:2], found[1:-1:2])), sorted(zip(wanted[::2], wanted[1::2])))
    same("the last line, standard error, status", (found[-1], said, status), ("71 compared: 68 alike, 0 known differences, 3 others", "", 1))


def test_known_differences_are_those_of_later_releases(gate):
    """The same answers of a node of an earlier release are no known differences."""
    recorded = calls(NODES[0])
    result_of(recorded, "getnetworkinfo")["version"] = 220000
    found, said, status = compared_with(gate, recorded, NODES[0])
    same("the last line, standard error, status", (found[-1], said, status), ("71 compared: 68 alike, 0 known differences, 3 others", "", 1))


def test_what_does_not_read(gate):
    """What is no transaction is refused by both sides, and comments and empty lines are skipped."""
    recorded = calls(NODES[1])
    refused = {"error": {"message": "TX decode failed. Make sure the tx has at least one input."}}
    recorded += [dict(refused, method="testmempoolaccept", params=[[digits], 0]) for digits in ("00", "0200000000")]
    with tempfile.TemporaryDirectory() as folder:
        tried = os.path.join(folder, "tried.hex")
        with open(tried, "w", encoding="utf-8") as file:
            file.write("# cut\n00\n\n0200000000\n")
        found = compared(gate, "--from", written(folder, recorded), "--try", tried)
    same("compare", found, (["53 compared: 53 alike, 0 known differences, 0 others"], "", 0))


def test_children_of_what_is_denied(gate):
    """A pool transaction that is denied here takes its children along, which is told as what it is."""
    recorded = calls(NODES[1])
    pool = result_of(recorded, "getrawmempool")
    (parent,) = {it for one in pool.values() for it in one["depends"] if sum(it in other["depends"] for other in pool.values()) == 5}
    spent = next(call["result"] for call in recorded if call["method"] == "getrawtransaction" and call["params"] == [parent])
    for it in node.read_transaction(spent).spent:
        coin = next(call for call in recorded if call["method"] == "gettxout" and call["params"][:2] == [it.txid, it.index])
        coin["result"] = None
    children = sum(parent in one["depends"] for one in pool.values())
    found, said, status = compared_with(gate, recorded, NODES[1])
    told = [line for line in found if line.endswith("(a parent of the pool is denied here)")]
    same("children", (len(told) > 0, children, said, status), (True, 5, "", 1))


def test_an_opening_and_its_pool(gate):
    """The opening is taken, at the node's heights and with the times that it gave, and every event behind it is granted."""
    for name in NODES:
        lines, said, status = ran("opening", "--from", recording(name))
        same("standard error and status", (said, status), ("", 0))
        given = [call["result"]["time"] for call in calls(name) if call["method"] == "getblockheader"]
        same_lines([line for line in lines if line.startswith(("from", "times"))], ["from 132"] + ["times 1 %d 0" % it for it in given])
        done = gate.run("run", "".join(line + "\n" for line in lines))
        words = [line.split(" ")[0] for line in done.stdout.decode().splitlines()]
        same("replies", words, ["entered"] + ["admitted"] * 51)


class FakeView:
    """A chain whose block times are a thousand times their heights."""

    def __init__(self, tip):
        self.tip = tip

    def times(self, heights):
        return [1000 * it for it in heights]


def times(first, last):
    """The lines of the times of such a chain."""
    return ["from %d" % first] * (first > 0) + ["times 1 %d 0" % (1000 * it) for it in range(first, last + 1)]


def test_times(gate):
    """The last eleven, and all from the eleventh before the lowest height under a lock of time on; none is made up."""
    same_lines(node.times_of(FakeView(3), set()), times(0, 3))
    same_lines(node.times_of(FakeView(10), set()), times(0, 10))
    same_lines(node.times_of(FakeView(11), set()), times(1, 11))
    same_lines(node.times_of(FakeView(100), set()), times(90, 100))
    same_lines(node.times_of(FakeView(100), {30}), times(19, 100))
    same_lines(node.times_of(FakeView(100), {60, 30, 100}), times(19, 100))
    same_lines(node.times_of(FakeView(100), {100}), times(89, 100))
    for lowest in (0, 1, 11):
        same_lines(node.times_of(FakeView(20), {lowest, 20}), times(0, 20))
    same_lines(node.times_of(FakeView(20), {12}), times(1, 20))


def test_too_many_times(gate):
    """A lock that asks for more than an opening has is told, and no time is asked for."""
    try:
        found = node.times_of(FakeView(1000010), {11})
    except node.Unusable as error:
        found = str(error)
    same("what is said", found, "a relative lock asks for 1000011 block times, and an opening has at most 1000000")
    same("the most", node.first_height(FakeView(1000010), {22}), 11)


class LockedNode(node.OneByOne):
    """A node on a chain of ten minutes a block, with one transaction in its pool, which spends a coin of an old block under a
    relative lock by time."""

    tip, height, first_time = 900060, 900030, 1700000000

    def __init__(self, lock):
        self.transaction = Transaction([Input(number_hash(1), sequence=1 << 22 | lock)], [Output(99000)])

    def ask(self, method, *params):
        txid = self.transaction.txid()
        coin = {
            "bestblock": "%064x" % self.tip, "confirmations": self.tip - self.height + 1, "coinbase": False, "value": "0.001",
            "scriptPubKey": {"hex": WITNESS_KEY_HASH.hex()},
        }
        return {
            "getblockchaininfo": lambda: {"chain": "regtest", "blocks": self.tip, "bestblockhash": "%064x" % self.tip},
            "getnetworkinfo": lambda: {"version": 220000},
            "getmempoolinfo": lambda: {"maxmempool": 300000000, "mempoolminfee": "0.00001", "minrelaytxfee": "0.00001"},
            "getrawmempool": lambda *_: {txid: {"time": self.first_time, "ancestorcount": 1, "depends": [], "fees": {"base": "0.00001"}, "vsize": 82}},
            "getrawtransaction": lambda _: self.transaction.hex(),
            "gettxout": lambda *_: coin,
            "getblockhash": lambda height: "%064x" % height,
            "getblockheader": lambda hash: {"time": self.first_time + 600 * int(hash, 16)},
        }[method](*params)


def test_a_lock_by_time(gate):
    """A pool's transaction under a relative lock by time is admitted above the times that the tool asks for, and with one
    time less, or a lock that isn't met, it isn't. The heights are the node's."""
    # between the median times past of the coin's height less 1 and of the tip are 31 blocks of 600 seconds
    for lock, first, reply in ((36, None, "admitted"), (36, 900020, "denied A26"), (37, None, "denied A26")):
        view = node.View(LockedNode(lock))
        lines = list(node.opening(view, view.entries(), []))
        same_lines([line for line in lines if line.startswith("from")], ["from 900019"])
        same("times", len([line for line in lines if line.startswith("times")]), 42)
        if first:
            lines[lines.index("from 900019")] = "from %d" % first
            lines.remove(next(line for line in lines if line.startswith("times")))
        done = gate.run("run", "".join(line + "\n" for line in lines))
        same("replies", [line[: len(reply)] for line in done.stdout.decode().splitlines()[1:]], [reply])


def test_parents_come_first(gate):
    """Whatever the times say, and each once."""
    depends = {"a": [], "b": ["c"], "c": ["a", "d"], "d": []}
    same("order", node.parents_first(["b", "a", "c", "d"], depends), ["d", "a", "c", "b"])
    same("kept", node.parents_first(["d", "a", "c", "b"], depends), ["d", "a", "c", "b"])


def test_amounts(gate):
    """Whole satoshi, to the last one."""
    for text, wanted in (("20999999.97690001", 2099999997690001), ("0.00000001", 1), ("1e-8", 1), ("0.001", 100000), ("0", 0)):
        same(text, node.satoshi(node.read_json(text)), wanted)


def test_nodes_that_fail(gate):
    """One line says what a node answered wrongly, and nothing is printed."""
    moved = calls(NODES[1])
    result_of(moved, "getblockchaininfo")["bestblockhash"] = "00" * 32
    without = calls(NODES[1])
    del result_of(without, "getmempoolinfo")["mempoolminfee"]
    with tempfile.TemporaryDirectory() as folder:
        lacking = os.path.join(folder, "lacking.jsonl")
        os.rename(written(folder, without), lacking)
        for words, wanted in (
            (("--cli", "/no/such/command"), "opening: /no/such/command does not start: No such file or directory\n"),
            (("--cli", "echo"), "opening: an answer of the node does not read: Expecting value: line 1 column 1 (char 0)\n"),
            (("--from", "/no/such/file"), "opening: [Errno 2] No such file or directory: '/no/such/file'\n"),
            (("--from", lacking), "opening: an answer of the node has no field 'mempoolminfee'\n"),
            (("--rpc", "false"), "opening: false getblockchaininfo: status 1\n"),
            (("--from", os.devnull), 'opening: the recording has no answer to ["getblockchaininfo"]\n'),
            (("--from", written(folder, moved)), "opening: a block came while the node was asked: start again\n"),
        ):
            same(" ".join(words), ran("opening", *words), ([], wanted, 1))
