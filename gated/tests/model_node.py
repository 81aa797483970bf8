"""A node of ours, for tests: it speaks JSON-RPC and ZMQ as bitcoind does, over the plain model of the policy (tests/chain_model.py),
and can be told to lose messages, to answer late or wrongly, and to die."""

import base64
import copy
import json
import os
import re
import secrets
import socket
import threading
import time
from dataclasses import dataclass
from decimal import Decimal
from http.server import BaseHTTPRequestHandler, ThreadingHTTPServer

import zmq
from bitcoin import WITNESS_KEY_HASH, Input, Output, Transaction, counted, hashed, number_hash, printed
from chain_model import Block, ChainModel, is_coinbase, made_by
from model import Coin, Opening, fees_of, size_of

# the base of the chain: blocks that were there before anybody looked
BASE_TIMES = [1_700_000_000 + 600 * height for height in range(120)]
BASE_COINS = 64
COIN_VALUE = 10_000_000
SATOSHI = 100_000_000
RELEASE = 220000
# how long an answer takes that comes too late
LATE_SECONDS = 2.5
# the first release whose sendrawtransaction asks what is burnt, and what one before says to a caller who gives a bound
BURN_BOUND_SINCE = 250000
SENDING_HELP = 'sendrawtransaction "hexstring" ( maxfeerate )'
WITHOUT_COINS = "sendrawtransaction, without coins"
# how a question is named that only asks whether the node takes packages
WITHOUT_MEMBERS = "submitpackage, without members"
# why a member of a package waits for the others
MENDED = ("A25", "A34", "A35")
NOWHERE = b"\xff" * 32


def btc(satoshi):
    return "%d.%08d" % divmod(satoshi, SATOSHI)


def amount(satoshi):
    """A number with eight places: `replied` takes the marks away, and with them what makes it a text."""
    return "@%s@" % btc(satoshi)


@dataclass
class NodeBlock(Block):
    """A block with a header of its own: its parent, and a number that no other block has."""

    parent: bytes = bytes(32)
    nonce: int = 0
    height: int = 0

    def header(self):
        return bytes(4) + self.parent + bytes(32) + self.time.to_bytes(4, "little") + bytes(4) + self.nonce.to_bytes(4, "little")

    def hash(self):
        return hashed(self.header())

    def hex(self):
        return (self.header() + counted([tx.text() for tx in self.txs])).hex()


@dataclass
class Failure:
    """How a method of the node fails, so many times: by status 503 (`busy`), a connection that is cut (`cut`), an answer that comes
    too late (`late`) or is no JSON (`odd`); before the node does what it is asked, or after."""

    kind: str
    is_done: bool = False
    times: int = 1_000_000

    def answer(self):
        if self.kind == "late":
            time.sleep(LATE_SECONDS)
        return {"busy": (503, b"Work queue depth exceeded"), "cut": (None, b""), "late": (None, b""), "odd": (200, b"<html>")}[self.kind]


class RpcError(Exception):
    def __init__(self, code, message):
        super().__init__(message)
        self.code = code


class ModelNode:
    """The node. Tests change it by its methods; whoever asks it sees it between two of them."""

    def __init__(self, folder, has_zmq=True, has_prevouts=True, has_index=False, release=RELEASE, settings=None):
        self.release = release
        # whether it tries several transactions at once, as Bitcoin Core 22.0 does
        self.takes_lists = True
        # whether it takes packages, as Bitcoin Core since 28.0
        self.takes_packages = True
        self.cookie = os.path.join(folder, "node.cookie")
        self.has_prevouts, self.has_index = has_prevouts, has_index
        self.lock = threading.RLock()
        coins = {(number_hash(number), 0): Coin(COIN_VALUE, number, False) for number in range(BASE_COINS)}
        self.model = ChainModel(Opening(list(BASE_TIMES), coins, {"*": "ok"}, settings=settings or {}))
        self.model.enter(1)
        self.base = self.base_blocks()
        self.known = {block.hash(): block for block in self.base}
        self.heights, self.transactions = {}, {}
        self.sequence, self.nonce = 1, 1000
        # every coin that ever was, and the transactions that callers may send, by their text
        self.coins, self.sent = dict(coins), {}
        # what goes wrong
        self.lost, self.late, self.wrong = 0, 0.0, {}
        # how many further requests it is too busy for, and what it keeps from being announced until it is told to go on
        self.busy, self.held = 0, None
        # by the name of a method
        self.failures = {}
        self.asked = []
        self.socket, self.count, self.endpoint = None, 0, None
        if has_zmq:
            self.publish_at("tcp://127.0.0.1:*")
        self.server, self.port, self.connections = None, 0, []
        self.start()

    def base_blocks(self):
        found, parent = [], bytes(32)
        for height, at in enumerate(BASE_TIMES):
            found.append(NodeBlock(at, [], parent, height, height))
            parent = found[-1].hash()
        return found

    # its life

    def start(self):
        """Listens, with a cookie of its own."""
        self.password = secrets.token_hex(16)
        with open(self.cookie, "w") as file:
            file.write("__cookie__:" + self.password)
        node = self

        class Door(BaseHTTPRequestHandler):
            protocol_version = "HTTP/1.1"

            def do_POST(self):
                body = self.rfile.read(int(self.headers["Content-Length"]))
                status, text = node.replied(self.headers.get("Authorization", ""), body)
                if status is None:
                    self.close_connection = True
                    return
                self.send_response(status)
                self.send_header("Content-Length", str(len(text)))
                self.end_headers()
                self.wfile.write(text)

            def log_message(self, *_):
                pass

        class Server(ThreadingHTTPServer):
            daemon_threads = True
            allow_reuse_address = True

            def handle_error(self, *_):
                pass

            def get_request(self):
                found = super().get_request()
                node.connections.append(found[0])
                return found

        self.server = Server(("127.0.0.1", self.port), Door)
        self.port = self.server.server_address[1]
        threading.Thread(target=self.server.serve_forever, kwargs={"poll_interval": 0.05}, daemon=True).start()

    def publish_at(self, endpoint):
        self.socket = zmq.Context.instance().socket(zmq.PUB)
        self.socket.setsockopt(zmq.LINGER, 0)
        self.socket.setsockopt(zmq.SNDHWM, 0)
        self.socket.bind(endpoint)
        self.endpoint, self.count = self.socket.getsockopt_string(zmq.LAST_ENDPOINT), 0

    def die(self):
        """Ends without a word; the chain and the pool are on its disk."""
        self.server.shutdown()
        self.server.server_close()
        for it in self.connections:
            try:
                it.shutdown(socket.SHUT_RDWR)
            except OSError:
                pass
        self.connections.clear()
        self.server = None
        if self.socket is not None:
            self.socket.close()

    def rise(self):
        """Starts anew: another cookie, and its counts from the beginning."""
        self.sequence = 1
        if self.endpoint is not None:
            self.publish_at(self.endpoint)
        self.start()

    def close(self):
        if self.server is not None:
            self.die()

    @property
    def url(self):
        return "http://127.0.0.1:%d" % self.port

    # what it announces

    def announce(self, hash, kind, sequence=None):
        if self.socket is None:
            return
        if self.held is not None:
            self.held.append((hash, kind, sequence))
            return
        body = bytes.fromhex(hash) + kind.encode() + (b"" if sequence is None else sequence.to_bytes(8, "little"))
        count, self.count = self.count, self.count + 1
        if self.lost:
            self.lost -= 1
            return
        self.socket.send_multipart([b"sequence", body, count.to_bytes(4, "little")])

    def numbered(self):
        self.sequence += 1
        return self.sequence - 1

    # its pool and its chain

    def pool(self):
        return {entry.tx.txid(): entry for entry in self.model.pool}

    def submit(self, tx, now=None):
        """The model's reply, announced as what left and what came."""
        with self.lock:
            before = self.pool()
            reply = self.model.submit(1, int(time.time()) if now is None else now, tx)
            self.changed(before, set())
            return reply

    def changed(self, before, confirmed):
        after = self.pool()
        for txid in before:
            if txid not in after:
                number = self.numbered()
                if txid not in confirmed:
                    self.announce(txid, "R", number)
        for txid, entry in after.items():
            self.transactions[entry.hash] = entry.tx
            if txid not in before:
                self.heights[txid] = self.model.tip
                self.announce(txid, "A", self.numbered())

    def tip(self):
        return (self.base + self.model.blocks)[-1]

    def block(self, txs, parent=None, after=600):
        """A block of these transactions above this one, or above the tip."""
        parent = parent or self.tip()
        self.nonce += 1
        height = parent.height + 1
        coinbase = Transaction([Input(bytes(32), 0xFFFFFFFF, self.nonce.to_bytes(4, "little"))], [Output(50 * SATOSHI)])
        return NodeBlock(parent.time + after, [coinbase, *txs], parent.hash(), self.nonce, height)

    def mine(self, txs=None):
        """A block of the whole pool, or of these."""
        with self.lock:
            chosen = self.in_order([it.tx for it in self.model.pool]) if txs is None else txs
            return self.move(0, [self.block(chosen)])

    def in_order(self, txs):
        """Parents first, whatever the order of admission."""
        found, waiting = [], list(txs)
        while waiting:
            hashes = {it.hash() for it in waiting}
            ready = [it for it in waiting if not any(one.hash in hashes for one in it.inputs)]
            found += ready
            waiting = [it for it in waiting if it not in ready]
        return found

    def move(self, depth, blocks):
        with self.lock:
            before, gone = self.pool(), self.model.blocks[len(self.model.blocks) - depth :] if depth else []
            reply = self.model.chain(depth, int(time.time()), blocks)
            assert reply.startswith("chain "), reply
            for block in blocks:
                self.known[block.hash()] = block
                for place, tx in enumerate(block.txs):
                    self.transactions[tx.hash()] = tx
                    self.coins.update(made_by(tx, block.height, place == 0))
            for block in reversed(gone):
                self.announce(printed(block.hash()), "D")
            for block in blocks:
                self.announce(printed(block.hash()), "C")
            self.changed(before, {tx.txid() for block in blocks for tx in block.txs})
            return reply

    # its answers

    def replied(self, authorization, body):
        kind, _, digits = authorization.partition(" ")
        if kind != "Basic" or base64.b64decode(digits).decode() != "__cookie__:" + self.password:
            return 401, b""
        time.sleep(self.late)
        if self.busy:
            self.busy -= 1
            return 503, b"Work queue depth exceeded"
        call = json.loads(body)
        calls = call if isinstance(call, list) else [call]
        failure = next((it for it in map(self.failures.get, map(named, calls)) if it is not None and it.times > 0), None)
        if failure is not None:
            failure.times -= 1
        with self.lock:
            answers = [] if failure is not None and not failure.is_done else [self.answer(it) for it in calls]
        if failure is not None:
            return failure.answer()
        if None in answers:
            return None, b""
        value = answers if isinstance(call, list) else answers[0]
        text = re.sub(r'"@([0-9.]+)@"', r"\1", json.dumps(value)).encode()
        if "cut" in self.wrong:
            text = text[: len(text) // 2]
        failed = not isinstance(call, list) and value["error"]
        return 500 if failed else 200, text

    def answer(self, call):
        """One answer, or None if the node dies within it."""
        method = call["method"]
        self.asked.append(named(call))
        found = {"result": None, "error": None, "id": call["id"]}
        try:
            params = call["params"]
            run = getattr(self, "do_" + method)
            found["result"] = run(**params) if isinstance(params, dict) else run(*params)
        except AttributeError:
            found["error"] = {"code": -32601, "message": "Method not found"}
        except RpcError as error:
            found["error"] = {"code": error.code, "message": str(error)}
        change = self.wrong.get(named(call))
        return change(found) if change else found

    def do_getblockchaininfo(self):
        return {"chain": "regtest", "blocks": self.model.tip, "bestblockhash": self.do_getbestblockhash()}

    def do_getzmqnotifications(self):
        return [{"type": "pubsequence", "address": self.endpoint, "hwm": 1000}] if self.endpoint else []

    def do_getnetworkinfo(self):
        return {"version": self.release}

    def do_getbestblockhash(self):
        return printed(self.tip().hash())

    def do_getmempoolinfo(self):
        pool = self.model.pool
        return {
            "loaded": True, "size": len(pool), "bytes": size_of(pool), "maxmempool": self.model.opening.budget,
            "mempoolminfee": amount(max(self.model.floor, 1000)), "minrelaytxfee": amount(1000),
        }  # fmt: skip

    def do_getrawmempool(self, verbose=False, sequence=False):
        pool = self.pool()
        if verbose:
            return {txid: self.listed(entry) for txid, entry in pool.items()}
        return {"txids": list(pool), "mempool_sequence": self.sequence} if sequence else list(pool)

    def listed(self, entry):
        above, below = self.model.above(entry.tx) | {entry}, self.model.below([entry])
        return {
            "vsize": entry.size, "weight": entry.tx.weight(), "time": entry.time, "height": self.heights[entry.tx.txid()],
            "ancestorcount": len(above), "ancestorsize": size_of(above), "descendantcount": len(below), "descendantsize": size_of(below),
            "wtxid": entry.wtxid, "depends": [it.tx.txid() for it in self.model.parents(entry.tx)],
            "spentby": [it.tx.txid() for it in self.model.pool if entry.hash in it.parents],
            "fees": {"base": amount(entry.fee), "ancestor": amount(fees_of(above)), "descendant": amount(fees_of(below))},
        }  # fmt: skip

    def do_getmempoolentry(self, txid):
        entry = self.pool().get(txid)
        if entry is None:
            raise RpcError(-5, "Transaction not in mempool")
        return self.listed(entry)

    def do_getrawtransaction(self, txid, verbose=False, *_):
        entry = self.pool().get(txid)
        if entry is not None and not verbose:
            return entry.tx.hex()
        block = next((it for it in self.model.blocks if any(tx.txid() == txid for tx in it.txs)), None)
        if block is None or not self.has_index:
            raise RpcError(-5, "No such mempool transaction. Use -txindex or provide a block hash")
        tx = next(it for it in block.txs if it.txid() == txid)
        return {"hex": tx.hex(), "blockhash": printed(block.hash()), **self.shown(tx, False)} if verbose else tx.hex()

    def do_gettxout(self, txid, index, with_pool=True):
        coin = self.model.chain_coins().get((bytes.fromhex(txid)[::-1], index))
        if coin is None:
            return None
        return {
            "bestblock": self.do_getbestblockhash(), "confirmations": self.model.tip - coin.height + 1, "value": amount(coin.value),
            "scriptPubKey": {"hex": WITNESS_KEY_HASH.hex()}, "coinbase": coin.is_coinbase,
        }  # fmt: skip

    def do_getblockhash(self, height):
        return printed((self.base + self.model.blocks)[height].hash())

    def block_of(self, hash):
        block = self.known.get(bytes.fromhex(hash)[::-1])
        if block is None:
            raise RpcError(-5, "Block not found")
        return block

    def do_getblockheader(self, hash):
        block = self.block_of(hash)
        return {"hash": hash, "height": block.height, "time": block.time, "previousblockhash": printed(block.parent)}

    def do_getblock(self, hash, verbosity=1):
        block = self.block_of(hash)
        if verbosity == 0:
            return block.hex()
        return {"hash": hash, "height": block.height, "tx": [self.shown(tx, verbosity >= 3 and self.has_prevouts) for tx in block.txs]}

    def shown(self, tx, with_prevouts):
        inputs = []
        for one in tx.inputs:
            if is_coinbase(tx):
                inputs.append({"coinbase": one.script.hex()})
                continue
            inputs.append({"txid": printed(one.hash), "vout": one.index})
            if with_prevouts:
                coin = self.coins[(one.hash, one.index)]
                script = {"hex": WITNESS_KEY_HASH.hex()}
                inputs[-1]["prevout"] = {"generated": coin.is_coinbase, "height": coin.height, "value": amount(coin.value), "scriptPubKey": script}
        outputs = [{"n": index, "value": amount(it.value), "scriptPubKey": {"hex": it.script.hex()}} for index, it in enumerate(tx.outputs)]
        return {"txid": tx.txid(), "hash": tx.wtxid(), "vin": inputs, "vout": outputs}

    def do_testmempoolaccept(self, digits, highest="0.10"):
        if len(digits) > 1 and not self.takes_lists:
            raise RpcError(-8, "Array must contain exactly one raw transaction for now")
        tried, found = copy.deepcopy(self.model) if len(digits) > 1 else self.model, []
        for tx in map(self.parsed, digits):
            if any("allowed" in it and not it["allowed"] for it in found):
                # behind a refusal nothing is judged
                found.append({"txid": tx.txid(), "wtxid": tx.wtxid()})
                continue
            found.append(self.tried(tx, tried.failing(tx), highest))
            if tried is not self.model:
                tried.submit(1, int(time.time()), tx)
        return found

    def tried(self, tx, rule, highest):
        about = {"txid": tx.txid(), "wtxid": tx.wtxid()}
        if rule is None and self.is_past(tx, highest):
            return {**about, "allowed": False, "reject-reason": "max-fee-exceeded"}
        if rule is None:
            return {**about, "allowed": True, "vsize": self.model.size(tx), "fees": {"base": amount(self.fee_of(tx))}}
        return {**about, "allowed": False, "reject-reason": "missing-inputs" if rule == "A25" else self.reason(rule)}

    def fee_of(self, tx):
        """What a transaction pays, whose parents may be ones that callers may send."""
        made = {it.hash(): it for it in self.sent.values()}
        return sum(self.value_of(it, made) for it in tx.inputs) - sum(it.value for it in tx.outputs)

    def value_of(self, it, made):
        if (it.hash, it.index) in self.coins:
            return self.coins[(it.hash, it.index)].value
        parent = made.get(it.hash) or self.transactions[it.hash]
        return parent.outputs[it.index].value

    def is_past(self, tx, highest):
        """Whether a transaction pays more than a bound in BTC for 1,000 virtual bytes; 0 is none."""
        rate = Decimal(highest) * SATOSHI
        if rate >= SATOSHI:
            raise RpcError(-8, "Fee rates larger than or equal to 1BTC/kvB are not accepted")
        return bool(rate) and self.fee_of(tx) * 1000 > rate * self.model.size(tx)

    def reason(self, rule):
        token = self.model.denied(rule, 2).split(" ", 3)[3]
        return token + " (Witness program hash mismatch)" if rule in ("A44", "A45") else token

    def do_sendrawtransaction(self, digits, highest="0.10", burn=None):
        if self.release < BURN_BOUND_SINCE and burn is not None:
            raise RpcError(-1, SENDING_HELP)
        tx = self.parsed(digits)
        if self.release >= BURN_BOUND_SINCE and any(it.script[:1] == b"\x6a" and it.value > Decimal(burn or 0) * SATOSHI for it in tx.outputs):
            raise RpcError(-25, "Unspendable output exceeds maximum configured by user (maxburnamount)")
        if tx.txid() in self.pool():
            return tx.txid()
        rule = self.model.failing(tx)
        if rule is None and self.is_past(tx, highest or "0.10"):
            raise RpcError(-25, "Fee exceeds maximum configured by user (e.g. -maxtxfee, maxfeerate)")
        if rule:
            raise RpcError(-25 if rule == "A25" else -26, self.reason(rule))
        self.submit(tx)
        return tx.txid()

    def do_signrawtransactionwithkey(self, digits, keys, outputs):
        """Whether the scripts are met: no key can be given."""
        assert keys == []
        tx, verdicts, given = self.parsed(digits), self.model.opening.verdicts, {(it["txid"], it["vout"]) for it in outputs}
        errors = []
        for index, it in enumerate(tx.inputs):
            about = {"txid": printed(it.hash), "vout": it.index}
            if self.model.coin(it) is None and tuple(about.values()) not in given:
                errors.append({**about, "error": "Input not found or already spent"})
            elif verdicts.get((tx.wtxid(), index), verdicts["*"]) != "ok":
                errors.append({**about, "error": "Witness program hash mismatch"})
        return {"hex": digits, "complete": not errors, **({"errors": errors} if errors else {})}

    def do_submitpackage(self, digits, highest="0.10", burn=None):
        """Each member by itself, and then together those that lack nothing but coins and fees."""
        if not self.takes_packages:
            raise RpcError(-32601, "Method not found")
        if not 1 <= len(digits) <= 25:
            raise RpcError(-8, "Array must contain between 1 and 25 transactions.")
        before, found, waiting, rules = self.pool(), {}, [], []
        for tx in map(self.parsed, digits):
            entry, rule = self.pool().get(tx.txid()), self.model.failing(tx)
            found[tx.wtxid()] = about = {"txid": tx.txid()}
            if entry is not None:
                about.update(self.priced(entry) if entry.wtxid == tx.wtxid() else {"other-wtxid": entry.wtxid})
            elif rule is None:
                self.model.submit(1, int(time.time()), tx)
                about.update(self.priced(self.pool()[tx.txid()], [tx]))
            else:
                about["error"] = self.reason(rule)
                waiting.append(tx)
                rules.append(rule)
        if len(waiting) > 1 and all(it in MENDED for it in rules):
            found.update(self.together(waiting))
        self.changed(before, set())
        message = "transaction failed" if any("error" in it for it in found.values()) else "success"
        return {"package_msg": message, "tx-results": found, "replaced-transactions": [it for it in before if it not in self.pool()]}

    def together(self, members):
        """What became of members that are judged by what they pay together; nothing if they stay outside."""
        pool, floor, settings = list(self.model.pool), self.model.floor, self.model.opening.settings
        self.model.floor, self.model.opening.settings = 0, {**settings, "minrelaytxfee": 0}
        replies = [self.model.submit(1, int(time.time()), tx) for tx in members]
        self.model.floor, self.model.opening.settings = floor, settings
        entries = [it for it in self.model.pool if it not in pool]
        least = self.model.fee_at(max(floor, self.model.opening["minrelaytxfee"]), size_of(entries))
        if fees_of(entries) >= least and all(it.startswith("admitted ") for it in replies):
            return {it.wtxid: {"txid": it.tx.txid(), **self.priced(it, members)} for it in entries}
        self.model.pool = pool
        return {}

    def priced(self, entry, together=()):
        """What is said of an entry, and of those whose feerate counted when it came."""
        fees = {"base": amount(entry.fee)}
        if together:
            entries = [self.pool()[it.txid()] for it in together]
            rate = amount(fees_of(entries) * 1000 // size_of(entries))
            fees.update({"effective-feerate": rate, "effective-includes": [it.wtxid for it in entries]})
        return {"vsize": entry.size, "fees": fees}

    def knows(self, tx):
        """A transaction that callers may send to it, and with it one of the same outputs whose coin is nowhere."""
        nowhere = Transaction([Input(NOWHERE, 0, sequence=0xFFFFFFFF)], tx.outputs)
        self.sent[tx.hex()], self.sent[nowhere.hex()] = tx, nowhere
        return tx

    def parsed(self, digits):
        """A transaction of the tests, which are known by their text."""
        tx = self.sent.get(digits)
        if tx is None:
            raise RpcError(-22, "TX decode failed. Make sure the tx has at least one input.")
        return tx


def named(call):
    """A method; a transaction that is sent though its coin is nowhere has a name of its own, and so has a package of nothing."""
    method, params = call["method"], call["params"]
    if method == "submitpackage" and not params[0]:
        return WITHOUT_MEMBERS
    is_nowhere = method == "sendrawtransaction" and str(params[0])[10:74] == NOWHERE.hex()
    return WITHOUT_COINS if is_nowhere else method


def payment_of(outpoint, value, fee, outputs=1, sequence=0xFFFFFFFD):
    """A payment of an outpoint of this value to so many outputs."""
    each = (value - fee) // outputs
    values = [each] * (outputs - 1) + [value - fee - each * (outputs - 1)]
    return Transaction([Input(outpoint[0], outpoint[1], sequence=sequence)], [Output(it) for it in values])
