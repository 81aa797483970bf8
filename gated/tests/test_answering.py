"""gated's door for callers, beside a node of ours: what bitcoind's clients get, who may call, and what bad input does."""

import base64
import hashlib
import hmac
import http.client
import json
import os
import random
import shutil
import socket
import subprocess
import unittest

from gate import same, true
from hosting import RpcFailed, until
from model_node import COIN_VALUE, RpcError, amount, number_hash, payment_of
from test_following import Beside

CASES = 1000


def fresh(it, fee=1000, outputs=1):
    """A payment that nobody has sent, which the node would know."""
    return it.node.knows(payment_of((number_hash(it.spare.pop(0)), 0), COIN_VALUE, fee, outputs))


def failed(run):
    """The status, the code and the message of an error."""
    try:
        found = run()
    except RpcFailed as error:
        return error.status, error.error["code"], error.error["message"]
    raise AssertionError("no error, but %s" % (found,))


def test_calls(gate):
    """Each call, its result in the form of a node's, and its errors with their codes and statuses."""
    with Beside(gate, "--forward") as it:
        it.open()
        parent = it.pay(fee=1500, outputs=2)
        child = it.child(parent)
        it.is_alike()
        rpc = it.gated.rpc
        status, text = it.gated.raw({"method": "getmempoolinfo", "id": "x"})
        size = it.node.pool()[parent.txid()].size + it.node.pool()[child.txid()].size
        wanted = '{"result":{"loaded":true,"size":2,"bytes":%d,"maxmempool":300000000,"mempoolminfee":0.00001000,"minrelaytxfee":0.00001000},"error":null,"id":"x"}\n' % size
        same("info", (status, text), (200, wanted))
        same("listing", rpc("getrawmempool"), [parent.txid(), child.txid()])
        same("the same by name", rpc("getrawmempool", verbose=False), [parent.txid(), child.txid()])
        same("children", rpc("getmempooldescendants", parent.txid()), [child.txid()])
        same("parents", rpc("getmempoolancestors", child.txid(), False), [parent.txid()])
        entry = rpc("getmempoolentry", parent.txid())
        same("fees", entry["fees"], {"base": 0.000015, "modified": 0.000015, "ancestor": 0.000015, "descendant": 0.000025})
        same("height", entry["height"], it.node.model.tip)
        same("verbose", rpc("getrawmempool", True), {txid: rpc("getmempoolentry", txid) for txid in (parent.txid(), child.txid())})
        same("verbose children", rpc("getmempooldescendants", txid=parent.txid(), verbose=True), {child.txid(): rpc("getmempoolentry", child.txid())})
        same("no entry", failed(lambda: rpc("getmempoolentry", "00" * 32)), (500, -5, "Transaction not in mempool"))
        same("no method", failed(lambda: rpc("getpeerinfo")), (404, -32601, "Method not found"))
        same("an unknown name", failed(lambda: rpc("getmempoolentry", id="00")), (500, -8, "Unknown named parameter id"))
        one = fresh(it)
        (told,) = rpc("testmempoolaccept", [one.hex()])
        same("a trial", told, {"allowed": True, "fees": {"base": 0.00001}, "txid": one.txid(), "vsize": it.node.model.size(one), "wtxid": one.wtxid()})
        same("sent", rpc("sendrawtransaction", one.hex()), one.txid())
        true("the node has it", one.txid() in it.node.pool())
        it.is_alike()
        same("tried again", rpc("testmempoolaccept", [one.hex()])[0]["reject-reason"], "txn-already-in-mempool")
        same("sent again", rpc("sendrawtransaction", one.hex()), one.txid())
        it.agrees()
        it.gated.end()
        it.gated.is_legal(1)


def test_coins_and_scripts(gate):
    """What the gate may not know is asked of the node: coins, and the verdict on scripts. Without a verdict nothing is taken."""
    with Beside(gate, "--forward") as it:
        it.open()
        rpc = it.gated.rpc
        nobody = it.node.knows(payment_of((bytes(31) + b"\1", 0), COIN_VALUE, 1000))
        same("no coin", [rpc("testmempoolaccept", [nobody.hex()])[0][name] for name in ("allowed", "reject-reason")], [False, "missing-inputs"])
        same("sent", failed(lambda: rpc("sendrawtransaction", nobody.hex())), (500, -25, "bad-txns-inputs-missingorspent"))
        for verdict, reason in (("soft", "non-mandatory-script-verify-flag"), ("hard", "mandatory-script-verify-flag-failed")):
            one = fresh(it)
            it.node.model.opening.verdicts[(one.wtxid(), 0)] = verdict
            same("scripts", rpc("testmempoolaccept", [one.hex()])[0]["reject-reason"], reason)
            same("sent", failed(lambda one=one: rpc("sendrawtransaction", one.hex())), (500, -26, reason))
        # the node refuses it for a reason of its own before it runs a script: the answer says that none was judged
        one = fresh(it)
        it.node.model.alone = lambda tx: iter(["A17"])
        told = rpc("testmempoolaccept", [one.hex()])[0]
        same("not judged", (told["reject-reason"], told["reject-details"]), ("verdict-missing", "verdict-missing, the node says: dust"))
        same("not sent", failed(lambda: rpc("sendrawtransaction", one.hex())), (500, -26, "verdict-missing, the node says: dust"))
        del it.node.model.alone
        same("what the gate has no verdict on is not compared", it.gated.differences(), {})
        same("now it is", rpc("testmempoolaccept", [one.hex()])[0].get("reject-reason"), None)
        # a denial of the gate's own needs no verdict of the node; without one, the answer says that no script was judged
        low, other = fresh(it, fee=1), fresh(it)

        def away(*_):
            raise RpcError(-1, "away")

        it.node.do_testmempoolaccept = away
        same("too low", rpc("testmempoolaccept", [low.hex()])[0]["rule"], "A35")
        same("not judged", rpc("testmempoolaccept", [other.hex()])[0]["reject-reason"], "verdict-missing")
        same("the pool is as it was", rpc("getrawmempool"), [])
        it.gated.end()
        it.gated.is_legal(1)


def test_a_callers_own_bound(gate):
    """`maxfeerate`: 0.10 BTC for 1,000 virtual bytes unless the caller says otherwise, and 0 is no bound."""
    with Beside(gate, "--forward") as it:
        it.open()
        rpc, high = it.gated.rpc, fresh(it, fee=2_000_000)
        same("past the usual", rpc("testmempoolaccept", [high.hex()])[0]["reject-reason"], "max-fee-exceeded")
        same("no bound", rpc("testmempoolaccept", [high.hex()], 0)[0]["allowed"], True)
        same("a bound of one's own", rpc("testmempoolaccept", rawtxs=[high.hex()], maxfeerate="0.5")[0]["allowed"], True)
        message = "Fee exceeds maximum configured by user (e.g. -maxtxfee, maxfeerate)"
        same("not sent", failed(lambda: rpc("sendrawtransaction", high.hex())), (500, -25, message))
        same("nor known", rpc("getrawmempool"), [])
        same("sent", rpc("sendrawtransaction", high.hex(), 0), high.txid())
        same("no amount", failed(lambda: rpc("sendrawtransaction", high.hex(), "x")), (500, -3, "Invalid amount"))
        same("no rate of the node's", failed(lambda: rpc("testmempoolaccept", [fresh(it).hex()], 2)), (500, -8, "Fee rates larger than or equal to 1BTC/kvB are not accepted"))
        it.is_alike()
        it.agrees()


def test_wrong_parameters(gate):
    """What is wrong with parameters is said in Core's words and with its codes."""
    of_help = "getmempoolentry \"txid\"\n\nReturns mempool data for given transaction"
    with Beside(gate, "--forward") as it:
        it.open()
        it.node.do_help = lambda method="": of_help
        rpc, short = it.gated.rpc, "ab"
        for method in ("getmempoolentry", "getmempoolancestors", "getmempooldescendants", "getrawtransaction"):
            same(method, failed(lambda method=method: rpc(method, short)), (500, -8, "parameter 1 must be of length 64 (not 2, for 'ab')"))
        same("no digits", failed(lambda: rpc("getmempoolentry", "z" * 64)), (500, -8, "parameter 1 must be hexadecimal string (not '%s')" % ("z" * 64)))
        wrong = 'Wrong type passed:\n{\n    "Position 1 (txid)": "JSON value of type number is not of expected type string"\n}'
        same("no text", failed(lambda: rpc("getmempoolentry", 7)), (500, -3, wrong))
        for params in ([], ["00" * 32, 1]):
            same("as many as %d" % len(params), failed(lambda params=params: rpc("getmempoolentry", *params)), (500, -1, of_help))
        same("none tried", failed(lambda: rpc("testmempoolaccept", [])), (500, -8, "Array must contain between 1 and 25 transactions."))
        same("too many", failed(lambda: rpc("testmempoolaccept", ["00"] * 26)), (500, -8, "Array must contain between 1 and 25 transactions."))
        for method, params in (("testmempoolaccept", [["00"]]), ("sendrawtransaction", ["00"])):
            same(method, failed(lambda method=method, params=params: rpc(method, *params)), (500, -22, "TX decode failed. Make sure the tx has at least one input."))
        for value, message in ((" 0_0.1 ", "Invalid amount"), ("1e-9", "Invalid amount"), (-1, "Amount out of range"), ([], "Amount is not a number or string")):
            same("rate %r" % (value,), failed(lambda value=value: rpc("testmempoolaccept", ["00"], value)), (500, -3, message))
        same("no outputs", failed(lambda: rpc("gettxspendingprevout", [])), (500, -8, "Invalid parameter, outputs are missing"))
        same("no number", failed(lambda: rpc("gettxspendingprevout", [{"txid": "00" * 32}])), (500, -3, "Missing vout"))
        same("both", failed(lambda: rpc("getrawmempool", True, True)), (500, -8, "Verbose results cannot contain mempool sequence values."))
        # without the node's help, the names of the parameters
        it.node.wrong["help"] = lambda found: {**found, "result": None, "error": {"code": -1, "message": "no help"}}
        same("names", failed(lambda: rpc("getmempoolancestors")), (500, -1, "getmempoolancestors txid ( verbose )"))
        it.gated.end()
        it.gated.is_legal(1)


def test_a_refusal_of_the_node(gate):
    """What the gate takes and the node refuses is told to the caller and counted, and the gate is opened anew without it."""
    with Beside(gate, "--forward") as it:
        it.open()
        one = fresh(it)

        def refuse(*_):
            raise RpcError(-26, "too bad")

        it.node.do_sendrawtransaction = refuse
        same("refused", failed(lambda: it.gated.rpc("sendrawtransaction", one.hex())), (500, -26, "too bad"))
        it.opened(2)
        same("differences", it.gated.differences(), {"node": 1})
        same("it is gone", it.gated.rpc("getrawmempool"), [])


def test_what_only_the_node_can_say_of_its_pool(gate):
    """`getmempoolinfo` has it as the node said when it was looked at last, beside the gate's own numbers; but no setting that a
    line of the operator's says otherwise."""
    with Beside(gate, "--line", "mempoolfullrbf 0") as it:
        usual, more = it.node.do_getmempoolinfo, {"usage": 1520, "total_fee": amount(0), "fullrbf": True, "incrementalrelayfee": amount(1000)}
        it.node.do_getmempoolinfo = lambda: {**usual(), **more, "bytes": 7}
        it.open()
        text = it.gated.raw({"method": "getmempoolinfo", "id": 1})[1]
        wanted = '"loaded":true,"size":0,"bytes":0,"maxmempool":300000000,"mempoolminfee":0.00001000,"minrelaytxfee":0.00001000,"usage":1520,'
        same("info", text, '{"result":{%s"total_fee":0.00000000,"incrementalrelayfee":0.00001000},"error":null,"id":1}\n' % wanted)
        more["usage"] = 2016
        until("it is looked at again", lambda: it.gated.rpc("getmempoolinfo")["usage"] == 2016)


def test_without_forwarding(gate):
    """Then nothing is sent, and the answer says so; amounts in satoshi if that is asked for."""
    with Beside(gate, "--satoshi") as it:
        it.gated.start()
        one = fresh(it)
        same("off", failed(lambda: it.gated.rpc("sendrawtransaction", one.hex())), (500, -1, "sendrawtransaction is off: gated was started without --forward"))
        same("nothing is sent", (it.gated.rpc("getrawmempool"), it.node.pool()), ([], {}))
        same("satoshi", it.gated.rpc("testmempoolaccept", [one.hex()])[0]["fees"], {"base": 1000})
        same("info", it.gated.rpc("getmempoolinfo")["mempoolminfee"], 1000)
        it.pay()
        fees = until("it came", lambda: [it.gated.rpc("getmempoolentry", txid)["fee"] for txid in it.gated.rpc("getrawmempool")])
        same("fee", fees, [1000])


def rpcauth(user, password):
    salt = "5ca1ab1e"
    return "%s:%s$%s" % (user, salt, hmac.new(salt.encode(), password.encode(), hashlib.sha256).hexdigest())


def basic(user, password):
    return "Basic " + base64.b64encode(("%s:%s" % (user, password)).encode()).decode()


def test_who_may_call(gate):
    """Users by `rpcauth`, and what they may call by the gate's own `rpcwhitelist`."""
    words = ["--rpcauth", rpcauth("shop", "secret"), "--rpcauth", rpcauth("till", "other"), "--line", "rpcwhitelist shop:getmempoolinfo,getrawmempool"]
    words += ["--line", "rpcwhitelist __cookie__:getmempoolinfo,getrawmempool,getmempoolentry"]
    with Beside(gate, *words) as it:
        it.open()
        call = {"method": "getmempoolinfo", "id": 1}
        same("allowed", it.gated.raw(call, authorization=basic("shop", "secret"))[0], 200)
        status, text = it.gated.raw({"method": "getmempoolentry", "params": ["00" * 32], "id": 9}, authorization=basic("shop", "secret"))
        same("denied", (status, json.loads(text)), (403, {"result": None, "error": {"code": -2, "message": "rpc-whitelist", "rule": "U1"}, "id": 9}))
        same("a user without a list", it.gated.raw(call, authorization=basic("till", "other"))[0], 403)
        for authorization in (basic("shop", "wrong"), basic("gated", ""), "", "Basic x", "Digest x"):
            status, headers, text = it.gated.post(json.dumps(call), authorization)
            same("%s" % authorization, (status, headers["WWW-Authenticate"], text), (401, 'Basic realm="jsonrpc"', b""))
        it.pay()
        it.is_alike()


def test_versions_and_batches(gate):
    """JSON-RPC 1.0 and 2.0, notifications, batches, ids of every kind."""
    with Beside(gate) as it:
        it.open()
        raw, listing = it.gated.raw, {"method": "getrawmempool"}
        same("1.0", raw({**listing, "id": 1}), (200, '{"result":[],"error":null,"id":1}\n'))
        same("2.0", raw({**listing, "jsonrpc": "2.0", "id": 1}), (200, '{"jsonrpc":"2.0","result":[],"id":1}\n'))
        missing = {"method": "nothing", "jsonrpc": "2.0", "id": 2}
        same("an error of 2.0", raw(missing), (200, '{"jsonrpc":"2.0","error":{"code":-32601,"message":"Method not found"},"id":2}\n'))
        same("a notification", raw({**listing, "jsonrpc": "2.0"}), (204, ""))
        for given in (None, 0, -1, 2**70, 1.5, "", "a\u00e9\n", [1, {"a": None}], {"b": True}, False):
            same("id %r" % (given,), json.loads(raw({**listing, "id": given})[1])["id"], given)
        batch = [{**listing, "id": 1}, missing, {**listing, "jsonrpc": "2.0"}, 7, {"method": "getmempoolentry", "params": ["x"], "id": [3]}]
        status, text = raw(batch)
        found = [(answer["id"], answer["error"]["code"] if answer.get("error") else None) for answer in json.loads(text)]
        same("a batch", (status, found), (200, [(1, None), (2, -32601), (None, -32600), ([3], -8)]))
        same("an empty one", raw([]), (200, "[]\n"))
        same("notifications alone", raw([{**listing, "jsonrpc": "2.0"}]), (204, ""))
        same("too many", raw([listing] * 1001)[0], 400)
        for body, status in ((b"", 500), (b"{", 500), (b"\xff", 500), (b"7", 400), (b"null", 400), (b'{"method":7}', 400)):
            same("%r" % body, it.gated.post(body)[0], status)


def test_http(gate):
    """Methods, paths, bodies past the bound, and bodies in pieces."""
    with Beside(gate, "--body", "2000") as it:
        it.open()
        connection = http.client.HTTPConnection("127.0.0.1", it.gated.port, timeout=20)
        for method, path, status in (("GET", "/", 405), ("PUT", "/", 405), ("HEAD", "/", 405), ("POST", "/wallet", 404)):
            connection.request(method, path, headers={"Authorization": it.gated.authorization()})
            answer = connection.getresponse()
            answer.read()
            same("%s %s" % (method, path), answer.status, status)
        same("too long", it.gated.post(b" " * 2001)[0], 413)
        same("just not", it.gated.post(b'{"method":"getmempoolinfo","id":1}'.ljust(2000))[0], 200)
        same("without a password", it.gated.post(b" " * 2001, "")[0], 401)
        body = iter([b'{"method":', b'"getrawmempool"}'])
        connection.request("POST", "/", body, {"Authorization": it.gated.authorization(), "Transfer-Encoding": "chunked"}, encode_chunked=True)
        same("in pieces", json.loads(connection.getresponse().read())["result"], [])
        connection.request("POST", "/", iter([b" " * 1500] * 5), {"Authorization": it.gated.authorization(), "Transfer-Encoding": "chunked"}, encode_chunked=True)
        same("too long in pieces", connection.getresponse().status, 413)
        connection.close()


def bad_bodies(draw, good):
    """Bodies of whole requests that are no calls, or bad ones."""
    kinds = (
        lambda: good[: draw.randrange(len(good))],
        lambda: bytes(draw.randrange(256) for _ in range(draw.randint(0, 300))),
        lambda: good.replace(b'"', draw.choice((b"'", b"", b"\\", b"\0")), draw.randint(1, 5)),
        lambda: b"[" * draw.randint(1, 50_000),
        lambda: b'{"method":"testmempoolaccept","params":[["' + draw.choice((b"0", b"ff", b"zz", b"0" * 40_001, b"\\u0000", b"\\ud800")) + b'"]],"id":1}',
        lambda: json.dumps({"method": "submitpackage", "params": [["00", odd(draw, 1)], odd(draw, 1), odd(draw, 1)][: draw.randint(0, 3)], "id": 1}).encode(),
        lambda: b'{"method":"sendrawtransaction","params":["' + bytes(draw.choice(b"0123456789abcdef") for _ in range(draw.randint(0, 400))) + b'"],"id":1}',
        lambda: json.dumps({"method": draw.choice(("getmempoolentry", "getrawmempool", "", "a b", "\n---\n", "x" * 9000)), "params": odd(draw, 3), "id": odd(draw, 2)}).encode(),
        lambda: json.dumps(odd(draw, 4)).encode(),
        lambda: b'{"method":"getmempoolentry","params":{"txid":' + b"9" * draw.randint(1, 6000) + b"}}",
        lambda: good + draw.choice((b"\n", b"x", b"{}", b"\xef\xbb\xbf")),
    )
    return draw.choice(kinds)()


def odd(draw, depth):
    """A value of JSON that is drawn."""
    kind = draw.randrange(9 if depth else 6)
    if kind < 6:
        return draw.choice((None, True, -1, 2**64, 1e300, "", "00" * 32, "rawtxs", "\u2028"))
    if kind < 8:
        return [odd(draw, depth - 1) for _ in range(draw.randint(0, 4))]
    return {draw.choice(("txid", "args", "method", "params", "id", "jsonrpc")): odd(draw, depth - 1) for _ in range(draw.randint(0, 3))}


def bad_requests(draw, head, body):
    """The bytes of a request that is cut, or whose head is wrong; and whether it is whole."""
    whole = head + b"Content-Length: %d\r\n\r\n" % len(body) + body
    kinds = (
        lambda: whole[: draw.randrange(1, len(whole))],
        lambda: head + b"Content-Length: -1\r\n\r\n" + body,
        lambda: head + b"Content-Length: x\r\n\r\n" + body,
        lambda: head + b"Content-Length: 5\r\nContent-Length: 6\r\n\r\n" + body,
        lambda: head + b"Transfer-Encoding: chunked\r\n\r\nzz\r\n" + body,
        lambda: head + b"Content-Encoding: gzip\r\nContent-Length: %d\r\n\r\n" % len(body) + body,
        lambda: head + b"X: " + b"y" * draw.randint(1, 20_000) + b"\r\nContent-Length: 0\r\n\r\n",
        lambda: b"POST / HTTP/9.9\r\n\r\n",
        lambda: bytes(draw.randrange(256) for _ in range(draw.randint(1, 200))) + b"\r\n\r\n",
    )
    return draw.choice(kinds)()


def answer_to(port, request):
    """What comes back for these bytes, until the other side has nothing more to say."""
    with socket.create_connection(("127.0.0.1", port), timeout=30) as it:
        try:
            it.sendall(request)
            it.shutdown(socket.SHUT_WR)
            found = b""
            while True:
                more = it.recv(65536)
                if not more:
                    return found
                found += more
        except ConnectionError:
            return b""


def test_bad_input(gate):
    """A thousand requests that are cut, of the wrong size, of the wrong encoding or of no sense: each whole one gets an answer,
    none changes anything, and the door stays open."""
    draw = random.Random(1000)
    with Beside(gate, "--forward", "--line", "packages 1", "--body", "100000") as it:
        it.open()
        it.pay(outputs=2)
        it.is_alike()
        before = it.gated.rpc("getrawmempool", True), it.gated.rpc("getmempoolinfo"), it.gated.metric("gate_openings_total")
        good = json.dumps({"method": "getmempoolentry", "params": [it.gated.rpc("getrawmempool")[0]], "id": 1}).encode()
        head = b"POST / HTTP/1.1\r\nHost: x\r\nAuthorization: %s\r\n" % it.gated.authorization().encode()
        statuses = {}
        for number in range(CASES):
            if number % 4:
                body = bad_bodies(draw, good)
                status, _, text = it.gated.post(body)
                true("an answer to %r: %r" % (body[:200], text[:200]), status in (200, 204, 400, 403, 404, 413, 500) and (text or status in (204,)))
                true("no fault of gated's own for %r: %r" % (body[:200], text[:200]), b"can't be used" not in text and text.strip().startswith((b"{", b"[")) or status in (204, 413))
            else:
                text = answer_to(it.gated.port, bad_requests(draw, head, good))
                status = int(text.split(b" ")[1]) if text else 0
                is_call = status in (200, 500) and text.partition(b"\r\n\r\n")[2].startswith(b"{")
                true("an answer: %r" % text[:300], not text or is_call or status in (400, 401, 404, 405, 413))
            statuses[status] = statuses.get(status, 0) + 1
            if number % 100 == 99:
                same("after %d: %s" % (number + 1, statuses), (it.gated.rpc("getrawmempool", True), it.gated.rpc("getmempoolinfo"), it.gated.metric("gate_openings_total")), before)
        true("answers of many kinds: %s" % statuses, {200, 400, 404, 500} <= set(statuses))
        it.agrees()
        it.gated.end()
        it.gated.is_legal(1)


def client_of_a_node():
    """bitcoin-cli, or litecoin-cli, which is the same program but for the names."""
    found = shutil.which("bitcoin-cli") or shutil.which("litecoin-cli")
    if not found:
        raise unittest.SkipTest("neither bitcoin-cli nor litecoin-cli is on this machine")
    return found


def test_a_nodes_own_client(gate):
    """bitcoin-cli asks gated as it asks a node: amounts, exit statuses, parameters by name."""
    client = client_of_a_node()
    with Beside(gate) as it:
        it.open()
        it.pay()
        it.is_alike()
        (txid,) = it.gated.rpc("getrawmempool")

        def cli(*words):
            given = [client, "-datadir=" + it.folder.name, "-rpcport=%d" % it.gated.port, "-rpccookiefile=" + it.gated.cookie, *words]
            done = subprocess.run(given, capture_output=True, text=True, timeout=60, check=False)
            return done.returncode, done.stdout, done.stderr

        status, out, said = cli("getmempoolinfo")
        true("amounts: %s %s" % (out, said), status == 0 and '"mempoolminfee": 0.00001000,' in out)
        same("an entry", json.loads(cli("getmempoolentry", txid)[1])["fees"]["base"], 0.00001)
        same("by name", json.loads(cli("-named", "getrawmempool", "verbose=true")[1]), {txid: it.gated.rpc("getmempoolentry", txid)})
        one = fresh(it)
        same("a trial", json.loads(cli("testmempoolaccept", json.dumps([one.hex()]))[1])[0]["allowed"], True)
        same("an error", cli("getmempoolentry", "00" * 32), (5, "", "error code: -5\nerror message:\nTransaction not in mempool\n"))
        same("no transaction", cli("sendrawtransaction", "00")[0], 1)


def test_python_bitcoinlib(gate):
    """A client of Python's (python3-bitcoinlib), if it is there."""
    try:
        import bitcoin.rpc  # the tests' own bitcoin.py may stand in its place
    except ImportError as error:
        found = subprocess.run(["/usr/bin/python3", "-c", "import bitcoin.rpc"], capture_output=True, check=False, cwd="/")
        if found.returncode:
            raise unittest.SkipTest("python3-bitcoinlib is not on this machine") from error
    with Beside(gate) as it:
        it.open()
        it.pay()
        it.is_alike()
        asks = "import bitcoin.rpc, sys; p = bitcoin.rpc.RawProxy(service_url=sys.argv[1]); i = p.getmempoolinfo(); print(i['size'], i['mempoolminfee'], len(p.getrawmempool()), type(p.getmempoolentry(p.getrawmempool()[0])['fees']['base']).__name__)"
        with open(it.gated.cookie) as file:
            url = "http://%s@127.0.0.1:%d" % (file.read(), it.gated.port)
        environment = {name: value for name, value in os.environ.items() if name != "PYTHONPATH"}
        done = subprocess.run(["/usr/bin/python3", "-c", asks, url], capture_output=True, text=True, env=environment, cwd=it.folder.name, check=False)
        same("its answers: %s" % done.stderr[-300:], done.stdout, "1 0.00001000 1 Decimal\n")


def test_the_second_door(gate):
    """`/metrics` and the page need no password, take no calls, and show what is there."""
    with Beside(gate) as it:
        it.open()
        it.pay()
        it.is_alike()
        same("pool", (it.gated.metric("gate_pool_transactions"), it.gated.metric("gate_is_open")), (1, 1))
        true("a histogram", it.gated.metric('gate_call_seconds_bucket{le="+Inf"}') > 0)
        true("answers", it.gated.metric('gate_answers_total{rule="ok"}') > 0)
        it.gated.rpc("testmempoolaccept", [fresh(it, fee=1).hex()])
        same("answers by rule", it.gated.metric('gate_answers_total{rule="A35"}'), 1)
        page = it.gated.page("/")
        true("the page: %s" % page[:300], "<meta name=viewport" in page and "Follows the node" in page)
        connection = http.client.HTTPConnection("127.0.0.1", it.gated.metrics_port, timeout=20)
        connection.request("POST", "/", b"{}")
        same("no calls", connection.getresponse().status, 405)
        connection.close()
        it.node.die()
        until("the page says that it is not open", lambda: "Not open:" in it.gated.page("/"))
        same("closed", it.gated.metric("gate_is_open"), 0)
