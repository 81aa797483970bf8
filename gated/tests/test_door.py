"""The bounds of gated's door: whoever connects, sends slowly, sends too much or guesses passwords stops nobody else."""

import asyncio
import gc
import http.client
import json
import os
import socket
import threading
import time
import types
import zlib

from aiohttp import web
from gate import same, true
from gated import answering, keeper
from gated.calls import Answer
from gated.config import Address
from gated.door import Bounds, Door
from hosting import until
from kinds import long
from test_answering import answer_to, basic, rpcauth
from test_following import Beside
from test_journal import OPENING, kept

# seconds in which a caller is answered, however busy the machine of the tests is
SOON = 20


def connect(port):
    return socket.create_connection(("127.0.0.1", port), timeout=SOON)


def is_closed(it):
    """Whether the other side has closed a connection by now."""
    it.setblocking(False)
    try:
        return it.recv(1) == b""
    except BlockingIOError:
        return False
    except OSError:
        return True


def open_ones(them):
    return sum(not is_closed(it) for it in them)


def closed(them):
    for it in them:
        it.close()


def test_a_request_beside_its_end(gate):
    """A request that arrives just as its connection is closed for having waited too long is no fault that the log would tell."""
    async def run():
        door, said = Door(web.Application(), Bounds()), []
        asyncio.get_running_loop().set_exception_handler(lambda _, context: said.append(str(context)))
        await door.open(Address("127.0.0.1", 0))
        _, writer = await asyncio.open_connection(*door._listens.sockets[0].getsockname())
        while not door.connections:
            await asyncio.sleep(0)
        (one,) = door._connections
        await asyncio.sleep(0)
        one.data_received(b"POST / HTTP/1.1\r\nHost: x\r\nContent-Length: 0\r\n\r\n")
        one._handler.force_close()
        writer.close()
        while door.connections:
            await asyncio.sleep(0)
        await door.close(1)
        del one
        gc.collect()
        same("what is said", said, [])

    asyncio.run(run())


def is_answered(it):
    began = time.monotonic()
    same("the loaded pool", it.gated.rpc("getmempoolinfo")["loaded"], True)
    took = time.monotonic() - began
    true("it took %.1f seconds" % took, took < SOON)


def follows(it):
    """The node is followed: what it takes is taken in."""
    it.pay()
    until("the gate has the node's pool", lambda: it.gated.listing() == set(it.node.pool()))


def test_idle_connections(gate):
    """Ten times as many connections as there may be, which send nothing: callers are answered, the node is followed, and the log
    says it in a few lines. Of the second door the same."""
    with Beside(gate, "--connections", "20", "--rpcservertimeout", "300") as it:
        it.open()
        strangers = [connect(it.gated.port) for _ in range(200)] + [connect(it.gated.metrics_port) for _ in range(200)]
        is_answered(it)
        follows(it)
        same("the second door", it.gated.metric("gate_is_open"), 1)
        until("there are few left", lambda: open_ones(strangers[:200]) <= 20 and open_ones(strangers[200:]) <= 16)
        is_answered(it)
        closed(strangers)
        lines = it.gated.lines()
        true("the log says it: %s" % lines, any("there are 20 connections" in line for line in lines) and len(lines) < 60)


def test_who_is_known_stays(gate):
    """A connection whose caller has shown a password is not closed for strangers, as long as there is one of these."""
    with Beside(gate, "--connections", "10", "--rpcservertimeout", "300") as it:
        it.open()
        known = http.client.HTTPConnection("127.0.0.1", it.gated.port, timeout=SOON)
        body = json.dumps({"method": "getmempoolinfo"})
        same("known", it.gated.post(body, connection=known)[0], 200)
        place = known.sock.getsockname()
        strangers = [connect(it.gated.port) for _ in range(50)]
        until("strangers were closed", lambda: open_ones(strangers) <= 9)
        same("again", (it.gated.post(body, connection=known)[0], known.sock.getsockname()), (200, place))
        closed(strangers)
        known.close()


def test_slow_requests(gate):
    """What has not arrived whole after a while is closed: a head, a body, one that comes byte by byte, and a connection that sends
    nothing. So is one whose answer is not read."""
    with Beside(gate, "--rpcservertimeout", "2") as it:
        it.open()
        head = b"POST / HTTP/1.1\r\nHost: x\r\nAuthorization: %s\r\n" % it.gated.authorization().encode()
        half = [b"", b"POST", head, head + b"Content-Length: 100\r\n\r\n{", head + b"Transfer-Encoding: chunked\r\n\r\n5\r\n{"]
        them = []
        for text in half:
            them.append(connect(it.gated.port))
            them[-1].sendall(text)
        slow = connect(it.gated.port)
        began = time.monotonic()

        def drips():
            try:
                for byte in head + b"Content-Length: 0\r\n\r\n":
                    slow.sendall(bytes([byte]))
                    time.sleep(0.1)
            except OSError:
                pass

        threading.Thread(target=drips, daemon=True).start()
        until("all are closed", lambda: open_ones(them) == 0 and is_closed(slow), SOON)
        true("after a while", time.monotonic() - began >= 1.5)
        it.node.do_help = lambda method="": "x" * 30_000_000
        unread = connect(it.gated.port)
        unread.setsockopt(socket.SOL_SOCKET, socket.SO_RCVBUF, 4096)
        body = b'{"method":"help","id":1}'
        unread.sendall(head + b"Content-Length: %d\r\n\r\n" % len(body) + body)
        until("its descriptors are gone", lambda: connections_of(it, unread.getsockname()[1]) == 0)
        is_answered(it)
        closed([*them, slow, unread])


def connections_of(it, port):
    """How many established connections of gated's there are with this port at their other end."""
    with open("/proc/net/tcp") as lines:
        found = [line.split() for line in lines][1:]
    return sum(words[1].endswith(":%04X" % it.gated.port) and words[2].endswith(":%04X" % port) and words[3] == "01" for words in found)


def test_requests_behind_one_that_is_at_work(gate):
    """A connection that goes on sending while its call is answered is closed before that takes much memory."""
    with Beside(gate) as it:
        it.open()
        it.node.late = 3.0
        body = b'{"method":"uptime","id":1}'
        head = b"POST / HTTP/1.1\r\nHost: x\r\nAuthorization: %s\r\n" % it.gated.authorization().encode()
        one = connect(it.gated.port)
        one.sendall(head + b"Content-Length: %d\r\n\r\n" % len(body) + body)
        time.sleep(0.5)
        request, sent = head + b"Content-Length: 1000\r\n\r\n" + b" " * 1000, 0
        try:
            while sent < 100_000_000:
                one.sendall(request * 100)
                sent += len(request) * 100
        except OSError:
            pass
        true("%d bytes were taken" % sent, sent < 30_000_000)
        it.node.late = 0.0
        is_answered(it)
        one.close()


def under_a_limit(gate, files, count, *words):
    """Idle connections past the system's limit of descriptors."""
    with Beside(gate, "--rpcservertimeout", "300", *words) as it:
        it.gated.before = ["prlimit", "--nofile=%d" % files]
        it.open()
        strangers = []
        for _ in range(count):
            strangers.append(connect(it.gated.port))
        for _ in range(3):
            is_answered(it)
            follows(it)
        same("openings", it.gated.metric("gate_openings_total"), 1)
        lines = it.gated.lines()
        true("no descriptor was missing: %s" % lines[-3:], not any("Too many open files" in line for line in lines) and len(lines) < 100)
        held = len(os.listdir("/proc/%d/fd" % it.gated.process.pid))
        true("%d descriptors" % held, held < files)
        closed(strangers)
        return lines


def test_few_descriptors(gate):
    """More connections than the system's limit of open files has room for: there are fewer of them, which the log says."""
    lines = under_a_limit(gate, 400, 600)
    true("the log says it: %s" % lines, any("in place of 256: the limit of open files is 400" in line for line in lines))


@long
def test_a_thousand_connections(gate):
    """1,074 idle connections under a limit of 1,024 open files."""
    under_a_limit(gate, 1024, 1074, "--connections", "1000")


def test_too_few_descriptors(gate):
    """A limit that leaves no room for callers ends it with a line that says so."""
    with Beside(gate) as it:
        it.gated.before = ["prlimit", "--nofile=100"]
        try:
            it.gated.start()
        except Exception as error:
            true("%s" % error, "the limit of 100 open files is too low" in str(error))
        else:
            raise AssertionError("it started")
        it.gated.process = None


def test_sizes_of_heads(gate):
    """Heads that are too long get an answer, and nothing is kept of them."""
    with Beside(gate) as it:
        it.open()
        head = b"POST / HTTP/1.1\r\nHost: x\r\n"
        for name, request in (
            ("a field", head + b"X: " + b"y" * 100_000 + b"\r\n\r\n"),
            ("a line", b"POST /" + b"y" * 100_000 + b" HTTP/1.1\r\n\r\n"),
            ("fields", head + b"".join(b"X%d: y\r\n" % number for number in range(10_000)) + b"\r\n"),
        ):
            text = answer_to(it.gated.port, request)
            true("%s: %r" % (name, text[:100]), not text or text.split(b" ")[1] in (b"400", b"401"))
        is_answered(it)


def rss(process):
    """The megabytes that a process has."""
    with open("/proc/%d/status" % process.pid) as lines:
        return next(int(line.split()[1]) // 1024 for line in lines if line.startswith("VmRSS"))


def test_packed_bodies(gate):
    """No body is unpacked: neither before a password, nor after it."""
    packer = zlib.compressobj(9)
    bomb = packer.compress(bytes(200_000_000)) + packer.flush()
    with Beside(gate) as it:
        it.open()
        before = rss(it.gated.process)
        packed = {"Content-Encoding": "deflate"}
        began = time.monotonic()
        for _ in range(5):
            same("without a password", it.gated.post(bomb, "", packed)[0], 401)
        for _ in range(5):
            status, _, text = it.gated.post(bomb, None, packed)
            same("with one", (status, json.loads(text)["error"]["code"]), (500, -32700))
        true("it took %.1f seconds" % (time.monotonic() - began), time.monotonic() - began < 2 * SOON)
        true("memory grew from %d to %d MB" % (before, rss(it.gated.process)), rss(it.gated.process) < before + 60)


def test_wrong_passwords(gate):
    """Of an address one wrong password is answered after the other, however many connections guess; the log counts them. Whoever
    has the right one is answered at once."""
    with Beside(gate, "--rpcauth", rpcauth("shop", "secret")) as it:
        it.open()
        call, statuses = json.dumps({"method": "getmempoolinfo"}), []

        def guess():
            for number in range(2):
                statuses.append(it.gated.post(call, basic("shop", "guess %d" % number))[0])

        began = time.monotonic()
        guessers = [threading.Thread(target=guess) for _ in range(20)]
        for thread in guessers:
            thread.start()
        time.sleep(1)
        asked = time.monotonic()
        same("the right one", it.gated.post(call, basic("shop", "secret"))[0], 200)
        true("it was not slowed down", time.monotonic() - asked < 5)
        for thread in guessers:
            thread.join()
        same("all were refused", set(statuses), {401})
        took = time.monotonic() - began
        true("40 guesses took %.1f seconds" % took, took >= 40 * 0.25 * 0.9)
        lines = [line for line in it.gated.lines() if "wrong password" in line]
        true("the log: %s" % lines, 1 <= len(lines) <= 5)


def test_many_wrong_passwords(gate):
    """An address with many wrong passwords waiting is not looked at, but for connections whose caller is known."""
    with Beside(gate, "--rpcauth", rpcauth("shop", "secret")) as it:
        it.open()
        call = json.dumps({"method": "getmempoolinfo"})
        known = http.client.HTTPConnection("127.0.0.1", it.gated.port, timeout=SOON)
        same("known", it.gated.post(call, basic("shop", "secret"), connection=known)[0], 200)
        head = b"POST / HTTP/1.1\r\nHost: x\r\nAuthorization: %s\r\nContent-Length: 0\r\n\r\n" % basic("shop", "x").encode()

        def is_looked_at():
            # they don't wait for their answers; on a busy machine they come slowly
            for _ in range(200):
                with connect(it.gated.port) as one:
                    one.sendall(head)
            return it.gated.post(call, basic("shop", "secret"))[0] != 429

        until("it is not looked at", lambda: not is_looked_at())
        same("known", it.gated.post(call, basic("shop", "secret"), connection=known)[0], 200)
        known.close()


def test_a_batch_whose_client_has_gone(gate):
    """The calls of a batch end with its connection."""
    with Beside(gate) as it:
        it.open()
        it.node.late = 0.05
        body = json.dumps([{"method": "uptime", "id": number} for number in range(1000)]).encode()
        one = connect(it.gated.port)
        one.sendall(b"POST / HTTP/1.1\r\nHost: x\r\nAuthorization: %s\r\nContent-Length: %d\r\n\r\n" % (it.gated.authorization().encode(), len(body)) + body)
        until("it is at work", lambda: it.node.asked.count("uptime") > 3)
        one.close()
        it.node.late = 0.0
        time.sleep(1)
        asked = it.node.asked.count("uptime")
        time.sleep(1)
        same("no more are made", it.node.asked.count("uptime"), asked)
        true("%d were made" % asked, asked < 1000)


def test_a_batch_of_listings(gate):
    """While a batch of two hundred verbose listings is at work others are answered, and it takes little memory."""
    with Beside(gate) as it:
        it.open()
        for _ in range(40):
            it.pay()
        it.is_alike()
        before = rss(it.gated.process)
        body = json.dumps([{"method": "getrawmempool", "params": [True], "id": number} for number in range(200)])
        answers = []
        patient = http.client.HTTPConnection("127.0.0.1", it.gated.port, timeout=600)
        batch = threading.Thread(target=lambda: answers.append(it.gated.post(body, connection=patient)))
        batch.start()
        longest = 0.0
        while batch.is_alive():
            began = time.monotonic()
            is_answered(it)
            longest = max(longest, time.monotonic() - began)
            time.sleep(0.05)
        batch.join()
        patient.close()
        status, _, text = answers[0]
        same("the batch", (status, [len(told["result"]) for told in json.loads(text)]), (200, [40] * 200))
        true("others waited %.1f seconds at the most" % longest, longest < 20)
        true("memory grew from %d to %d MB" % (before, rss(it.gated.process)), rss(it.gated.process) < before + 150)


class Fixed:
    """Calls whose answers are all one."""

    def __init__(self, result):
        self.result, self.made = result, 0

    async def answer(self, user, call):
        self.made += 1
        return Answer(self.result)


def test_a_batch_with_a_long_answer(gate):
    """A batch whose answer grows too long has an error for each call behind, and these are not made."""
    usual, answering.MOST_ANSWERED = answering.MOST_ANSWERED, 1000
    try:
        calls = Fixed("x" * 300)
        door = answering.Answering(calls, None, 1000, lambda outcome: None)
        request = types.SimpleNamespace(transport=types.SimpleNamespace(is_closing=lambda: False))
        batch = [{"method": "help", "id": number} for number in range(6)]
        told = json.loads(asyncio.run(door._replied(request, "shop", batch)).text)
    finally:
        answering.MOST_ANSWERED = usual
    # an answer has 333 characters, so four of them are more than a thousand
    same("answers", [(it["id"], it["error"] and it["error"]["code"]) for it in told], [(0, None), (1, None), (2, None), (3, None), (4, -1), (5, -1)])
    same("made", calls.made, 4)


def test_what_is_nested(gate):
    """Ids and parameters that are nested, however deep, get an answer, and so do the other calls of a batch; the log has no
    traceback."""
    with Beside(gate) as it:
        it.open()
        for depth in (10, 100, 300, 480, 600, 900, 960, 990, 2000, 100_000):
            for opens, closes in ((b"[", b"]"), (b'{"a":', b"}")):
                value = opens * depth + b"1" + closes * depth
                call = b'{"method":"getmempoolinfo","params":[],"id":%s}' % value
                status, _, text = it.gated.post(call)
                comes_back = status == 200 and text.endswith(b'"error":null,"id":%s}\n' % value)
                is_too_deep = status == 500 and text == b'{"result":null,"error":{"code":-32700,"message":"Parse error"},"id":null}\n'
                true("id of %d: %r" % (depth, text[:100]), comes_back if depth <= 480 else comes_back or is_too_deep)
                status, _, text = it.gated.post(b'{"method":"getmempoolentry","params":[%s],"id":1}' % value)
                true("parameters of %d: %r" % (depth, text[:100]), status == 500 and text.startswith(b'{"result":null,"error":{"code":-'))
                status, _, text = it.gated.post(b'{"method":"getblock","params":[%s],"id":1}' % value)
                true("passed on, of %d: %r" % (depth, text[:100]), status == 500 and text.startswith(b'{"result":null,"error":{"code":-'))
                if depth <= 900:
                    _, _, text = it.gated.post(b'[%s,{"method":"getmempoolinfo","id":7}]' % call)
                    true("of a batch", b'"id":7}]' in text and text.count(b'"loaded":true') >= 1)
        true("no traceback", not any("Traceback" in line for line in it.gated.lines()))


def test_requests_that_contradict_themselves(gate):
    """Heads that two servers may read in two ways are no request, and what stands behind them is none."""
    call = b'POST / HTTP/1.1\r\nHost: x\r\nAuthorization: %s\r\nContent-Length: 27\r\n\r\n{"method":"getmempoolinfo"}'
    with Beside(gate) as it:
        it.open()
        login = it.gated.authorization().encode()
        head = b"POST / HTTP/1.1\r\nHost: x\r\n"
        for name, request in (
            ("both lengths", head + b"Content-Length: 4\r\nTransfer-Encoding: chunked\r\n\r\n0\r\n\r\n" + call % login),
            ("a space", head + b"Transfer-Encoding : chunked\r\n\r\n0\r\n\r\n" + call % login),
            ("two lengths", head + b"Content-Length: 1\r\nContent-Length: 2\r\n\r\nab" + call % login),
            ("a sign", head + b"Content-Length: +1\r\n\r\na" + call % login),
            ("NUL in a name", b"POST / HTTP/1.1\r\nHo\0st: x\r\n\r\n" + call % login),
            ("return in a value", head + b"X: a\rb: c\r\nContent-Length: 0\r\n\r\n" + call % login),
        ):
            text = answer_to(it.gated.port, request)
            true("%s: %r" % (name, text[:200]), b'"loaded"' not in text and (not text or text.startswith((b"HTTP/1.0 400", b"HTTP/1.1 400"))))
        is_answered(it)


def test_no_way_past_the_list(gate):
    """A user who may call one method tries others in every form: each is denied, or is no call."""
    words = ["--rpcauth", rpcauth("viewer", "other"), "--line", "rpcwhitelist viewer:getmempoolinfo", "--passthrough", "stop"]
    with Beside(gate, "--forward", *words, "--line", "rpcwhitelist __cookie__:getmempoolinfo,getrawmempool") as it:
        it.open()
        viewer = basic("viewer", "other")
        for method in ("getrawmempool", "getmempoolinfo ", " getmempoolinfo", "GETMEMPOOLINFO", "getmempoolinfo\0", "getmempoolinfo,getrawmempool", "", "stop", "getblock", "getmempoolinfo\nuser gated rpc 0 {}"):
            status, text = it.gated.raw({"method": method, "params": [], "id": 1}, authorization=viewer)
            same("%r" % method, (status, json.loads(text)["error"]["code"]), (403, -2))
        for body in (
            '{"method":"getmempoolinfo","method":"getrawmempool","id":1}',
            '{"method":"get\\u0072awmempool","id":1}',
            '{"method":"getrawmempool","params":{"args":[true]},"id":1}',
            '{"jsonrpc":"2.0","method":"getrawmempool","id":1}',
            '[{"method":"getrawmempool","id":2}]',
            '[[{"method":"getrawmempool","id":2}]]',
            '{"method":["getrawmempool"],"id":1}',
        ):
            _, _, text = it.gated.post(body, viewer)
            true("%s: %s" % (body, text), b'"result":null' in text or b'"jsonrpc":"2.0","error"' in text)
        # the last of two names is what is called, and what is looked at
        same("the other way round", it.gated.post('{"method":"getrawmempool","method":"getmempoolinfo","id":1}', viewer)[0], 200)
        same("a line within a parameter", it.gated.post('{"method":"getmempoolinfo","params":["\\nuser gated rpc 0 {}"],"id":1}', viewer)[0], 500)
        for user in ("viewer ", "Viewer", "gated", "__cookie__", ""):
            same("%r" % user, it.gated.post('{"method":"getmempoolinfo"}', basic(user, "other"))[0], 401)
        it.gated.end()
        it.gated.is_legal(1)


def test_closed_at_once(gate):
    """While an opening is at work a call is answered by Closed at once, and doesn't wait for it."""
    async def run(own, engines):
        opening = asyncio.create_task(own.opened(OPENING, "", lambda turn: turn.ask("x")))
        await asyncio.sleep(0.2)
        began = time.monotonic()
        try:
            await own.offered(lambda turn: turn.ask("y"))
        except keeper.Closed as error:
            same("why", str(error), keeper.OPENING)
        else:
            raise AssertionError("it was made")
        true("it was at once", time.monotonic() - began < 5 and not opening.done())
        engines[0].may.set()
        await opening
        same("reply", await own.offered(lambda turn: turn.ask("y")), "set")

    kept(run)


