"""Payments through gated beside a running node that is busy: none is lost. What costs a node much is asked of it seldom."""

import asyncio
import http.client
import shutil
import tempfile
import threading
import time
import unittest
from collections import Counter

from bitcoin import Output, Transaction
from gate import Differs, same, true
from gated.once_for_all import OnceForAll
from hosting import RpcFailed, until
from kinds import long
from live import NODES, Live, script_of

PAYMENTS = 25


@long
def test_a_busy_node(gate):
    """A node with one thread and a queue of one, which others ask again and again: each payment is sent until gated says that it is
    taken, and the node has every one that was."""
    program = next(filter(None, map(shutil.which, NODES)), None)
    if program is None:
        raise unittest.SkipTest("none of %s is on this machine" % ", ".join(NODES))
    with tempfile.TemporaryDirectory(prefix="gated-busy-") as folder:
        live = Live(gate, program, folder)
        live.node.more = ["-rpcthreads=1", "-rpcworkqueue=1"]
        try:
            live.start()
            with live.gated:
                paid, said = sent_beside_others(live)
                pool = until("the node lists its pool", lambda: quietly(live.node.ask, "getrawmempool"))
                same("what the node lacks, after %s" % said, sorted(set(paid) - set(pool)), [])
                until("the pools are alike", lambda: live.gated.listing() == set(pool))
                live.gated.end()
                live.gated.is_legal(None)
        finally:
            live.node.stop()


def quietly(ask, *params):
    """An answer, or None from a node that is busy."""
    try:
        return ask(*params)
    except (Differs, ValueError, OSError, http.client.HTTPException):
        return None


def sent_beside_others(live):
    """Sends payments while others ask the node, each again until gated says that it is taken; their txids, and what was said."""
    is_over, said, paid = threading.Event(), Counter(), []

    def others():
        while not is_over.is_set():
            quietly(live.node.ask, "getblock", quietly(live.node.ask, "getbestblockhash") or "", 2)

    them = [threading.Thread(target=others, daemon=True) for _ in range(3)]
    for thread in them:
        thread.start()
    try:
        for coin in live.first[:PAYMENTS]:
            tx = Transaction([coin.input()], [Output(coin.value - 1000, script_of(coin.truth))])
            until("a payment is taken", lambda tx=tx: is_sent(live.gated, tx, said))
            paid.append(tx.txid())
    finally:
        is_over.set()
        for thread in them:
            thread.join()
    same("payments", len(paid), PAYMENTS)
    true("%s" % said, said["taken"] == PAYMENTS)
    return paid, dict(said)


def is_sent(gated, tx, said):
    try:
        same("its txid", gated.rpc("sendrawtransaction", tx.hex()), tx.txid())
    except RpcFailed as failed:
        said[failed.error["code"] if isinstance(failed.error, dict) else failed.status] += 1
        time.sleep(0.1)
        return False
    said["taken"] += 1
    return True


def test_what_is_done_once_for_all(gate):
    """A job is done once for all who wait for it, from a time after they came, and rests four times as long as it took; what it
    raises, all of them get."""
    times = []

    async def job():
        began = time.monotonic()
        await asyncio.sleep(0.1)
        times.append((began, time.monotonic()))
        if len(times) == 3:
            raise ValueError("no")

    async def run():
        shared = OnceForAll(job, 0.2)
        await asyncio.gather(*(shared.done() for _ in range(5)))
        same("once for all", len(times), 1)
        first = asyncio.create_task(shared.done())
        while len(times) < 2:
            await asyncio.sleep(0.01)
        came = time.monotonic()
        found = await asyncio.gather(first, *(shared.done() for _ in range(5)), return_exceptions=True)
        same("one that came before it began, and five that came since", [type(it) for it in found], [type(None), *[ValueError] * 5])
        same("jobs", len(times), 3)
        true("the third began after they came", times[2][0] >= came)
        rests = [after[0] - before[1] for before, after in zip(times, times[1:])]
        true("rests of %s seconds" % rests, min(rests) >= 0.4)
        # whoever goes takes nobody's job away
        gone = asyncio.create_task(shared.done())
        stays = asyncio.create_task(shared.done())
        await asyncio.sleep(0.01)
        gone.cancel()
        await stays
        same("jobs", len(times), 4)

    asyncio.run(run())
