"""gated: puts the parts together, and runs them until a signal ends them."""

from __future__ import annotations

import asyncio
import logging
import signal
import sys
from typing import Sequence

from . import VERSION, config, journal, logs
from .announcements import Announcements, AskedAnnouncements, ZmqAnnouncements
from .answering import Answering
from .calls import Calls, Options
from .client import NodeClient
from .config import Config
from .door import ACCEPTED_PAST_BOUND, OWN_DESCRIPTORS, Bounds, Door, within_descriptors
from .engine import NoGate, check, kind_of, opener
from .explaining import Explainer
from .following import Following, Settings
from .journal import Bounds as JournalBounds
from .journal import Journal, JournalFailed
from .keeper import Keeper
from .metrics import Metrics, Watchers
from .notify import Ready, notify, watchdog
from .passing import NotPassed, Passing
from .patient import PatientClient
from .shadow import Shadow
from .trying import Trying
from .users import BadUser, Users
from .watching import Watching

log = logging.getLogger("gated")

# how often a task is cancelled, and the seconds that each may take
CANCELS, CANCEL_SECONDS = 5, 5.0
# the seconds that answers may take which callers wait for as gated ends
LAST_ANSWERS_SECONDS = 5.0
# connections to the second door at once
WATCHERS = 16


def main(arguments: Sequence[str] = tuple(sys.argv[1:])) -> int:
    if arguments and arguments[0] == "audit":
        return audit(arguments[1:])
    given = config.read(arguments)
    logs.begin(given.verbose)
    try:
        return asyncio.run(run(given))
    except (BadUser, JournalFailed, NoGate, NotPassed, OSError) as error:
        print("gated: %s" % error, file=sys.stderr)
        return 1


def audit(arguments: Sequence[str]) -> int:
    """Prints what `gate audit` says of each segment. The status is 0 if all are legal."""
    folder, program = config.read_audit(arguments)
    are_legal = []
    for line, is_legal in journal.audited(folder, program):
        print(line, flush=True)
        are_legal.append(is_legal)
    if not are_legal:
        print("gated: no journal in %s" % folder, file=sys.stderr)
    return 0 if are_legal and all(are_legal) else 1


def announcements(given: Config, client: PatientClient) -> Announcements:
    if given.zmq:
        return ZmqAnnouncements(given.zmq, client)
    return AskedAnnouncements(client, given.poll)


def bounds_of(given: Config) -> Bounds:
    """The bounds of callers, as far as the system's limit of descriptors allows them."""
    beside = OWN_DESCRIPTORS + ACCEPTED_PAST_BOUND + (WATCHERS + ACCEPTED_PAST_BOUND if given.metrics else 0)
    return Bounds(within_descriptors(given.connections, beside), given.rpcservertimeout, given.body)


async def run(given: Config) -> int:
    """Runs until a signal comes, or a part ends by a fault."""
    opens = opener(given.gate, given.child, given.child_seconds)
    check(opens, given.line)
    ended = asyncio.Event()
    for number in (signal.SIGINT, signal.SIGTERM):
        asyncio.get_running_loop().add_signal_handler(number, ended.set)
    bounds = bounds_of(given)
    metrics, client = Metrics(), NodeClient(given.node, given.cookie, given.timeout)
    patient = PatientClient(client)
    # what callers ask of the node takes no connection from what follows it
    for_callers = NodeClient(given.node, given.cookie, given.timeout)
    shadow = Shadow(metrics, Explainer(given.gate) if given.gate else None)
    shadow.is_on = given.shadow
    users = Users(given.rpcauth, given.rpccookiefile)
    written = Journal(given.journal, JournalBounds(given.segment, given.segment_bytes, given.journal_bytes)) if given.journal else None
    keeper = Keeper(opens, written, given.queue, metrics.calls.observe)
    shadow.segment = lambda: keeper.segment
    settings = Settings(given.line, given.times, given.keep, given.check, given.apart)
    heard = announcements(given, patient)
    following = Following(patient, keeper, heard, settings, Watchers([metrics, shadow, Ready()]))
    trying, passing = Trying(keeper, following, for_callers, shadow), Passing(for_callers, given.passthrough)
    calls = Calls(keeper, following, trying, passing, Options(given.forward, given.satoshi))
    doors = [Door(Answering(calls, users, given.body, metrics.answered).app(), bounds)]
    await doors[0].open(given.listen)
    if given.metrics:
        doors.append(Door(Watching(keeper, metrics, shadow, str(client.url)).app(), Bounds(WATCHERS, bounds.seconds)))
        await doors[1].open(given.metrics)
    users.write_cookie()
    log.info("gated %s beside %s: %s, %s", VERSION, client.url, kind_of(opens), ", ".join(_said_of(given)))
    tasks = [asyncio.create_task(keeper.run(), name="the gate's keeper"), asyncio.create_task(following.run(), name="following")]
    fed = asyncio.create_task(watchdog(lambda: keeper.seconds_at_work))
    try:
        return await until(ended, tasks)
    finally:
        notify("STOPPING=1")
        for door in doors:
            await door.close(LAST_ANSWERS_SECONDS)
        fed.cancel()
        for task in reversed(tasks):
            await cancelled(task)
        await shadow.close()
        heard.close()
        await client.close()
        await for_callers.close()
        users.remove_cookie()
        log.info("gated ends")


def _said_of(given: Config) -> list[str]:
    """Where what is asked for is to be had."""
    shown = (("callers at", given.listen), ("cookie in", given.rpccookiefile), ("journal in", given.journal), ("metrics at", given.metrics))
    return ["%s %s" % it for it in shown if it[1] is not None]


async def cancelled(task: asyncio.Task[None]) -> None:
    """Cancels a task, and once more if it is still at work after a while: a cancellation can be lost in what it awaits."""
    for _ in range(CANCELS):
        task.cancel()
        if (await asyncio.wait([task], timeout=CANCEL_SECONDS))[0]:
            return
    log.error("%s does not end", task.get_name())


async def until(ended: asyncio.Event, tasks: list[asyncio.Task[None]]) -> int:
    """0 once a signal came, 1 once a task ended by itself."""
    waits = asyncio.create_task(ended.wait())
    done, _ = await asyncio.wait([waits, *tasks], return_when=asyncio.FIRST_COMPLETED)
    waits.cancel()
    for task in tasks:
        if task in done:
            log.error("%s ended: %s", task.get_name(), task.exception())
            return 1
    return 0


if __name__ == "__main__":
    sys.exit(main())
