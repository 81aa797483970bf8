"""What systemd is told (sd_notify), if it asks."""

import asyncio
import os
import socket
from typing import Callable

from .logs import quoted
from .opening import Opening
from .watcher import Tip, Watcher


def notify(text: str, seconds: float = 1.0) -> None:
    """Sends one state, as `READY=1`; nothing without a service manager. One that doesn't read what was sent before is waited for
    so long at the most."""
    address = os.environ.get("NOTIFY_SOCKET")
    if not address:
        return
    if address.startswith("@"):
        address = "\0" + address[1:]
    with socket.socket(socket.AF_UNIX, socket.SOCK_DGRAM | socket.SOCK_CLOEXEC) as it:
        it.settimeout(seconds)
        try:
            it.sendto(text.encode(), address)
        except OSError:
            # whoever listened is gone: nothing depends on it
            pass


class Ready(Watcher):
    """Tells it that the gate is open, and how far it is."""

    def opened(self, opening: Opening, why: str) -> None:
        notify("READY=1\nSTATUS=follows the node, tip %d" % opening.tip)

    def moved(self, tip: Tip) -> None:
        notify("STATUS=follows the node, tip %d" % tip.height)

    def lost(self, why: str) -> None:
        notify("STATUS=not open: %s" % quoted(why))


async def watchdog(seconds_at_work: Callable[[], float]) -> None:
    """Tells it, as often as it asks for, that gated goes on: its loop does, and no line has been at the gate for as long as
    systemd waits. Without a word from here systemd ends and restarts it."""
    given = os.environ.get("WATCHDOG_USEC", "")
    if not given.isdecimal() or os.environ.get("WATCHDOG_PID", str(os.getpid())) != str(os.getpid()):
        return
    limit = int(given) / 1_000_000
    while True:
        if seconds_at_work() < limit:
            notify("WATCHDOG=1", seconds=0)
        await asyncio.sleep(limit / 3)
