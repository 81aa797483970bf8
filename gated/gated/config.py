"""What gated is started with: words of the command line, and a file of settings with the same names."""

from __future__ import annotations

import argparse
import sys
import tomllib
from dataclasses import dataclass
from pathlib import Path
from typing import Any, Optional, Sequence
from urllib.parse import urlsplit

from . import VERSION

ABOUT = """A gate that lives beside a node: it follows the node's chain and pool, answers wallets as the node does, and writes a
journal of every line that the gate was given, with its reply, which `gated audit` checks."""
EXAMPLES = """examples:
  gated --node http://127.0.0.1:8332 --cookie ~/.bitcoin/.cookie --zmq tcp://127.0.0.1:28332 --journal ~/journal
  bitcoin-cli -rpcport=18332 -rpccookiefile=$PWD/gated.cookie testmempoolaccept '["0200.."]'

  gated --settings /etc/gated.toml         a file whose lines are these words: node = "http://127.0.0.1:8332"
  gated --node http://127.0.0.1:8332 --cookie ~/.bitcoin/.cookie --shadow --metrics 127.0.0.1:9332
                                           counts where the gate and the node differ; see http://127.0.0.1:9332/
  gated .. --rpcauth 'shop:SALT$HASH' --line 'rpcwhitelist shop:testmempoolaccept'
                                           lets a user in, who may call one method
  gated audit ~/journal                    is every answer in the journal the policy's?

The node is Bitcoin Core 0.21 or later, or one that answers as it does. For announcements it is started with
-zmqpubsequence=tcp://127.0.0.1:28332; a node before Bitcoin Core 23.0 also needs -txindex."""
MOST_PORT = 65535


class BadSettings(ValueError):
    """What gated can't be started with."""


@dataclass(frozen=True)
class Address:
    """Where to listen."""

    host: str
    port: int

    def __str__(self) -> str:
        return "%s:%d" % ("[%s]" % self.host if ":" in self.host else self.host, self.port)

    @staticmethod
    def read(text: str) -> Address:
        host, colon, port = text.rpartition(":")
        if not colon or not host or not port.isdecimal() or int(port) > MOST_PORT:
            raise argparse.ArgumentTypeError("%r is not HOST:PORT" % text)
        return Address(host.strip("[]"), int(port))


@dataclass(frozen=True)
class Config:
    """How gated runs."""

    node: str
    cookie: Optional[Path]
    zmq: Optional[str]
    listen: Address
    rpccookiefile: Path
    rpcauth: tuple[str, ...]
    line: tuple[str, ...]
    journal: Optional[Path]
    segment: int
    segment_bytes: int
    journal_bytes: int
    metrics: Optional[Address]
    shadow: bool
    forward: bool
    satoshi: bool
    gate: Optional[str]
    child: bool
    child_seconds: float
    keep: int
    times: int
    poll: float
    check: float
    apart: float
    queue: int
    body: int
    connections: int
    rpcservertimeout: float
    passthrough: tuple[str, ...]
    timeout: float
    verbose: bool


def _whole(least: int, most: int) -> Any:
    def read(text: str) -> int:
        if not text.isdecimal() or not least <= int(text) <= most:
            raise argparse.ArgumentTypeError("%r is not a number from %d to %d" % (text, least, most))
        return int(text)

    return read


def _seconds(text: str) -> float:
    try:
        found = float(text)
    except ValueError:
        found = -1
    if not 0.01 <= found <= 3600:
        raise argparse.ArgumentTypeError("%r is not a number of seconds from 0.01 to 3600" % text)
    return found


def words() -> argparse.ArgumentParser:
    """The words of the command line."""
    found = argparse.ArgumentParser(
        prog="gated", usage="gated --node URL [OPTIONS]\n       gated audit DIR [--gate PROGRAM]", description=ABOUT, epilog=EXAMPLES,
        formatter_class=argparse.RawDescriptionHelpFormatter, allow_abbrev=False,
    )  # fmt: skip
    found.add_argument("--version", action="version", version="gated " + VERSION)
    found.add_argument("--settings", metavar="FILE", type=Path, help="a file (TOML) with these words as names; the command line goes before it")
    node = found.add_argument_group("the node")
    node.add_argument("--node", metavar="URL", help="its RPC, as http://127.0.0.1:8332, or with http://USER:PASSWORD@..")
    node.add_argument("--cookie", metavar="FILE", type=Path, help="its cookie, which is read anew as the node writes it anew")
    node.add_argument("--zmq", metavar="ENDPOINT", help="its -zmqpubsequence; without it the node is asked again and again")
    node.add_argument("--poll", metavar="SECONDS", type=_seconds, default=1.0, help="how often then (1)")
    node.add_argument("--timeout", metavar="SECONDS", type=_seconds, default=60.0, help="how long it may take to answer (60)")
    node.add_argument("--check", metavar="SECONDS", type=_seconds, default=30.0, help="how often the two pools are compared (30)")
    node.add_argument("--apart", metavar="SECONDS", type=_seconds, default=300.0, help="how long the gate may have what its node has not (300)")
    node.add_argument("--keep", metavar="N", type=_whole(1, 100), default=20, help="blocks that a reorganisation may reach (20)")
    node.add_argument("--times", metavar="N", type=_whole(11, 1_000_000), default=2016, help="block times that the opening has at the least (2016)")
    door = found.add_argument_group("callers")
    door.add_argument("--listen", metavar="HOST:PORT", type=Address.read, default=Address("127.0.0.1", 18332), help="where they call (127.0.0.1:18332)")
    door.add_argument("--rpccookiefile", metavar="FILE", type=Path, default=Path("gated.cookie"), help="gated's own cookie, which it writes (gated.cookie)")
    door.add_argument("--rpcauth", metavar="TEXT", action="append", help="a user, USER:SALT$HASH as bitcoind's; repeatable")
    door.add_argument("--forward", action="store_true", default=None, help="hands to the node what the gate takes by sendrawtransaction and submitpackage")
    door.add_argument("--passthrough", metavar="METHOD", action="append", help="a further call that is passed to the node; repeatable")
    door.add_argument("--satoshi", action="store_true", default=None, help="answers in the gate's own forms, with amounts in satoshi")
    door.add_argument("--queue", metavar="N", type=_whole(1, 100_000), default=256, help="calls that may wait; further ones get status 503 (256)")
    door.add_argument("--body", metavar="BYTES", type=_whole(1024, 33_554_432), default=4_194_304, help="the longest request; a longer one gets 413 (4194304)")
    door.add_argument("--connections", metavar="N", type=_whole(1, 100_000), default=256, help="connections at once; past them one that waits is closed (256)")
    door.add_argument("--rpcservertimeout", metavar="SECONDS", type=_seconds, default=30.0, help="how long a request may take to arrive (30)")
    gate = found.add_argument_group("the gate")
    gate.add_argument("--line", metavar="TEXT", action="append", help="a further line of the opening, as rpcwhitelist ..; repeatable")
    gate.add_argument("--gate", metavar="PROGRAM", help="the program gate: for figures of differences, and for --child (gate)")
    gate.add_argument("--child", action="store_true", default=None, help="runs that program as a child, though the library is built")
    gate.add_argument("--child-seconds", metavar="SECONDS", type=_seconds, default=60.0, help="how long it may take for a reply (60)")
    watch = found.add_argument_group("what is written and shown")
    watch.add_argument("--journal", metavar="DIR", type=Path, help="each line and its reply, on the disk before the reply goes out")
    watch.add_argument("--segment", metavar="N", type=_whole(1, 200_000), default=50_000, help="entries of a file of the journal (50000)")
    watch.add_argument("--segment-bytes", metavar="N", type=_whole(4096, 2**40), default=2_147_483_648, help="bytes of such a file (2147483648)")
    watch.add_argument(
        "--journal-bytes", metavar="N", type=_whole(0, 2**50), default=10_737_418_240, help="bytes of all files: past them the oldest are deleted; 0 keeps all (10737418240)"
    )
    watch.add_argument("--metrics", metavar="HOST:PORT", type=Address.read, help="/metrics for Prometheus, and a page for people at /")
    watch.add_argument("--shadow", action="store_true", default=None, help="compares the gate with the node, transaction by transaction")
    watch.add_argument("--verbose", action="store_true", default=None, help="says more in the log")
    return found


def _from_file(path: Path, parser: argparse.ArgumentParser) -> list[str]:
    """The words that stand for the lines of a file of settings."""
    try:
        with open(path, "rb") as file:
            given = tomllib.load(file)
    except OSError as error:
        raise BadSettings("%s: %s" % (path, error.strerror)) from error
    except tomllib.TOMLDecodeError as error:
        raise BadSettings("%s: %s" % (path, error)) from error
    actions = {it.option_strings[-1][2:]: it for it in parser._actions if it.option_strings and it.dest not in ("help", "version", "settings")}
    found = []
    for name, value in given.items():
        if name not in actions:
            raise BadSettings("%s: %s is unknown; known are %s" % (path, name, ", ".join(actions)))
        is_flag = actions[name].nargs == 0
        if is_flag != isinstance(value, bool):
            raise BadSettings("%s: %s is %s" % (path, name, "true or false" if is_flag else "a number or a text"))
        if is_flag:
            found += ["--" + name] if value else []
            continue
        for it in value if isinstance(value, list) else [value]:
            if isinstance(it, bool) or not isinstance(it, (str, int, float)):
                raise BadSettings("%s: %s is a number or a text" % (path, name))
            found.append("--%s=%s" % (name, it))
    return found


def _is_url(text: str) -> bool:
    """Whether a text has the scheme, the host and the port of a node's RPC."""
    try:
        parts = urlsplit(text)
        return parts.scheme in ("http", "https") and bool(parts.hostname) and parts.port != 0
    except ValueError:
        return False


def read(arguments: Sequence[str]) -> Config:
    """The configuration that words ask for. A fault of usage ends the program with status 2."""
    parser = words()
    asked = parser.parse_args(arguments)
    try:
        if asked.settings is not None:
            asked = parser.parse_args([*_from_file(asked.settings, parser), *arguments])
        if asked.node is None:
            raise BadSettings("--node URL is missing")
        if not _is_url(asked.node):
            raise BadSettings("--node is a URL, as http://127.0.0.1:8332")
        for line in asked.line or ():
            if "\n" in line or line == "---":
                raise BadSettings("%r is no line of an opening" % line)
    except BadSettings as error:
        parser.error(str(error))
    given = {name: value for name, value in vars(asked).items() if name != "settings"}
    given |= {name: tuple(given[name] or ()) for name in ("rpcauth", "line", "passthrough")}
    given |= {name: bool(given[name]) for name in ("forward", "satoshi", "child", "shadow", "verbose")}
    return Config(**given)


def read_audit(arguments: Sequence[str]) -> tuple[Path, str]:
    """The folder and the program of `gated audit`."""
    parser = argparse.ArgumentParser(prog="gated audit", description="Runs `gate audit` on each segment of a journal.", allow_abbrev=False)
    parser.add_argument("journal", metavar="DIR", type=Path)
    parser.add_argument("--gate", metavar="PROGRAM", default="gate", help="the program gate (gate)")
    asked = parser.parse_args(arguments)
    if not asked.journal.is_dir():
        sys.exit("gated: %s is no folder" % asked.journal)
    return asked.journal, asked.gate
