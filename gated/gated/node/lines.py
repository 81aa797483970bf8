"""The lines that the gate reads of a node, and the words by which tools/opening and tools/compare say which node."""

from __future__ import annotations

import argparse
import json
import os
import signal
import sys
from typing import Callable, Collection, Iterable, Iterator, Mapping, Sequence

from .answers import Candidate, Entry
from .releases import SCRIPT_REASONS
from .sources import Recorder, RecordedNode, Refused, RunningNode, Source, Unusable, progress
from .view import MEDIAN_OF, View, coins_of

MOST_TIMES = 1000000


def said_in(lines: Iterable[str]) -> dict[str, int]:
    """The settings that lines say, as an operator writes them; lines that are empty or begin with # say nothing."""
    found = {}
    for line in lines:
        words = line.split()
        if not words or words[0].startswith("#"):
            continue
        if len(words) != 2 or not words[1].isdecimal():
            raise Unusable("%r is no setting; one is NAME NUMBER, as mintxsize 65" % line.strip())
        found[words[0]] = int(words[1])
    return found


def setting_lines(settings: Mapping[str, int]) -> list[str]:
    """The lines of these settings."""
    return ["%s %d" % setting for setting in settings.items()]


def policy_lines(view: View) -> list[str]:
    """The line of the node's release, and those of the settings that are known beside."""
    return (["policy " + view.policy] if view.policy else []) + setting_lines(view.settings)


def first_height(view: View, heights: Collection[int]) -> int:
    """The lowest height whose time decides: of the last eleven blocks, and of the eleven before each of these heights."""
    return max(0, min({view.tip + 1, *heights}) - MEDIAN_OF)


def times_of(view: View, heights: Collection[int]) -> list[str]:
    """The line of the first height that has a time, if it isn't 0, and the lines of the node's times from there to its tip."""
    first = first_height(view, heights)
    count = view.tip + 1 - first
    if count > MOST_TIMES:
        raise Unusable("a relative lock asks for %d block times, and an opening has at most %d" % (count, MOST_TIMES))
    lines = ["from %d" % first] if first else []
    lines += ["times 1 %d 0" % time for time in view.times(range(first, view.tip + 1))]
    return lines


def verdicts_of(candidates: Iterable[Candidate]) -> Iterator[str]:
    """The lines for those whose scripts the node refused. It does not always say which input failed: the first stands for it."""
    for it in candidates:
        verdict = SCRIPT_REASONS.get((it.reason or "").partition(" ")[0])
        if it.transaction and verdict:
            yield "verdict %s 0 %s" % (it.transaction.wtxid, verdict)


def opening(view: View, entries: Sequence[Entry], candidates: Sequence[Candidate]) -> Iterator[str]:
    """The lines of an opening, and then those of events: the pool's transactions as they came, the floor, and for each
    candidate a call of testmempoolaccept."""
    transactions = [it.transaction for it in entries] + [it.transaction for it in candidates if it.transaction]
    coins, heights = coins_of(view, {it.wtxid: it for it in transactions}.values())
    times = times_of(view, heights)
    view.has_to_stand()
    yield "# from a node: chain %s, tip %d, %d transactions of its pool" % (view.chain, view.tip, len(entries))
    yield "# scripts are not run: what the node took is taken to be right"
    yield "budget %d" % view.budget
    yield from policy_lines(view)
    yield from times
    yield from dict.fromkeys(verdicts_of(candidates))
    yield "verdict * ok"
    yield "whitelist noban@127.0.0.1"
    yield from coins
    yield "---"
    yield "peer 1 enter 127.0.0.1"
    for it in entries:
        yield "peer 1 tx %d %s" % (it.time, it.transaction.digits)
    if view.floor:
        yield "operator floor %d" % view.floor
    now = max([it.time for it in entries], default=0)
    for number, one in enumerate(candidates, 1):
        call = {"method": "testmempoolaccept", "params": [[one.digits]], "id": number}
        yield "user node rpc %d %s" % (now, json.dumps(call, separators=(",", ":")))


def add_words(words: argparse.ArgumentParser) -> None:
    """The words of the command line that say which node, and which transactions."""
    which = words.add_mutually_exclusive_group(required=True)
    which.add_argument("--cli", "--rpc", dest="cli", metavar="COMMAND", help='the command that asks the node: bitcoin-cli, or "bitcoin-cli -regtest"')
    which.add_argument("--from", metavar="PATH", dest="path", help="a recording of a node's answers, or a folder of them")
    words.add_argument("--record", metavar="FILE", help="writes the answers down as a recording")
    words.add_argument("--settings", metavar="FILE", help="lines of settings that the node has, as an opening has them; they come before what it tells")
    words.add_argument("--set", metavar="LINE", action="append", default=[], help='one such line, as "mempoolexpiry 24"; it comes before those of a file')
    words.add_argument("--policy", metavar="NAME", help="a release, as core-30, in the place of the node's own: its numbers for what neither lines nor the node say")
    words.add_argument("--try", metavar="FILE", dest="tried", help="transactions to be tried, a line of hexadecimal each; - is standard input")


def asked(words: argparse.Namespace) -> tuple[View, list[Entry], list[Candidate]]:
    """The node's view, its pool and the candidates that the words ask for."""
    node: Source = RunningNode(words.cli) if words.cli else RecordedNode(words.path)
    view = View(Recorder(node, words.record) if words.record else node)
    if words.settings:
        with open(words.settings, encoding="utf-8") as file:
            view.settings.update(said_in(file))
    view.settings.update(said_in(words.set))
    view.policy = words.policy or view.policy
    return view, view.entries(), candidates_of(view, digits_in(words.tried))


def candidates_of(view: View, digits: Sequence[str]) -> list[Candidate]:
    """What the node says of each of these transactions."""
    found = []
    for number, it in enumerate(digits):
        progress("transactions to be tried", number, len(digits))
        found.append(view.candidate(it))
    return found


def run(name: str, tool: Callable[[argparse.Namespace], int], words: argparse.ArgumentParser) -> int:
    """What a tool makes of its words, or one line that says what a node answered wrongly. A reader that has enough, as head,
    ends it without a word."""
    try:
        status = tool(words.parse_args())
        sys.stdout.flush()
        return status
    except BrokenPipeError:
        os.dup2(os.open(os.devnull, os.O_WRONLY), sys.stdout.fileno())
        return sys.exit(128 + signal.SIGPIPE)
    except (Unusable, Refused, OSError) as error:
        return sys.exit("%s: %s" % (name, error))
    except KeyError as error:
        return sys.exit("%s: an answer of the node has no field %s" % (name, error))
    except ValueError as error:
        return sys.exit("%s: an answer of the node does not read: %s" % (name, error))


def digits_in(path: str) -> list[str]:
    """The lines of a file but for empty ones and comments."""
    if not path:
        return []
    with sys.stdin if path == "-" else open(path, encoding="utf-8") as lines:
        return [line.strip() for line in lines if line.strip() and not line.startswith("#")]
