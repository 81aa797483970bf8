"""The page for people: what the gate is at, and where it differs from its node."""

from __future__ import annotations

import time
from dataclasses import dataclass
from html import escape
from typing import Any, Optional

from . import VERSION
from .shadow import MEANINGS, Difference, Shadow

# what the codes of answers mean that a caller meets without a fault of its own
CODES = {"ok": "not denied", "-28": "the gate was not open"}
STYLE = """
:root { color-scheme: light dark; --line: #8884; --soft: #8881; --good: #2a7d46; --bad: #b3402a; }
@media (prefers-color-scheme: dark) { :root { --good: #5cc987; --bad: #f0876f; } }
* { box-sizing: border-box; }
body { font: 16px/1.45 system-ui, sans-serif; margin: 0 auto; max-width: 60rem; padding: 1rem; }
h1 { font-size: 1.4rem; margin: 0 0 .2rem; } h2 { font-size: 1.05rem; margin: 1.6rem 0 .4rem; }
p { margin: .2rem 0; } .state { font-weight: 600; } .good { color: var(--good); } .bad { color: var(--bad); }
.tiles { display: grid; gap: .6rem; grid-template-columns: repeat(auto-fit, minmax(9.5rem, 1fr)); margin: 1rem 0; }
.tile { background: var(--soft); border: 1px solid var(--line); border-radius: .5rem; padding: .5rem .7rem; }
.tile b { display: block; font-size: 1.25rem; font-variant-numeric: tabular-nums; } .tile span { font-size: .85rem; opacity: .8; }
table { border-collapse: collapse; width: 100%; } td, th { border-bottom: 1px solid var(--line); padding: .3rem .5rem .3rem 0; text-align: left; vertical-align: top; }
td.number, th.number { text-align: right; font-variant-numeric: tabular-nums; }
article { border-bottom: 1px solid var(--line); padding: .5rem 0; } article p { overflow-wrap: anywhere; }
code { font: .85em ui-monospace, monospace; overflow-wrap: anywhere; } .rule { font-weight: 600; } .small { font-size: .85rem; opacity: .8; }
"""


@dataclass(frozen=True)
class State:
    """What the page shows beside what differs."""

    # what the gate says of its pool; else why it says nothing
    info: Optional[dict[str, Any]]
    why: str
    node_url: str
    # the journal's segment, if one is written
    segment: str
    # the answers to callers by rule, and how much only the node's and only the gate's pool has
    answers: dict[str, int]
    only: tuple[int, int]


def page(shadow: Shadow, state: State) -> str:
    """The whole page."""
    title = "gated beside %s" % state.node_url
    parts = [
        "<!doctype html><html lang=en><head><meta charset=utf-8><meta name=viewport content='width=device-width, initial-scale=1'>",
        "<meta http-equiv=refresh content=10><title>%s</title><style>%s</style></head><body>" % (escape(title), STYLE),
        "<h1>gated</h1><p class=small>version %s, beside %s</p>" % (VERSION, escape(state.node_url)),
        _state(shadow, state),
    ]
    if state.info is not None:
        parts.append(_tiles(shadow, state.info, state.only))
    if shadow.is_on:
        meanings = {rule: _meaning(shadow, rule) for rule in shadow.by_rule}
        counted = _counts(shadow.by_rule, meanings, "rule", "transactions", "The gate and the node have agreed on everything so far.")
        parts.append("<h2>Differences by rule</h2>%s" % counted)
        parts.append("<h2>The last differences</h2>%s" % ("".join(map(_difference, shadow.last)) or "<p>None.</p>"))
    parts.append("<h2>Answers to callers</h2>%s" % _counts(state.answers, CODES, "rule or code", "answers", "Nobody has called yet."))
    if state.segment:
        parts.append("<p class=small>The journal is written to <code>%s</code>; <code>gated audit</code> checks it.</p>" % escape(state.segment))
    return "".join(parts) + "</body></html>"


def _meaning(shadow: Shadow, rule: str) -> str:
    """What a rule is, and how many of its differences a release explains."""
    known = shadow.known_by_rule[rule]
    parts = [MEANINGS.get(rule, shadow.tokens.get(rule, "")), "%s known" % _grouped(known) if known else ""]
    return ", ".join(filter(None, parts))


def _state(shadow: Shadow, state: State) -> str:
    if state.info is None:
        return "<p class='state bad'>%s</p>" % escape(state.why)
    since = _ago(time.time() - shadow.opened_at)
    return "<p class='state good'>Follows the node</p><p class=small>opened %s ago: %s</p>" % (since, escape(shadow.why))


def _tiles(shadow: Shadow, info: dict[str, Any], only: tuple[int, int]) -> str:
    tip = shadow.tip.height if shadow.tip else 0
    tiles = [
        (_grouped(tip), "height of the tip"),
        (_grouped(info["size"]), "transactions in the pool"),
        (_grouped(info["bytes"]), "virtual bytes"),
        (_grouped(info["mempoolminfee"]), "floor, satoshi per 1,000 vB"),
    ]
    if shadow.is_on:
        tiles += [
            (_grouped(shadow.agreed), "transactions agreed on"),
            (_grouped(sum(shadow.by_rule.values())), "differences"),
            (_grouped(only[0]), "only in the node's pool"),
            (_grouped(only[1]), "only in the gate's pool"),
        ]
    return "<div class=tiles>%s</div>" % "".join("<div class=tile><b>%s</b><span>%s</span></div>" % it for it in tiles)


def _counts(counts: dict[str, int], meanings: dict[str, str], what: str, number: str, none: str) -> str:
    if not counts:
        return "<p>%s</p>" % none
    rows = sorted(counts.items(), key=lambda it: (-it[1], it[0]))
    body = "".join("<tr><td>%s<td class=number>%s" % (escape(": ".join(filter(None, (name, meanings.get(name))))), _grouped(count)) for name, count in rows)
    return "<table><tr><th>%s<th class=number>%s%s</table>" % (what, number, body)


def _difference(it: Difference) -> str:
    when = time.strftime("%Y-%m-%d %H:%M:%S", time.gmtime(it.when))
    about = "<p>gate: %s; node: %s</p>" % (escape(it.ours), escape(it.theirs))
    if it.figures:
        about += "<p>%s</p>" % escape(it.figures)
    if it.known:
        about += "<p class=small>known: %s</p>" % escape(it.known)
    head = "<p><span class=rule>%s</span> <span class=small>%s UTC</span></p><p><code>%s</code></p>" % (escape(it.rule), when, escape(it.txid))
    return "<article>%s%s</article>" % (head, about)


def _grouped(number: int) -> str:
    return "{:,}".format(number)


def _ago(seconds: float) -> str:
    for size, name in ((86400, "day"), (3600, "hour"), (60, "minute")):
        if seconds >= size:
            count = int(seconds // size)
            return "%d %s%s" % (count, name, "s" if count != 1 else "")
    return "%d seconds" % seconds
