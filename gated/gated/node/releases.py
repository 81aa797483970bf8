"""What is known of releases of Bitcoin Core: by which name an opening takes the settings that one has, and what each is known
to do otherwise than the gate under that name (docs/DECISIONS.md, "Beside a node"). Nothing else here or in gated knows a release."""

from __future__ import annotations

from dataclasses import dataclass
from typing import Any, Iterable, Mapping, Optional

from .answers import NetworkInfo, PoolInfo, satoshi

# the name of a release in an opening (docs/FORMATS.md), from which version of a node on; one before them has the defaults
POLICIES = ((300000, "core-30"), (290100, "core-29"), (280000, "core-28"), (270000, "core-27"), (260000, "core-26"), (250000, "core-25"))
KNOTS = "knots-29"
KNOTS_SINCE = 290000
# the first release that takes packages
PACKAGES_SINCE = 280000
# the rule that a setting decides, where one alone does
RULES = {
    "truc": "A12", "datacarriersize": "A16", "permitbaremultisig": "A16", "dustrelayfee": "A17", "datacarrieroutputs": "A18", "mintxsize": "A19", "mempoolfullrbf": "A23", "anchors": "A31",
    "maxtxlegacysigops": "A31", "minrelaytxfee": "A35", "limitancestorcount": "A36", "limitancestorsize": "A36", "limitdescendantcount": "A36", "limitdescendantsize": "A36", "replacedparents": "A40",
    "incrementalrelayfee": "A42", "datacarriertotal": "A51",
}  # fmt: skip
# how a node's `getmempoolinfo` names a setting, where that is another name than the line's
FIELDS = {"fullrbf": "mempoolfullrbf", "maxdatacarriersize": "datacarriersize"}
# how a node names a script that fails, and the verdict that stands for it
SCRIPT_REASONS = {
    "mandatory-script-verify-flag-failed": "hard",
    "non-mandatory-script-verify-flag": "soft",
    "mempool-script-verify-flag-failed": "soft",
}


@dataclass(frozen=True)
class Change:
    """What a release changed that no line of an opening says. The difference is the gate's rule, and how the node's reason begins
    ("" if the node takes it)."""

    since: int
    why: str
    rule: str
    reason: str = ""

    @property
    def release(self) -> str:
        """Its number as people write it: 28.0, 29.1."""
        return "%d.%d" % (self.since // 10000, self.since // 100 % 100)

    def text(self) -> str:
        return "since Bitcoin Core %s: %s" % (self.release, self.why)

    def explains(self, release: int, rule: str, reason: str) -> bool:
        """Whether it is why the gate's rule and the node's reason differ."""
        is_reason = reason.startswith(self.reason) if self.reason else not reason
        return rule == self.rule and is_reason and release >= self.since


SAME_REFUSAL = "the same refusal under another name"
CHANGES = (
    Change(280000, "version 3 is standard (BIP 431)", "A12"),
    Change(290000, "dust may stand in a transaction without a fee whose child spends it", "A17"),
    Change(290000, SAME_REFUSAL, "A17", "dust-nonanchor"),
    Change(290000, SAME_REFUSAL, "A31", "bad-txns-input-sigops-toomany-overall"),
    Change(290000, SAME_REFUSAL, "A31", "bad-txns-input-witness-unknown"),
    Change(290000, SAME_REFUSAL, "A32", "bad-witness-anchor-not-empty"),
    Change(290000, SAME_REFUSAL, "A44", "mempool-script-verify-flag-failed"),
    Change(290000, SAME_REFUSAL, "A47", "truc-"),
)
# what data a transaction has at the most: an option above it decides nothing, since no heavier one is standard (A13)
MOST_DATA = 100000
# how a node since Bitcoin Core 25.0 says that a transaction burns more than its caller allows
SAID_OF_BURN = "maxburnamount"


def policy_of(network: NetworkInfo) -> Optional[str]:
    """The name by which an opening takes the settings of a node's release; None if it has the defaults."""
    release = network["version"]
    if release >= KNOTS_SINCE and "Knots" in network.get("subversion", ""):
        return KNOTS
    return next((name for since, name in POLICIES if release >= since), None)


def settings_of(pool: PoolInfo) -> dict[str, int]:
    """What a node's `getmempoolinfo` tells of its settings, by line. They come before those of its release."""
    found = {"minrelaytxfee": satoshi(pool["minrelaytxfee"])}
    if "incrementalrelayfee" in pool:
        found["incrementalrelayfee"] = satoshi(pool["incrementalrelayfee"])
    if "permitbaremultisig" in pool:
        found["permitbaremultisig"] = int(pool["permitbaremultisig"])
    if "maxdatacarriersize" in pool:
        # the releases that tell it bound all data of a transaction by it
        found["datacarriersize"] = found["datacarriertotal"] = min(pool["maxdatacarriersize"], MOST_DATA)
    if "fullrbf" in pool:
        found["mempoolfullrbf"] = int(pool["fullrbf"])
    return found


def overridden(lines: Iterable[str], settings: Mapping[str, int]) -> dict[str, str]:
    """By rule, the line by which an operator says another number than the node, or a number of what the node doesn't tell
    itself."""
    found = {}
    for line in lines:
        name, _, number = line.partition(" ")
        if name in RULES and number.isdecimal() and int(number) != settings.get(name):
            found[RULES[name]] = line
    return found


def also_of_the_gate(pool: PoolInfo, lines: Iterable[str]) -> dict[str, Any]:
    """What a node's `getmempoolinfo` tells, but for settings that these lines of an operator say otherwise."""
    said = {line.partition(" ")[0] for line in lines}
    return {name: value for name, value in pool.items() if FIELDS.get(name, name) not in said}


def explained(release: int, rule: str, reason: str) -> Optional[Change]:
    """The change of a release that is why the gate's rule and the node's reason differ; None if none is known."""
    return next((it for it in CHANGES if it.explains(release, rule, reason)), None)
