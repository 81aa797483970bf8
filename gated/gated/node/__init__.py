"""What a Bitcoin node answers, and the lines that the gate reads of it: for tools/opening, tools/compare and gated.

A node is asked by its own command (bitcoin-cli) or by RPC, or its answers are looked up in a recording: a file of lines, each
a JSON object with `method`, `params`, and `result` or `error`.
"""

from .answers import Candidate, Coin, Entry, coin_before, coin_of, entry_of, floor_of, parents_first, satoshi
from .lines import add_words, asked, digits_in, first_height, opening, policy_lines, run, said_in, setting_lines, times_of
from .releases import SCRIPT_REASONS, policy_of, settings_of
from .sources import OneByOne, RecordedNode, Recorder, Refused, RunningNode, Source, Unusable, read_json
from .transactions import Paid, Spent, Transaction, read_transaction
from .view import BLOCK_CAME, MEDIAN_OF, View, coins_of

__all__ = [
    "BLOCK_CAME",
    "Candidate",
    "Coin",
    "Entry",
    "MEDIAN_OF",
    "OneByOne",
    "Paid",
    "RecordedNode",
    "Recorder",
    "Refused",
    "RunningNode",
    "SCRIPT_REASONS",
    "Source",
    "Spent",
    "Transaction",
    "Unusable",
    "View",
    "add_words",
    "asked",
    "coin_before",
    "coin_of",
    "coins_of",
    "digits_in",
    "entry_of",
    "first_height",
    "floor_of",
    "opening",
    "parents_first",
    "policy_lines",
    "policy_of",
    "read_json",
    "read_transaction",
    "run",
    "said_in",
    "satoshi",
    "setting_lines",
    "settings_of",
    "times_of",
]
