"""`gate rules` and `gate explain`, beside the contracts and docs/POLICY.md."""

import re
from collections import namedtuple

from gate import same, same_lines, true
from model import CLOSING, text_of

Rule = namedtuple("Rule", "name token says then core")

KEPT, CLOSED = "The session is kept.", "The session is closed, unless the peer has noban."
ALWAYS_CLOSED = "The session is closed, also with noban."
RELAYED = "The session is kept, and for a peer with forcerelay the transaction is relayed once more."
UNCHANGED, RUN_ENDS, PROGRAM_ENDS = "Nothing changes.", "The run ends there.", "The program ends with status 2."
THENS = (KEPT, CLOSED, ALWAYS_CLOSED, RELAYED, UNCHANGED, RUN_ENDS, PROGRAM_ENDS)
# the beginnings of tokens that have a colon themselves
PREFIXES = "(?:package RBF failed: (?:insufficient feerate: )?)?"
LINE = re.compile(r"(\S+) (%s[^:]+): (.+)\. (%s)(?: Core: (.+)\.)?" % (PREFIXES, "|".join(map(re.escape, THENS))))

POLICY, FORMATS = text_of("docs", "POLICY.md"), text_of("docs", "FORMATS.md")
LETTERS = "APJUNCL"
NUMBERED = set(re.findall(r"^\| \**([APJUNC]\d+)\W", POLICY, re.MULTILINE) + re.findall(r"^\| `refused (L\d+) ", FORMATS, re.MULTILINE))
ORDER = sorted(NUMBERED, key=lambda it: (LETTERS.index(it[0]), int(it[1:])))
OPENINGS = re.findall(r"^(?:\| |If no line fails, )`([\w-]+)` ", FORMATS.partition("\n### Faults of an opening\n")[2].partition("\n## ")[0], re.MULTILINE)
FAULTS = re.findall(r"^\| `fault ([\w-]+)` \|", FORMATS, re.MULTILINE)
# docs/POLICY.md has them in several tables
CALLS = ["missing-inputs", "Parse error", "Invalid Request", "Method not found", "Invalid params", "Transaction not in mempool"]


def printed(gate, words):
    """The lines of a command that takes no input."""
    done = gate.run(words)
    same("standard error of gate " + words, done.stderr, b"")
    same("status of gate " + words, done.status, 0)
    return done.stdout.decode().splitlines()


def rules(gate):
    found = []
    for line in printed(gate, "rules"):
        match = LINE.fullmatch(line)
        true("no line of a rule: " + line, match)
        found.append(Rule(*match.groups()))
    return found


def numbered(gate):
    return {it.name: it for it in rules(gate) if it.name[0].isupper()}


def test_order(gate):
    """Every rule stands in its order, and then the words of openings and of lanes."""
    found = rules(gate)
    same_lines([it.name for it in found], ORDER + ["opening"] * len(OPENINGS) + ["fault"] * len(FAULTS) + ["call"] * len(CALLS))
    same("openings", [it.token for it in found if it.name == "opening"], OPENINGS)
    same("faults", [it.token for it in found if it.name == "fault"], FAULTS)
    same("calls", [it.token for it in found if it.name == "call"], CALLS)


def equations(path, name):
    """What a definition gives at each variant: `name Variant = text`."""
    return re.findall(r"^%s \(?(?:\w+\.)?(\w+)[^=]*= (.*)$" % name, text_of("crates", *path.split("/")), re.MULTILINE)


def quoted(text):
    """The text of codes "..", or None."""
    match = re.search(r'codes "([^"]*)"', text)
    return match and match[1]


def test_contracts(gate):
    """Numbers and tokens are those that the contracts carry."""
    wanted = {}
    for file in ("Denials", "Peers", "Packages", "Whitelist", "Chain"):
        wanted.update(re.findall(r'^row_of \w+ = key \(codes "([^"]*)"\) \(codes "([^"]*)"\)', text_of("crates", "gate_rules", "specs", file + ".antt"), re.MULTILINE))
    for path in ("gate_rpc/specs/Replies.antt", "gate_lines/specs/Refused.antt"):
        for line in re.findall(r'codes "(?:denied|refused) ([UL]\d .*)"', text_of("crates", *path.split("/"))):
            name, token = line.split(" ")
            wanted[name] = token
    same("numbers", sorted(wanted), sorted(ORDER))
    found = numbered(gate)
    same_lines(["%s %s" % (name, found[name].token) for name in ORDER], ["%s %s" % (name, wanted[name]) for name in ORDER])
    openings = [quoted(text) for _, text in equations("gate_opening/specs/OpeningFaults.antt", "token_text")]
    same("openings", sorted(filter(None, openings)), sorted(OPENINGS))
    faults = [quoted(text) for _, text in equations("gate_lanes/specs/Faults.antt", "fault_line")]
    same("faults", sorted(faults), sorted("fault " + token for token in FAULTS))


def rows(page, first):
    """The rows of a page's tables, by their first cell, which matches a pattern."""
    found = {}
    for line in text_of("docs", page).splitlines():
        cells = [cell.strip() for cell in re.split(r"(?<!\\)\|", line)[1:-1]]
        if cells and re.fullmatch(first, cells[0]):
            found[cells[0].strip("`*")] = cells[1:]
    return found


def numbers(text):
    """What a text says in numbers of more than one digit."""
    return set(re.findall(r"0x[0-9a-f]+|\d[\d,]*\d", text))


def test_policy(gate):
    """The tables of docs/POLICY.md have the same tokens, and what follows; a rule's sentence has the numbers of its row."""
    found = numbered(gate)
    table = rows("POLICY.md", r"[APJNC]\d+")
    same("rules", sorted(table), sorted(name for name in ORDER if name[0] in "APJNC"))
    for name, cells in table.items():
        same("token of " + name, "`%s`" % found[name].token, cells[0])
        missing = numbers(cells[1]) - numbers(found[name].says)
        true("%s says nothing of %s: %s" % (name, missing, found[name].says), not missing)
    thens = {"keep": KEPT, "close": CLOSED, "close, also for noban": ALWAYS_CLOSED, "relay for forcerelay, else keep": RELAYED}
    for name, cells in table.items():
        if name[0] == "P":
            same("what follows " + name, found[name].then, thens[cells[2]])


def test_what_follows(gate):
    """The rules of admission close the session where docs/POLICY.md says so, and the others say what they end."""
    same("how many close", len([it for it in CLOSING if it[0] == "A"]), 15)
    for rule in rules(gate):
        letter = rule.name[0]
        if letter == "A":
            wanted = CLOSED if rule.name in CLOSING else KEPT
        elif letter == "J":
            wanted = KEPT
        elif rule.name in ("L2", "L3"):
            wanted = RUN_ENDS
        elif letter == "N" or rule.name == "opening":
            wanted = PROGRAM_ENDS
        elif letter == "P":
            continue
        else:
            wanted = UNCHANGED
        same("what follows " + rule.name, rule.then, wanted)


def test_formats(gate):
    """docs/FORMATS.md has the words for openings, lines and lanes, and their numbers."""
    found = rules(gate)
    for rule in found:
        if rule.name == "opening":
            true("FORMATS lacks " + rule.token, "`%s`" % rule.token in FORMATS)
        elif rule.name == "fault":
            true("FORMATS lacks fault " + rule.token, "| `fault %s` |" % rule.token in FORMATS)
        elif rule.name[0] == "L":
            true("FORMATS lacks " + rule.name, "| `refused %s %s` |" % (rule.name, rule.token) in FORMATS)
    numbers_of_lines = {"L2": "16,777,216", "L3": "1,000,000"}
    for rule in found:
        if rule.name in numbers_of_lines:
            true("%s without its number" % rule.name, numbers_of_lines[rule.name] in rule.says)


def explained(gate, word):
    """The names and tokens of the lines of `gate explain`, which are lines of `gate rules`."""
    done = gate.run_words(["explain", word])
    lines = done.stdout.decode().splitlines()
    every = printed(gate, "rules")
    true("a line that gate rules lacks: %r" % lines, all(line in every for line in lines))
    return [LINE.fullmatch(line).group(1, 2) for line in lines], done.stderr.decode(), done.status


def test_explain(gate):
    """A rule is found by its name, and by its token, which several may have."""
    same("A36", explained(gate, "A36"), ([("A36", "too-long-mempool-chain")], "", 0))
    fees = [(name, "insufficient fee") for name in ("A38", "A41", "A42")]
    same("insufficient fee", explained(gate, "insufficient fee"), (fees, "", 0))
    known = [("A21", "txn-already-in-mempool"), ("P5", "txn-already-in-mempool")]
    same("txn-already-in-mempool", explained(gate, "txn-already-in-mempool"), (known, "", 0))
    same("bad-line", explained(gate, "bad-line"), ([("L1", "bad-line"), ("opening", "bad-line")], "", 0))
    same("C8", explained(gate, "C8"), ([("C8", "coin-value")], "", 0))
    same("coin-value", explained(gate, "coin-value"), ([("C8", "coin-value"), ("opening", "coin-value")], "", 0))
    same("coin-unspendable", explained(gate, "coin-unspendable"), ([("C9", "coin-unspendable"), ("opening", "coin-unspendable")], "", 0))
    same("opening", explained(gate, "opening"), ([("opening", token) for token in OPENINGS], "", 0))
    same("fault", explained(gate, "fault"), ([("fault", token) for token in FAULTS], "", 0))
    same("a36", explained(gate, "a36"), ([("A36", "too-long-mempool-chain")], "", 0))
    same("INSUFFICIENT FEE", explained(gate, "INSUFFICIENT FEE"), (fees, "", 0))
    same("call", explained(gate, "call"), ([("call", token) for token in CALLS], "", 0))


def test_explain_nothing(gate):
    """A word that names nothing prints nothing, standard error says so, and the status is 1."""
    for word, near in (("A52", None), ("C13", None), ("A", None), ("A036", "A36"), ("fee", None), ("", None), ("insufficient  fee", "insufficient fee")):
        told = 'gate: no rule and no token is named "%s"; %s\n' % (word, "is it %s?" % near if near else "gate rules lists them")
        same("explain %r" % word, explained(gate, word), ([], told, 1))
