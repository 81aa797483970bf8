"""The parsers of reply lines for C++, Rust and Python, beside docs/FORMATS.md. They need no library.

A host in each language prints the parts of lines that are not empty: of every line of every row, of a denial for each token of
docs/POLICY.md, and of lines that differ from these in a few characters. What is wanted comes from the forms of FORMATS.
"""

import glob
import os
import random
import re
import shutil
import subprocess
import sys

from gate import ROOT, NotTried, same, same_lines, true
from library import HOSTS, WARNINGS, cpp_compiler, made
from rules import rows, text_of

SECONDS = 120
LIB = os.path.join(ROOT, "lib")
# each form of a reply line, with the names of its parts
FORMS = {
    "entered FLAGS": "flags",
    "left": "",
    "admitted TXID fee F vsize V replaced N": "txid fee vsize replaced",
    "packaged THEN WHAT | MEMBER | MEMBER": "then what first second",
    "listing N TXID ..": "count txids",
    "block H TIME": "height time",
    "headers H+1 COUNT": "height count",
    "filter RATE": "rate",
    "rpc STATUS JSON": "status body",
    "rpc STATUS denied RULE TOKEN": "status rule token",
    "chain TIP removed R entered E": "tip removed entered",
    "set": "",
    "forgotten N C R": "blocks coins rows",
    "denied RULE THEN TOKEN": "rule then token",
    "refused RULE TOKEN": "rule token",
    "fault TOKEN": "token",
}
# forms that do not stand in FORMATS as such: its lines `rpc 403 denied ..` and `fault ..` are of the first two
NOT_ON_THE_PAGE = {"rpc STATUS denied RULE TOKEN", "fault TOKEN", "forgotten N C R"}
# what stands on the page for a member of a package
OF_MEMBERS = {"denied RULE TOKEN"}
GREATEST_NUMBER = 9007199254740991
TXID = "[0-9a-f]{64}"
# a token between bars
PLAIN = "[^ |]+(?: [^ |]+)*"
# what stands for a word of a form in capitals; a number for each other one
WORDS = {
    "FLAGS": "[a-z]+(?:,[a-z]+)*",
    "TXID": TXID,
    "JSON": r"\{.*",
    "RULE": "[A-Z][1-9][0-9]?",
    "THEN": "keep|close|relay",
    "TOKEN": "[^ ]+(?: [^ ]+)*",
    "WHAT": "success|transaction failed|[A-Z][1-9][0-9]? " + PLAIN,
    "MEMBER": "admitted %s fee %s vsize %s replaced %s|known %s|denied [A-Z][1-9][0-9]? %s" % (TXID, *3 * ["(?:0|[1-9][0-9]*)"], TXID, PLAIN),
}
NUMBER = "0|[1-9][0-9]*"


def pattern(form):
    """A form as a regular expression with a group for each part."""
    parts = []
    for word in form.removesuffix(" TXID ..").split(" "):
        parts.append("(%s)" % WORDS.get(word, NUMBER) if word[0].isupper() else re.escape(word))
    return re.compile(" ".join(parts) + ("((?: %s)*)" % TXID if form.endswith(" ..") else ""))


PATTERNS = {form: pattern(form) for form in FORMS}


def is_number(name):
    return name not in ("flags", "txid", "txids", "body", "rule", "then", "token", "members")


def of_package(given):
    """The parts of a package: its rule and its token, or its token alone, and its members."""
    rule, _, token = given["what"].partition(" ") if given["what"] not in ("success", "transaction failed") else ("", "", given["what"])
    return dict(then=given["then"], rule=rule, token=token, members="%(first)s,%(second)s" % given)


def numbers_of(given):
    """The numbers of a reply, those of members too."""
    members = re.findall(r"(?:^|,)admitted \w+ fee (\d+) vsize (\d+) replaced (\d+)", given.get("members", ""))
    return [int(text) for name, text in given.items() if name != "kind" and is_number(name)] + [int(it) for member in members for it in member]


def parts(line):
    """The parts of a line as the forms have them, or None."""
    for form, names in FORMS.items():
        found = PATTERNS[form].fullmatch(line)
        if found:
            given = dict(zip(names.split(), found.groups()))
            given = dict(of_package(given) if "what" in given else given, kind=form.split(" ")[0])
            if any(number > GREATEST_NUMBER for number in numbers_of(given)):
                return None
            if "txids" in given and len(given["txids"].split()) != int(given["count"]):
                return None
            return given
    return None


def expected_print(line):
    """What each host prints of a line."""
    given = parts(line)
    if given is None:
        return "none"
    if given.get("flags") == "none":
        given["flags"] = ""
    given["txids"] = ",".join(given.get("txids", "").split())
    return "\t".join("%s=%s" % it for it in sorted(given.items()) if it[1] not in ("", "0", "keep"))


def lines_of_rows():
    """Every line of every row's output, and what stands behind the mark of a reply."""
    found = set()
    for path in glob.glob(os.path.join(ROOT, "rows", "*", "stdout*")):
        with open(path, encoding="utf-8") as file:
            text = file.read()
        if path.endswith(".short"):
            text = re.sub(r"<(\d+)\*([^>]*)>|\{(\d+)\*([^}]*)\}", lambda it: int(it[1] or it[3]) * (it[2] or it[4]), text)
        found.update(text.splitlines())
    return sorted(found | {line[2:] for line in found if line.startswith("< ")})


def lines_of_tokens():
    """A denial or a refusal by each rule of docs/POLICY.md, and what a gate that follows a chain adds."""
    listed = re.findall(r"^\| `([^`]*)` \| ([A-Z]\d+(?:, [A-Z]\d+)*) \|$", text_of("docs", "POLICY.md"), re.MULTILINE)
    for token, rules in listed:
        for rule in rules.split(", "):
            if rule[0] == "C":
                yield "refused %s %s" % (rule, token)
            else:
                yield from ("denied %s %s %s" % (rule, then, token) for then in ("keep", "close", "relay"))
    yield from ("forgotten 1 5 0", "forgotten 0 0 0", "refused C8 coin-value", "refused C12 verdict-known", "rpc 403 denied U1 rpc-whitelist")


def lines_at_ends():
    """Lines at the ends of their forms, and just past them."""
    txid = "ab" * 32
    yield from ("", " ", "left", "left ", " left", "left left", "Left", "set", "set 1", "lefts", "none", "admitted", "denied", "rpc")
    for number in ("0", "1", "00", "01", "-1", "+1", "1.0", "0x1", "", "9007199254740991", "9007199254740992", "18446744073709551616", "9" * 40, "1 ", "\u0661"):
        yield from ("filter " + number, "block %s 7" % number, "block 7 " + number, "headers %s 0" % number, "forgotten 1 %s 2" % number)
        yield "admitted %s fee %s vsize 1 replaced 0" % (txid, number)
        yield from ("chain 1 removed %s entered 0" % number, "rpc %s {}" % number, "listing " + number)
    for id_text in (txid, txid.upper(), txid[1:], txid + "0", txid[:-1] + "g", "", txid[:-1] + " "):
        yield "admitted %s fee 1 vsize 1 replaced 0" % id_text
        yield from ("listing 1 " + id_text, "listing 2 %s %s" % (txid, id_text), "listing 1 %s %s" % (txid, id_text), "listing 0 " + id_text)
    for rule in ("A1", "A46", "Z99", "A100", "A0", "A01", "a1", "A", "1", "AA1", "A1 ", "\u00c41", ""):
        yield from ("denied %s keep dust" % rule, "refused %s dust" % rule, "rpc 403 denied %s dust" % rule)
    for then in ("keep", "close", "relay", "Keep", "keeps", "", "keep close"):
        yield from ("denied A1 %s dust" % then, "denied A1 " + then)
    for token in ("dust", "two words", "two  words", " dust", "dust ", "", "\u00e9t\u00e9", "a\tb", "a\rb"):
        yield from ("denied A1 keep " + token, "refused C1 " + token, "fault " + token)
    for what in ("success", "transaction failed", "J8 TRUC-violation", "J10 package RBF failed: package", "J8", "failed", "transaction", "success ", "J8 a|b", "J8 |", "", "success | known " + txid):
        yield "packaged keep %s | known %s | known %s" % (what, txid, txid)
    for member in ("known " + txid, "known", "known %s " % txid, "known " + txid.upper(), "denied A35 min relay fee not met", "denied A35", "denied A35 a|b", "denied A35 |", "denied keep A35 dust", "|", ""):
        yield from ("packaged close success | %s | known %s" % (member, txid), "packaged keep transaction failed | known %s | %s" % (txid, member))
        yield from ("packaged keep success | " + member, "packaged keep success | %s | %s | %s" % (member, member, member), "packaged relay success |%s | %s" % (member, member))
    for number in ("0", "9007199254740991", "9007199254740992", "01", "-1", "", "1 "):
        yield "packaged keep success | admitted %s fee %s vsize 1 replaced 0 | known %s" % (txid, number, txid)
        yield "packaged keep success | known %s | admitted %s fee 1 vsize %s replaced 0" % (txid, txid, number)
        yield "packaged keep success | known %s | admitted %s fee 1 vsize 1 replaced %s" % (txid, txid, number)
    for flags in ("none", "addr", "addr,relay", "addr,", ",addr", "addr,,relay", "Addr", "none,addr", "addr relay", "addr, relay", "", "a1"):
        yield "entered " + flags
    for body in ("{}", "{", "{} ", '{"a":"b c"}', "[]", " {}", "", '{"a":"\u00e9"}', "denied", "denied U1", "denied U1 rpc-whitelist"):
        yield "rpc 200 " + body


def mutate(line, rng):
    """A line with one or two characters left out, put in, or put in the place of others."""
    for _ in range(rng.choice((1, 1, 2))):
        at = rng.randrange(len(line) + 1)
        line = line[:at] + rng.choice(("", " ", "0", "1", "a", "f", "g", "Z", ",", "{", "-", "  ", "\r")) + line[at + rng.randrange(2):]
    return line


def lines_of_all():
    """All lines that are tried, each once."""
    rng, plain = random.Random(64), [*lines_of_rows(), *lines_of_tokens()]
    replies = [line for line in plain if parts(line)]
    found = [*plain, *lines_at_ends(), *(mutate(rng.choice(replies), rng) for _ in range(4000))]
    return sorted(set(found))


def prints(host, *words, **more):
    """A host prints what is wanted of each line."""
    lines = lines_of_all()
    text = "".join(line + "\n" for line in lines).encode()
    done = subprocess.run([*words, host], input=text, capture_output=True, timeout=SECONDS, check=False, **more)
    same("standard error and status of %s" % os.path.basename(host), (done.stderr.decode()[-1000:], done.returncode), ("", 0))
    found = done.stdout.decode().split("\n")
    same_lines([" -> ".join(it) for it in zip(lines, found)], ["%s -> %s" % (line, expected_print(line)) for line in lines])
    same("how many lines", len(found), len(lines) + 1)


def test_the_forms_of_the_page(gate):
    """The forms of docs/FORMATS.md are those that the parsers are tried on, and each reply line that it names has one of them."""
    page = text_of("docs", "FORMATS.md")
    events = page[page.index("\n## Events and replies\n") : page.index("\n## Lanes and rounds")]
    forms = re.findall(r"^\| `(?:peer|user|chain|operator) .*? \| `([^`]*)`[^|]*\|$", events, re.MULTILINE)
    forms = [form.replace("\\|", "|") for form in forms]
    forms += re.findall(r"`((?:denied|refused) RULE[^`]*)`", events)
    true("few forms: %s" % forms, len(set(forms)) > 11)
    same("forms that are not tried", sorted(set(forms) - set(FORMS) - OF_MEMBERS), [])
    same("forms that the page lacks", sorted(set(FORMS) - set(forms) - NOT_ON_THE_PAGE), [])
    lines = re.findall(r"^\| `((?:refused|fault) [^`]*)` \|", page, re.MULTILINE)
    true("few lines: %s" % lines, len(lines) > 7)
    same("lines of no form", [line for line in lines if not parts(line)], [])


def test_the_parts_on_the_page(gate):
    """The table of docs/LIBRARY.md has each kind with its parts."""
    found = {kind: set(re.findall(r"`(\w+)`", text.partition(": for `")[0])) for kind, text in rows("LIBRARY.md", r"`[a-z]+`").items() for text in text[:1]}
    expected = {}
    for form, names in FORMS.items():
        expected.setdefault(form.split(" ")[0], set()).update(("then rule token members" if "what" in names else names).split())
    same("kinds", sorted(found), sorted(expected))
    for kind, names in expected.items():
        same("parts of " + kind, sorted(found[kind]), sorted(names))


def test_how_much_is_tried(gate):
    """Each form but the last ones occurs in a row, and lines that are changed are replies and none, often."""
    rows = lines_of_rows()
    for form, regex in PATTERNS.items():
        true("no row has a line of %s" % form, form in ("forgotten N C R", "fault TOKEN") or any(map(regex.fullmatch, rows)))
    lines = lines_of_all()
    replies = sum(1 for line in lines if parts(line))
    true("%d lines, %d of them replies" % (len(lines), replies), replies > 1500 and len(lines) - replies > 1500)


def test_replies_in_cpp(gate):
    """`Reply::parse` of lib/gate.hpp."""
    prints(made("replies-cpp", "replies.cpp", [cpp_compiler(), *WARNINGS, "-std=c++17", "-I", LIB]))


def test_replies_in_rust(gate):
    """`Reply` of the crate, also printed as the line that it was read from."""
    if not shutil.which("rustc"):
        raise NotTried("there is no rustc")
    prints(made("replies-rs", "replies.rs", ["rustc", "--edition", "2021", "-D", "warnings", "-O"]))


def test_replies_in_python(gate):
    """`Reply.parse` of the package."""
    surroundings = dict(os.environ, PYTHONPATH=os.path.join(LIB, "python"), GATE_LIBRARY="/nowhere")
    prints(os.path.join(HOSTS, "replies.py"), sys.executable, env=surroundings)
