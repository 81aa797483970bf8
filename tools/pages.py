"""Whether the pages say what there is, where they say it in words of their own.

- Numbers: how many rules of admission there are, how many of them have figures, how many calls the library has, and how many flags
  a peer may have, in digits or spelled.
- docs/ARCHITECTURE.md has a row for each crate of the product, and for no other.
- Each example that a page, a help text or a tool names is there, and docs/USE.md names each that is there.
- share/gate.1 has the sentences of the help, and no others.
- The lines of openings and of events in docs/FORMATS.md are those of which a message knows the form (crates/gate_causes).
- What docs/TESTING.md and the README.md of a crate say that tests in a crate call stands in the sources of that crate.
- The targets of `make` that pages name are the Makefile's.
"""

import glob
import os
import re
from typing import Iterator

import crates
import documents
import interface
import options

SPELLED = (
    "no", "one", "two", "three", "four", "five", "six", "seven", "eight", "nine", "ten", "eleven", "twelve", "thirteen", "fourteen", "fifteen", "sixteen",
    "seventeen", "eighteen", "nineteen", "twenty",
)  # fmt: skip
# texts that a reader may take for a page
PAGES = (
    "*.md", "docs/*.md", "docs/*.svg", "gated/README.md", "crates/*/README.md", "lib/*.h", "lib/*.hpp", "lib/*/README.md", "share/*",
)  # fmt: skip
HELP_LEAST = 30
# what stands in every help of clap's
OF_CLAP = "Print this message or the help of the given subcommand(s)"


def text_of(path: str) -> str:
    with open(os.path.join(crates.ROOT, path), encoding="utf-8") as file:
        return file.read()


def files(patterns: tuple[str, ...]) -> list[str]:
    return sorted(os.path.relpath(it, crates.ROOT) for home in patterns for it in glob.glob(os.path.join(crates.ROOT, home)) if os.path.isfile(it))


def number(word: str) -> int:
    """A number in digits, or spelled."""
    return SPELLED.index(word.lower()) if word.lower() in SPELLED else int(word.replace(",", ""))


# ---- numbers


def rules_of_admission() -> int:
    """How many denials there are."""
    body = re.search(r"pub enum Denial \{(.*?)^\}", text_of("crates/gate_rules/src/denial.rt"), re.DOTALL | re.MULTILINE)
    return len(re.findall(r"^    [A-Z]\w+,", body[1] if body else "", re.MULTILINE))


def rules_with_figures() -> int:
    """The rows of the table of figures in docs/FORMATS.md, whose rules stand one by one or as `A43 to A45`."""
    table = text_of("docs/FORMATS.md").partition("| Rule | FIGURES |")[2].partition("\n\n")[0]
    found: set[int] = set()
    for line in table.split("\n"):
        cell = line.split("|")[1] if line.count("|") > 2 else ""
        for first, last in re.findall(r"A(\d+)(?: to A(\d+))?", cell):
            found.update(range(int(first), int(last or first) + 1))
    return len(found)


def flags() -> int:
    body = re.search(r"pub struct Permissions \{(.*?)\}", text_of("crates/gate_net/src/permissions.rt"), re.DOTALL)
    return len(re.findall(r"\w+: bool", body[1] if body else ""))


def counted() -> list[tuple[str, int, str]]:
    """How each number is said, what it is, and of what."""
    several = r"\b(%s)" % "|".join(SPELLED[3:])
    return [
        (r"\b(\d+) (?:numbered )?rules\b", rules_of_admission(), "rules of admission"),
        (r"\b(\d+) of (?:the|these|all) %d (?:numbered )?rules\b" % rules_of_admission(), rules_with_figures(), "rules with figures"),
        (r"\bfor (\d+) of them by the figures", rules_with_figures(), "rules with figures"),
        (several + r" calls\b", len(list(interface.calls())), "calls of the library"),
        (several + r" flags\b", flags(), "flags of a peer"),
    ]


def number_faults() -> Iterator[str]:
    seen = set()
    for page in files(PAGES):
        text = text_of(page)
        for pattern, count, what in counted():
            for told in re.findall(pattern, text, re.IGNORECASE):
                seen.add(what)
                if number(told) != count:
                    yield "%s: the %s are %d, and not %s" % (page, what, count, told)
    for what in {what for _, _, what in counted()} - seen:
        yield "no page says how many %s there are" % what


# ---- the map


def map_faults() -> Iterator[str]:
    page = "docs/ARCHITECTURE.md"
    rows = re.findall(r"^\| `(gate\w*)` \|", text_of(page), re.MULTILINE)
    product = sorted(filter(crates.is_product, crates.uses()))
    for crate in product:
        if rows.count(crate) != 1:
            yield "%s has %d rows of %s" % (page, rows.count(crate), crate)
    for row in rows:
        if row not in product:
            yield "%s: %s is no crate of the product" % (page, row)


# ---- examples


def example_faults() -> Iterator[str]:
    there = {"examples/" + it for it in os.listdir(os.path.join(crates.ROOT, "examples"))}
    for file in files(PAGES + ("Makefile", "bench/*", "tests/*.py", "crates/*/src/*.rt")):
        for it in sorted(set(re.findall(r"\bexamples/[\w-]+\.\w+", text_of(file))) - there):
            yield "%s: there is no %s" % (file, it)
    for it in sorted(there):
        if it not in text_of("docs/USE.md"):
            yield "docs/USE.md lacks %s" % it


# ---- the manual page


def plain(text: str) -> str:
    """A text of the help or of the manual page, without its marks, in one case."""
    for mark, instead in (("\\fB", ""), ("\\fR", ""), ("\\-", "-"), ("\\&", ""), ("\\e", "\\"), ("`", "")):
        text = text.replace(mark, instead)
    return text.lower()


def joined(text: str) -> str:
    return " ".join(text.split())


def parts_of_ends(text: str) -> Iterator[str]:
    """The statuses, the examples line by line and the pages at the end of a help text."""
    statuses, _, rest = text.removeprefix("Exit status:").partition("\n\nExamples:\n")
    yield from (joined(it) for it in re.split(r"^  \d  ", statuses, flags=re.MULTILINE))
    *examples, pages = rest.split("\n\n")
    yield from (line for example in examples for line in example.split("\n"))
    yield joined(pages)


def help_texts() -> list[str]:
    """The sentences, statuses and examples of the help, from the strings of the file that has them."""
    path = next(it for it in files(("crates/*/src/*.rt",)) if '= "Exit status:' in text_of(it))
    code = "\n".join(line for line in text_of(path).split("\n") if not line.lstrip().startswith("//"))
    found: list[str] = []
    for literal in re.findall(r'"((?:[^"\\]|\\.)*)"', code):
        text = literal.replace('\\"', '"')
        found += parts_of_ends(text) if text.startswith("Exit status:") else [joined(text)]
    return [it.strip() for it in found if it.strip()]


def manual_faults() -> Iterator[str]:
    page = "share/gate.1"
    there, helped = plain(text_of(page)), help_texts()
    for text in helped:
        if plain(text) not in there:
            yield "%s lacks of the help: %s" % (page, text)
    known = plain("\n".join([OF_CLAP, *helped])) + plain(text_of("tools/manual").replace("\\\\", "\\"))
    for line in text_of(page).split("\n"):
        if len(line) >= HELP_LEAST and not line.startswith((".\\", ".TH", ".SH", ".SS", "gate \\-")) and plain(line).rstrip(".") not in known:
            yield "%s has what the help lacks: %s" % (page, line)


# ---- lines that are read


def told_forms(title: str) -> set[str]:
    """The forms in the first column of a table of docs/FORMATS.md."""
    _, _, behind = text_of("docs/FORMATS.md").partition("\n| %s |" % title)
    table = behind.partition("\n\n")[0].split("\n")[2:]
    return {form.replace("\\|", "|") for line in table for form in re.findall("`([^`]+)`", documents.cells(line)[0])}


def form_faults() -> Iterator[str]:
    path = "crates/gate_causes/src/forms.rt"
    settings = {it.word for it in options.options()}
    for name, title in (("OPENINGS", "Line"), ("EVENTS", "Event line")):
        table = re.search(r"static %s: [^=]*= \[(.*?)\];" % name, text_of(path), re.DOTALL)
        known = {it for it in re.findall('"([^"]+)"', table[1] if table else "") if it.split(" ")[0] not in settings}
        for form in sorted(known ^ told_forms(title)):
            yield "docs/FORMATS.md and %s disagree on the line `%s`" % (path, form)


# ---- tests in crates, targets of make


def told_of_tests() -> Iterator[tuple[str, str, str]]:
    """A page, a crate of tests, and what the page says of its tests: by rows of a table, or behind `gate_x_tests` (`file.rt`)."""
    home = ""
    for line in text_of("docs/TESTING.md").split("\n"):
        row = documents.cells(line) if line.startswith("|") else []
        named = re.match(r"`(gate_\w+_tests)`|the same", row[0]) if len(row) > 1 else None
        if named:
            home = named[1] or home
            yield "docs/TESTING.md", home, row[1]
    for page in files(("crates/*/README.md",)):
        for home, told in re.findall(r"`(gate_\w+_tests)` \(`[\w/]+\.rt`\): (.*?)(?:\.\s|\.?$)", text_of(page), re.MULTILINE):
            yield page, home, told


def test_faults() -> Iterator[str]:
    for page, home, told in told_of_tests():
        sources = "\n".join(documents.sources(home)) if home in crates.uses() else ""
        for name in documents.NAME.findall(told):
            last = name.split("::")[-1]
            if not re.search(r"\b%s\b%s" % (last, r"\(" if last.islower() else ""), sources):
                yield "%s: the tests of %s do not name %s" % (page, home, name)


def target_faults() -> Iterator[str]:
    targets = {it for line in re.findall(r"^([\w -]+):", text_of("Makefile"), re.MULTILINE) for it in line.split()}
    for page in files(PAGES):
        for it in sorted(set(re.findall(r"(?:`|\$ |&& )make ([a-z][\w-]*)", text_of(page))) - targets):
            yield "%s: there is no make %s" % (page, it)


def faults() -> Iterator[str]:
    """All that is amiss."""
    for part in (number_faults, map_faults, example_faults, manual_faults, form_faults, test_faults, target_faults):
        yield from part()
