"""Whether the pages have the settings of an opening as the sources have them.

The table of settings stands in crates/gate_register: words, bounds and defaults. Compared with it are the tables of
docs/FORMATS.md ("Settings"), the defaults in brackets of docs/POLICY.md and README.md, and the list of CHANGELOG.md. What gated says that a setting decides is compared with that table of docs/FORMATS.md. What releases have by
default stands in crates/gate_release; compared with it are the table of docs/FORMATS.md ("Releases"), and
the help on --policy.
"""

import os
import re
from dataclasses import dataclass
from typing import Iterator, Optional

import crates

HOME = "crates/gate_opening/src"
TABLE = "crates/gate_register/src/setting.rt"
POLICY = "crates/gate_admit/src/policy.rt"
DRAFT = "crates/gate_opening/src/draft.rt"
RELEASES = "crates/gate_release/src/release.rt"
HELP = "crates/gate_command/src/help.rt"


@dataclass(frozen=True)
class Option:
    """A setting: its word, its bounds, and its default, which is None if it depends on other lines, and past the most for a limit
    that no opening without its line has."""

    word: str
    variant: str
    least: int
    most: int
    default: Optional[int]
    of_policy: bool

    @property
    def has_no_limit(self) -> bool:
        return self.default is not None and self.default > self.most


def text_of(path: str) -> str:
    with open(os.path.join(crates.ROOT, path), encoding="utf-8") as file:
        return file.read()


def number(text: str) -> int:
    """A number of a source or of a page."""
    return int(re.sub("[_,]", "", text))


def named_by(pattern: str, file: str) -> set[str]:
    """The variants that a file names so."""
    return set(re.findall(pattern % r"Setting::(\w+)", text_of(file)))


def options() -> list[Option]:
    """Every setting that the sources have, in their order. A switch whose default depends on other lines is read by whether a
    line said it."""
    table = text_of(TABLE)
    variants = re.findall(r"^    (\w+),$", table[table.index("pub enum Setting") : table.index("pub struct Row")], re.MULTILINE)
    rows = re.findall(r'word: "(\w+)",.*?least: ([\d_]+),\s+most: ([\d_]+),\s+usual: ([\d_]+),', table, re.DOTALL)
    of_policy, by_others = named_by(r"\(%s\)", POLICY), named_by(r"switch\(%s\)", DRAFT)
    return [
        Option(word, variant, number(least), number(most), None if variant in by_others else number(usual), variant in of_policy)
        for variant, (word, least, most, usual) in zip(variants, rows, strict=True)
    ]


def cells(line: str) -> list[str]:
    return [cell.strip() for cell in re.split(r"(?<!\\)\|", line)[1:-1]]


def rows() -> Iterator[tuple[str, dict[str, str]]]:
    """The rows of the tables of docs/FORMATS.md on settings: the word, and the other cells by their titles."""
    titles: list[str] = []
    for line in text_of("docs/FORMATS.md").split("\n"):
        row = cells(line) if line.startswith("|") else []
        if not row:
            titles = []
        elif row[0] == "Setting":
            titles = row
        elif titles and row[0].startswith("`"):
            yield row[0].strip("`"), dict(zip(titles, row))


def table_faults(known: dict[str, Option]) -> Iterator[str]:
    """Where the tables of docs/FORMATS.md are not the sources."""
    page, seen = "docs/FORMATS.md", []
    for word, row in rows():
        seen.append(word)
        if word not in known:
            yield "%s: there is no setting %s" % (page, word)
            continue
        option = known[word]
        for title, value in (("Least", option.least), ("Most", option.most), ("Default", option.default)):
            if value is None:
                wanted, is_right = "what other lines say", re.search(r"\bif\b", row[title])
            elif title == "Default" and option.has_no_limit:
                wanted, is_right = "none", row[title] == "none"
            else:
                wanted, is_right = "{:,}".format(value), re.fullmatch(r"[\d,]+", row[title]) and number(row[title]) == value
            if not is_right:
                yield "%s: %s of %s is %s, and not %s" % (page, title.lower(), word, wanted, row[title])
        if not re.search(r"\b[AJPU]\d", row["Read by"]):
            yield "%s: no rule reads %s" % (page, word)
    for word in known:
        if seen.count(word) != 1:
            yield "%s has %d rows of the setting %s" % (page, seen.count(word), word)


def constant(name: str) -> int:
    """A constant of crates/gate_opening."""
    texts = "".join(text_of(os.path.join(HOME, it)) for it in sorted(os.listdir(os.path.join(crates.ROOT, HOME))))
    found = re.search(r"const %s: \w+ = ([\d_]+);" % name, texts)
    return number(found[1]) if found else -1


def range_faults() -> Iterator[str]:
    """Where the lines `budget`, `from` and `times` of docs/FORMATS.md are not the sources."""
    lines = {row[0].strip("`").split(" ")[0]: row[1] for row in map(cells, text_of("docs/FORMATS.md").split("\n")) if len(row) == 2}
    for word, form, values in (
        ("budget", "at most {:,}; {:,} by default", (constant("MAX_BUDGET"), constant("DEFAULT_BUDGET"))),
        ("from", "0 to {:,};", (constant("MAX_HEIGHT"),)),
        ("times", "at most {:,}", (constant("MAX_HEIGHT"),)),
        ("times", "1 to {:,} times", (constant("MAX_TIMES"),)),
    ):
        if form.format(*values) not in lines.get(word, ""):
            yield "docs/FORMATS.md: %s is %s" % (word, form.format(*values))


def bracket_faults(known: dict[str, Option]) -> Iterator[str]:
    """Defaults that docs/POLICY.md and README.md have in brackets behind a setting, and how many of them there are."""
    for page in ("docs/POLICY.md", "README.md"):
        for word, told in re.findall(r"`(\w+)` \((?:\w+ below, |\w+, )?([\d,]+)(?: by default)?[);]", text_of(page)):
            if word in known and known[word].default != number(told):
                yield "%s: the default of %s is %s, and not %s" % (page, word, known[word].default, told)


def lists_in(text: str, name: str) -> str:
    """The list of a source that has this name."""
    return text[text.index("static %s:" % name) :].partition("\n];\n")[0]


def releases(known: dict[str, Option]) -> dict[str, dict[str, int]]:
    """By its word, what each release has otherwise than the defaults, as the sources have it."""
    text, words = text_of(RELEASES), {it.variant: it.word for it in known.values()}
    names = re.findall(r"Release::(\w+),", lists_in(text, "ALL"))
    found: dict[str, dict[str, int]] = {it: {} for it in re.findall(r'"([\w-]+)"', lists_in(text, "WORDS"))}
    row = r"setting: Setting::(\w+),\s+number: ([\d_]+),\s+first: Release::(\w+),\s+last: Release::(\w+)"
    for variant, value, first, last in re.findall(row, lists_in(text, "CHOICES")):
        for release, numbers in list(found.items())[names.index(first) : names.index(last) + 1]:
            numbers[words[variant]] = number(value)
    return found


def told_of_releases() -> dict[str, dict[str, int]]:
    """The same, as docs/FORMATS.md has it."""
    table = text_of("docs/FORMATS.md").partition("\n### Releases\n")[2].partition("\n### ")[0]
    found: dict[str, dict[str, int]] = {}
    for name, told in re.findall(r"^\| `([\w-]+)` \| [^|]+ \| ([^|]*) \|", table, re.MULTILINE):
        numbers: dict[str, int] = {}
        for word, value in re.findall(r"`([\w-]+)(?: (\d+))?`", told):
            numbers.update({word: int(value)} if value else found[word])
        found[name] = numbers
    return found


def release_faults(known: dict[str, Option]) -> Iterator[str]:
    """Where docs/FORMATS.md and the help have not the releases of the sources."""
    usual = {it.word: it.default for it in known.values()}
    # a release may take back what one before it had
    told = {name: {word: value for word, value in it.items() if value != usual.get(word)} for name, it in told_of_releases().items()}
    wanted = releases(known)
    for name in wanted.keys() | told.keys():
        if wanted.get(name) != told.get(name):
            yield "docs/FORMATS.md: the release %s has %s, and not %s" % (name, wanted.get(name), told.get(name))
    helped = re.search(r"TRY_POLICY: &str = \"[^:]*: ([^;]*);", text_of(HELP))
    if not helped or re.findall(r"[a-z]+-\d+", helped[1]) != list(wanted):
        yield "%s: the help on --policy doesn't name the releases in their order" % HELP


def rule_faults() -> Iterator[str]:
    """Rules that settings decide by gated, and that the tables of docs/FORMATS.md don't have read them."""
    page, readers = "gated/gated/node/releases.py", {word: re.findall(r"[APU]\d+", row["Read by"]) for word, row in rows()}
    for word, rule in re.findall(r'"(\w+)": "([APU]\d+)"', text_of(page)):
        if rule not in readers.get(word, []):
            yield "%s: no %s reads %s by docs/FORMATS.md" % (page, rule, word)


def change_faults(known: dict[str, Option]) -> Iterator[str]:
    """Settings of the policy that CHANGELOG.md leaves out."""
    text = text_of("CHANGELOG.md")
    for option in known.values():
        if option.of_policy and "`%s`" % option.word not in text:
            yield "CHANGELOG.md lacks the setting %s" % option.word


def faults() -> Iterator[str]:
    """All that is amiss."""
    known = {it.word: it for it in options()}
    if "COUNT: usize = %d;" % len(known) not in text_of(TABLE):
        yield "tools/options.py finds %d settings in the sources" % len(known)
    yield from table_faults(known)
    yield from range_faults()
    yield from bracket_faults(known)
    yield from release_faults(known)
    yield from rule_faults()
    yield from change_faults(known)
