"""Whether the documents name what there is.

- Each crate has a README.md, whose first line begins with the crate's name.
- The names in the column "Contracts" of a crate's README.md are public in its sources, those of a type as `Type::name`.
- Each file that a README.md or a page of docs/ names is there, and each name that follows a file in a
  table of docs/READING.md stands in that file.
- The rules in the tables of docs/POLICY.md have the tokens that the program prints, and its end names those that rules share.
- The numbers of edits, rows and tests in docs/TESTING.md are those of the repository, and so is how many of the program's
  own tests run only when asked for.
- No page and no file of the tools names a place of one machine.
- Each link of a page leads to a file, and to a heading if it names one.
- docs/rooms.svg has each crate of the product once, in a row above those of the crates that it uses.
"""

import glob
import os
import re

import crates

NAME = re.compile(r"`(\w+(?:::\w+)?)`")
FILE = re.compile(r"`([\w./-]+/[\w./-]*\.\w+)`")
FUNCTION = re.compile(r'^\s+(pub )?(?:const )?fn (\w+)', re.MULTILINE)
# a folder of one machine, in which nobody else finds anything
MACHINE = re.compile(r"(?<![\w.$}~-])/(?:work|root|home|var/tmp)/\w+")
# files of the program's own tests that need the built library
WITH_LIBRARY = ("library.py", "library_samples.py")


def text_of(*path):
    with open(os.path.join(crates.ROOT, *path), encoding="utf-8") as file:
        return file.read()


def cells(line):
    """The cells of a row of a table."""
    return [cell.strip() for cell in re.split(r"(?<!\\)\|", line)[1:-1]]


def columns(text, title):
    """The cells of the last column of each table whose last title is this one."""
    inside = False
    for line in text.split("\n"):
        row = cells(line) if line.startswith("|") else []
        if row and row[-1] == title:
            inside = True
        elif row and inside:
            yield row[-1]
        else:
            inside = False


def sources(crate):
    """The texts of a crate's sources, those of folders in src/ too."""
    for folder, _, files in sorted(os.walk(os.path.join(crates.folder(crate), "src"))):
        for file in sorted(files):
            if file.endswith(".rt"):
                yield text_of(os.path.relpath(os.path.join(folder, file), crates.ROOT))


def methods(text):
    """The methods of a source that callers may call, as `Type::name`."""
    for head, body in re.findall(r"^((?:pub trait|impl)\b[^{]*)\{\n(.*?)^\}", text, re.MULTILINE | re.DOTALL):
        plain = re.sub(r"<[^<>]*>", "", re.sub(r"<[^<>]*>", "", re.sub(r"<[^<>]*>", "", head)))
        of_trait = plain.startswith("pub trait") or " for " in plain
        owner = re.search(r"(?:pub trait | for |impl )\s*&?(?:'\w+ )?(\w+)", plain[plain.rfind(" for "):] if " for " in plain else plain)
        if owner:
            for public, name in FUNCTION.findall(body):
                if public or of_trait:
                    yield "%s::%s" % (owner[1], name)


def public_names(crate):
    """What a crate gives to others: its items, and the methods of its types, with and without the type's name."""
    found, known = set(), set()
    for handed_on in re.findall(r"^pub use ([^;]*);", text_of("crates", crate, "src", "lib.rt"), re.MULTILINE):
        known.update(re.findall(r"(?<!\w)\w+(?!\w*::)", handed_on))
    known.update(re.findall(r'^pub (?:const )?(?:extern "C" )?(?:fn|const|struct|enum|trait) (\w+)', text_of("crates", crate, "src", "lib.rt"), re.MULTILINE))
    for text in sources(crate):
        found.update(name for name in methods(text) if name.split("::")[0] in known)
    return known | found


def crate_faults(crate):
    """What is amiss with the README.md of a crate."""
    page = "crates/%s/README.md" % crate
    if not os.path.isfile(os.path.join(crates.ROOT, page)):
        yield "%s is not there" % page
        return
    text = text_of(page)
    if not text.startswith("# %s: " % crate):
        yield "%s does not begin with the crate's name" % page
    named = [name for cell in columns(text, "Contracts") for name in NAME.findall(cell)]
    public = public_names(crate) if named else set()
    for name in named:
        if name not in public:
            yield "%s: %s is no public name of the crate" % (page, name)
    for file in FILE.findall(text):
        homes = (crates.folder(crate), crates.ROOT)
        if not any(os.path.exists(os.path.join(home, file)) for home in homes):
            yield "%s: there is no %s" % (page, file)


def reading_faults():
    """What is amiss with the rows of docs/READING.md: a file, and then names in that file."""
    page = "docs/READING.md"
    for line in text_of(page).split("\n"):
        for cell in cells(line) if line.startswith("|") else []:
            file, _, names = cell.partition(":")
            path = FILE.fullmatch(file.strip())
            for it in FILE.findall(cell):
                if not os.path.exists(os.path.join(crates.ROOT, it)):
                    yield "%s: there is no %s" % (page, it)
            if path and os.path.exists(os.path.join(crates.ROOT, path[1])):
                text = text_of(path[1])
                for name in NAME.findall(names):
                    if not re.search(r"\b%s\b" % re.escape(name), text):
                        yield "%s: %s lacks %s" % (page, path[1], name)


def token_faults():
    """Where docs/POLICY.md has other rules and tokens than the table that the program prints, or tells of other shared tokens."""
    text = text_of("docs", "POLICY.md")
    found = dict(re.findall(r"^\| ([APNC]\d+) \| `([^`]*)` \|", text, re.MULTILINE) + re.findall(r"\*\*(U\d+)\*\* `([^`]*)`", text))
    sources = [text_of("crates", "gate_rules", "src", name + ".rt") for name in ("denial", "peer", "table", "whitelist", "chain")]
    rows = [row for source in sources for row in re.findall(r'name: "([APUNC]\d+)",\s*token: "([^"]*)"', source)]
    for rule, token in sorted(set(found.items()) ^ set(rows)):
        yield "docs/POLICY.md and crates/gate_rules/src disagree on %s %s" % (rule, token)
    shared = {token: {it for it in found if found[it] == token} for token in found.values()}
    told = re.findall(r"`([^`]*)` is ((?:[A-Z]\d+(?:, | or )?)+)", text.partition("\n## Tokens")[2])
    listed = {token: set(re.findall(r"[A-Z]\d+", rules)) for token, rules in told}
    for token in sorted(shared.keys() | listed.keys()):
        if len(shared.get(token, ())) != 1 and shared.get(token) != listed.get(token):
            yield "docs/POLICY.md: the rules of the token %s" % token


def pages_of_all():
    """The pages at the top, and those of docs/."""
    return [page for home in ("", "docs/") for page in sorted(home + it for it in os.listdir(os.path.join(crates.ROOT, home)) if it.endswith(".md"))]


def path_faults():
    """Files of the repository that pages name and that are not there."""
    for page in pages_of_all():
        for file in FILE.findall(text_of(page)):
            if re.match("(crates|docs|tests|tools|rows|bench|examples)/", file) and "NAME" not in file:
                if not os.path.exists(os.path.join(crates.ROOT, file)):
                    yield "%s: there is no %s" % (page, file)


def machine_faults():
    """Places of one machine that a page, a tool or a file beside them names."""
    homes = ("*.md", "Makefile", "NOTICE", "docs/*.md", "crates/*/README.md", "gated/README.md", "tools/*", "share/*", "lib/*", "bench/*", "examples/*", "tests/*.py")
    for file in sorted(it for home in homes for it in glob.glob(os.path.join(crates.ROOT, home)) if os.path.isfile(it)):
        path = os.path.relpath(file, crates.ROOT)
        for place in MACHINE.findall(text_of(path)):
            yield "%s names a place of one machine: %s" % (path, place)


def headings(text):
    """What the headings of a page are called in links: of several that are equal, the later ones have a number."""
    found = []
    for heading in re.findall(r"^#+ (.*)$", text, re.MULTILINE):
        name = re.sub(r"[^\w -]", "", heading.lower()).replace(" ", "-")
        found.append("%s-%d" % (name, found.count(name)) if name in found else name)
    return found


def links_of_all():
    """Each link of a page that leads to a file of the repository: the page, the file, and the heading or an empty text."""
    for page in pages_of_all() + ["gated/README.md"] + ["crates/%s/README.md" % it for it in crates.uses()]:
        if os.path.isfile(os.path.join(crates.ROOT, page)):
            for target, heading in re.findall(r"\]\(([^)#:]*)(?:#([^)]*))?\)", text_of(page)):
                yield page, target, heading


def links():
    """How many such links there are."""
    return len(list(links_of_all()))


def link_faults():
    """Links that lead nowhere."""
    for page, target, heading in links_of_all():
        path = os.path.normpath(os.path.join(os.path.dirname(page), target)) if target else page
        if not os.path.exists(os.path.join(crates.ROOT, path)):
            yield "%s: there is no %s" % (page, target)
        elif heading and heading not in headings(text_of(path)):
            yield "%s: %s has no heading %s" % (page, path, heading)


def picture_faults():
    """Where docs/rooms.svg is not crates.txt."""
    page = "docs/rooms.svg"
    drawn = [("gate" if name == "gate" else "gate_" + name, int(row)) for row, name in re.findall(r'<text class="room" x="\d+" y="(\d+)">(\w+)</text>', text_of(page))]
    rows = dict(drawn)
    if sorted(crate for crate, _ in drawn) != sorted(filter(crates.is_product, crates.uses())):
        yield "%s has other crates than crates.txt" % page
    for crate, used in crates.uses().items():
        for lower in used:
            if crate in rows and lower in rows and rows[lower] <= rows[crate]:
                yield "%s: %s stands on %s, which is not drawn below it" % (page, crate, lower)


def counted(pattern):
    """How many files a pattern of paths has, and in how many folders."""
    files = glob.glob(os.path.join(crates.ROOT, pattern))
    return len(files), len({os.path.dirname(it) for it in files})


def tests_of_the_program():
    """How many of the program's own tests run by `make prove`, and how many only when asked for (LONG=1, LIB=1)."""
    always = asked_for = 0
    for file in glob.glob(os.path.join(crates.ROOT, "tests", "*.py")):
        name = os.path.basename(file)
        marks = re.findall(r"^((?:@\w+\n)*)def test_", text_of("tests", name), re.MULTILINE)
        rare = len(marks) if name in WITH_LIBRARY else sum("@long" in it for it in marks)
        always, asked_for = always + len(marks) - rare, asked_for + rare
    return "%d, and %d more when asked for" % (always, asked_for)


def count_faults():
    """Numbers of docs/TESTING.md that are not those of the repository."""
    tests = sum(text.count("#[test]") for crate in crates.uses() for text in sources(crate))
    wanted = {
        "Must-fail edits": "%d, in %d crates" % counted("crates/*/must-fail/*.edit"),
        "Mutants": "%d, in %d crates" % counted("mutants/*/*.edit"),
        "Rows": str(counted("rows/*/about")[0]),
        "Tests in crates": str(tests),
        "The program's own tests": tests_of_the_program(),
    }
    for line in text_of("docs", "TESTING.md").split("\n"):
        row = cells(line) if line.startswith("|") else []
        if row and row[0] in wanted and row[1] != wanted[row[0]]:
            yield "docs/TESTING.md: %s are %s, and not %s" % (row[0], wanted[row[0]], row[1])


def faults():
    """All that is amiss."""
    for crate in crates.uses():
        yield from crate_faults(crate)
    yield from reading_faults()
    yield from token_faults()
    yield from count_faults()
    yield from path_faults()
    yield from link_faults()
    yield from picture_faults()
    yield from machine_faults()
