"""`make install` and `make uninstall`, the manual page, and the completions of shells."""

import os
import re
import shutil
import subprocess
import tempfile

from gate import ROOT, NotTried, same, same_lines, true

SHARE = os.path.join(ROOT, "share")
COMPLETIONS = ("gate.bash", "_gate", "gate.fish")
SECONDS = 120


def files_below(folder):
    return sorted(os.path.relpath(os.path.join(at, name), folder) for at, _, names in os.walk(folder) for name in names)


def text_of(*path):
    with open(os.path.join(ROOT, *path), encoding="utf-8") as file:
        return file.read()


def done_by(*words, **more):
    """What a command prints. It has to end well, and to say nothing else."""
    done = subprocess.run(words, stdin=subprocess.DEVNULL, capture_output=True, text=True, timeout=SECONDS, check=False, **more)
    same("standard error and status of %s" % words[0], (done.stderr, done.returncode), ("", 0))
    return done.stdout


def made(gate, folder, *words):
    done_by("make", "--silent", "PROGRAM=" + gate.program, "LIBRARY=" + os.path.join(folder, "none"), "DESTDIR=" + folder, "PREFIX=/opt", *words, cwd=ROOT)


def installed():
    """What `make install` puts below PREFIX, without the library."""
    pages = [it for it in ("README.md", "LICENSE", "NOTICE", "CHANGELOG.md", "SECURITY.md") if os.path.exists(os.path.join(ROOT, it))]
    return sorted(
        ["bin/gate", "bin/gate-opening", "bin/gate-compare", "bin/gated"]
        + ["share/man/man1/gate.1", "share/man/man1/gated.1", "share/bash-completion/completions/gate", "share/zsh/site-functions/_gate", "share/fish/vendor_completions.d/gate.fish"]
        + ["share/doc/gate/" + it for it in pages]
        + ["share/doc/gate/docs/" + it for it in os.listdir(os.path.join(ROOT, "docs"))]
        + ["share/doc/gate/gated/README.md"]
        + ["share/gate/examples/" + it for it in os.listdir(os.path.join(ROOT, "examples"))]
        + ["share/gate/tools/" + it for it in ("opening", "compare")]
        + ["share/gate/gated/" + it for it in ("gated.service", "gated.toml", "gated/py.typed")]
        + ["share/gate/gated/gated/" + it for it in os.listdir(os.path.join(ROOT, "gated", "gated")) if it.endswith(".py")]
        + ["share/gate/gated/gated/node/" + it for it in os.listdir(os.path.join(ROOT, "gated", "gated", "node")) if it.endswith(".py")]
    )


def test_installing(gate):
    """`make install` puts the program and what goes with it below PREFIX, where it works, and `make uninstall` takes these away
    and nothing else."""
    with tempfile.TemporaryDirectory() as folder:
        made(gate, folder, "install")
        same_lines(files_below(folder), ["opt/" + it for it in installed()])
        programs = os.path.join(folder, "opt", "bin")
        same("the installed program", done_by(os.path.join(programs, "gate"), "--version"), "gate 0.1.0\n")
        recorded = os.path.join(ROOT, "tests", "data", "litecoin-0.21")
        opening = done_by(os.path.join(programs, "gate-opening"), "--from", recorded + ".jsonl")
        same("the opening", opening, done_by(os.path.join(ROOT, "tools", "opening"), "--from", recorded + ".jsonl"))
        compared = done_by(os.path.join(programs, "gate-compare"), "--from", recorded + ".jsonl", "--try", recorded + ".hex", os.path.join(programs, "gate"))
        gated = subprocess.run([os.path.join(programs, "gated"), "--version"], cwd=folder, capture_output=True, text=True, timeout=SECONDS, check=False)
        if "No module named" not in gated.stderr:
            same("gated", (gated.stdout, gated.stderr, gated.returncode), ("gated 0.1.0\n", "", 0))
        for name, line in (("gated.service", "ExecStart=/opt/bin/gated --settings /etc/gated.toml"), ("gated.toml", 'gate = "/opt/bin/gate"')):
            text = text_of(folder, "opt", "share", "gate", "gated", name)
            true("%s has %s" % (name, line), line in text.splitlines())
            true("%s names no other prefix" % name, "/usr/local" not in text)
        same("the comparison", compared, "71 compared: 71 alike, 0 known differences, 0 others\n")
        other = os.path.join(programs, "other")
        open(other, "w").close()
        made(gate, folder, "uninstall")
        same_lines(files_below(folder), ["opt/bin/other"])


def test_the_manual_page(gate):
    """share/gate.1 is what tools/manual makes of the program's help."""
    found = done_by(os.path.join(ROOT, "tools", "manual"), gate.program)
    same_lines(text_of("share", "gate.1").splitlines(), found.splitlines())


def sentences(text):
    """The words of a text, without marks of roff or of a help text."""
    for mark in ("\\fB", "\\fR", "`"):
        text = text.replace(mark, "")
    return re.sub(r"\s+", " ", text.replace("\\-", "-").replace("\\e", "\\"))


def test_the_manual_page_has_the_help(gate):
    """Each sentence, option and example of every help text stands on the page."""
    page = sentences(text_of("share", "gate.1"))
    for command in ("", "try", "check", "run", "lanes", "audit", "rules", "settings", "explain"):
        for line in gate.run((command + " --help").strip()).stdout.decode().splitlines():
            for part in re.split(r"\s{2,}", line.strip()):
                is_title = re.fullmatch(r"[A-Z][\w ]+:", part)
                if part and not is_title:
                    wanted = sentences(part.removeprefix("Usage: "))
                    true("the page lacks %r of gate %s --help" % (part, command), wanted in page or wanted[0].lower() + wanted[1:] in page)


def test_the_manual_page_is_read(gate):
    """groff takes the page without a warning."""
    if not shutil.which("groff"):
        raise NotTried("there is no groff")
    true("nothing is printed", done_by("groff", "-man", "-Tutf8", "-ww", os.path.join(SHARE, "gate.1")))


def words_of_the_help(gate):
    """The commands, and the long options of all of them."""
    whole = gate.run("--help").stdout.decode()
    commands = re.findall(r"^  (\w+)  ", whole[: whole.index("Options:")], re.MULTILINE)
    options = {it for command in [""] + commands for it in re.findall(r"(--\w+)", gate.run((command + " --help").strip()).stdout.decode().split("Examples:")[0])}
    return commands, options


def test_completions_are_made(gate):
    """The completions of each shell are what tools/completions makes of the program's help."""
    for name in COMPLETIONS:
        found = done_by(os.path.join(ROOT, "tools", "completions"), "--print", name, gate.program)
        same_lines(text_of("share", name).splitlines(), found.splitlines())


def test_completions(gate):
    """The completions of each shell have the commands and the options of the help, and no other option."""
    commands, options = words_of_the_help(gate)
    true("few words: %s %s" % (commands, options), len(commands) == 9 and len(options) > 4)
    for name in COMPLETIONS:
        text = text_of("share", name)
        for word in commands:
            true("%s lacks %s" % (name, word), re.search(r"\b%s\b" % word, text))
        found = {"--" + it for it in re.findall(r"-l (\w+)", text)} if name.endswith("fish") else set(re.findall(r"(--\w+)", text))
        same("options in " + name, sorted(found), sorted(options))


def completed(shell, words):
    """What a shell puts in the place of the last of these words."""
    if shell == "bash":
        script = 'source "$1"; shift; COMP_WORDS=("$@"); COMP_CWORD=$(($# - 1)); _gate; printf "%s\\n" "${COMPREPLY[@]}"'
        found = done_by("bash", "-c", script, "bash", os.path.join(SHARE, "gate.bash"), *words)
    else:
        script = 'source $argv[1]; complete -C "$argv[2]"'
        found = done_by("fish", "--no-config", "-c", script, os.path.join(SHARE, "gate.fish"), " ".join(words))
    return sorted({line.split("\t")[0] for line in found.splitlines() if line})


def test_completing_in_a_shell(gate):
    """What bash and fish complete; zsh reads its file."""
    commands, missing = words_of_the_help(gate)[0], []
    for shell in ("bash", "fish"):
        if not shutil.which(shell):
            missing.append(shell)
            continue
        for words, wanted in (
            (["gate", "l"], ["lanes"]),
            (["gate", "lanes", "--"], ["--explain", "--help", "--journal", "--workers"]),
            (["gate", "run", "--"], ["--explain", "--explain-json", "--help", "--strict"]),
            (["gate", "run", "--s"], ["--strict"]),
            (["gate", "try", "--t"], ["--time", "--tip"]),
            (["gate", "try", "--verdict", "s"], ["soft"]),
            (["gate", "lanes", "--workers", "6"], ["64"]),
            (["gate", "help", "e"], ["explain"]),
        ):
            same("%s: %s" % (shell, " ".join(words)), completed(shell, words), wanted)
        true("%s lacks a command" % shell, set(commands) <= set(completed(shell, ["gate", ""])))
    if shutil.which("zsh"):
        done_by("zsh", "-n", os.path.join(SHARE, "_gate"))
    else:
        missing.append("zsh")
    if missing:
        raise NotTried("there is no %s" % ", ".join(missing))
