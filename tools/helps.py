"""The help of the program, and what stands in it: for tools/manual and tools/completions."""

from __future__ import annotations

import os
import re
import subprocess
import sys
from typing import Iterable, Iterator

import crates

PROGRAM = os.path.join(crates.folder("gate"), "out", "gate")


def found(program: str = PROGRAM) -> str:
    """The program that is asked, the newer one if there are two."""
    there = [it for it in (program, crates.unproved(program)) if os.access(it, os.X_OK)]
    if not there:
        sys.exit("there is no program yet: make demo compiles one, and make gate proves and builds it")
    return max(there, key=os.path.getmtime)


def help_of(program: str, *command: str) -> str:
    """The help of the program, or of a command."""
    return subprocess.run([program, *command, "--help"], stdin=subprocess.DEVNULL, capture_output=True, text=True, check=True).stdout


def sections(text: str) -> dict[str, list[str]]:
    """The parts of a help text: what stands before the first title, then title by title what stands below it."""
    parts: dict[str, list[str]] = {"": []}
    title = ""
    for line in text.rstrip("\n").split("\n"):
        if re.fullmatch(r"[A-Z][\w ]+:", line):
            title = line[:-1]
            parts[title] = []
        else:
            parts[title].append(line)
    return parts


def rows(lines: Iterable[str]) -> Iterator[tuple[str, str]]:
    """The rows of a list of commands, arguments, options or statuses: a word, and what it does, which goes on in lines that begin
    further to the right, or begins there."""
    found: list[list[str]] = []
    for line in lines:
        row = re.fullmatch(r"(?: {2}| {6})(\S.*?)(?:\s{2,}(\S.*))?", line)
        if row:
            found.append([row[1], row[2] or ""])
        elif line.strip():
            found[-1][1] += " " + line.strip()
    for word, about in found:
        yield word, about.strip()


def about_and_usage(parts: dict[str, list[str]]) -> tuple[str, str]:
    """The sentence of a command, and how it is called."""
    head = "\n".join(parts[""])
    about, _, usage = head.partition("\n\nUsage: ")
    return " ".join(about.split()), usage.strip()
