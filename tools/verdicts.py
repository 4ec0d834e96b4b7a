#!/usr/bin/env python3
"""Verdicts that stand in the repository, in tools/verdicts.txt. Each is a function of files: that of a step of the
gate, or that of the wrong bodies of a crate. Its line names what judged it, and the hash of what that read. Where it
fits, a machine that keeps nothing tries a sample. A line that doesn't fit counts for nothing.

    tools/verdicts.py drawn LEAST     the lines of standard input that are drawn: a twentieth, but LEAST at least

The variable SAMPLE says by what is drawn: the day and the commit. Where it isn't set, all are drawn.
"""
import datetime
import functools
import os
import pathlib
import random
import re
import subprocess
import sys
from typing import NamedTuple

PLACE = pathlib.Path(__file__).resolve().parent / "verdicts.txt"
HEAD = """\
# What passed in full, at which the gate looks by a sample where it reads the same: README of tools/wrong_bodies and
# docs/CLAIM.md say how. `.ci/run --write` writes these lines of what passed on this machine.
# NAME | what came of it | what judged it | the hash of what that read
"""
# Of so many one is drawn.
SHARE = 20


class Line(NamedTuple):
    """What came of a step or of a crate's wrong bodies, what judged it, and the hash of what that read."""

    said: str
    judge: str
    read: str


def lines():
    """Each line by its name."""
    text = PLACE.read_text(encoding="utf-8") if PLACE.is_file() else ""
    rows = [it.split(" | ") for it in text.splitlines() if not it.startswith("#")]
    return {row[0]: Line(*row[1:]) for row in rows if len(row) == 4}


def standing(name, judge, read):
    """What the line of that name says, or None where it doesn't fit, or where all is to be tried anew."""
    line = lines().get(name)
    fits = line and (line.judge, line.read) == (judge, read) and os.environ.get("KEPT") != "anew"
    return line.said if fits else None


def write(name, line):
    """Writes the line in the place of that of this name."""
    rows = sorted({**lines(), name: line}.items())
    made = HEAD + "".join(f"{' | '.join([name, *row])}\n" for name, row in rows)
    fresh = PLACE.with_suffix(".new")
    fresh.write_text(made, encoding="utf-8")
    os.replace(fresh, PLACE)


def first_line(*command):
    """The first line that a command prints, or nothing where it can't be run."""
    try:
        said = subprocess.run(command, capture_output=True, text=True, check=True).stdout.splitlines()
        return said[0] if said else ""
    except (OSError, subprocess.CalledProcessError):
        return ""


@functools.lru_cache(maxsize=None)
def judge_of(kind):
    """What judges such a verdict, of which each build says the same: the logic of the toolchain, the packages of a
    Debian, or Frama-C and its provers."""
    if kind == "logic":
        return re.search(r"logic \S+|$", first_line("rt", "version"))[0]
    if kind == "debian":
        return "Debian " + first_line("sh", "-c", ". /etc/os-release && echo $VERSION_ID")
    if kind == "frama-c":
        tools = ("frama-c", "-version"), ("cvc4", "--version"), ("z3", "--version")
        return ", ".join(f"{it[0]} {re.search(r'[0-9]+[.][0-9.]+|$', first_line(*it))[0]}" for it in tools)
    sys.exit(f"verdicts: nothing judges by {kind}")


@functools.lru_cache(maxsize=None)
def sample():
    """By what is drawn: the day and the commit."""
    commit = first_line("git", "-C", str(PLACE.parent), "rev-parse", "HEAD")
    return os.environ.get("SAMPLE") or f"{datetime.datetime.now(datetime.timezone.utc):%F} {commit or 'no commit'}"


def drawn(names, least, by):
    """Of these names a twentieth, but so many at least."""
    number = min(len(names), max(least, -(-len(names) // SHARE)))
    return sorted(random.Random(by).sample(sorted(names), number))


def main(words):
    if len(words) != 2 or words[0] != "drawn" or not words[1].isdigit():
        sys.exit(__doc__)
    rows = sys.stdin.read().splitlines()
    chosen = set(drawn(set(rows), int(words[1]), sample())) if "SAMPLE" in os.environ else set(rows)
    print("".join(f"{it}\n" for it in rows if it in chosen), end="")


if __name__ == "__main__":
    main(sys.argv[1:])
