"""The prover: how it is called for a crate, and what its messages say of an edit."""
import os
import re
import subprocess
from typing import NamedTuple

KIT = os.path.dirname(subprocess.run(["rt", "doc"], capture_output=True, text=True, check=True).stdout.strip())
# An answer that names what the edit took away: the goal itself was never tried.
NAMES_WHAT_IS_GONE = re.compile(
    r"has no |is not in scope|was not admitted|is no name|not checked:"
    r"|operand is missing|expected the end|cannot continue")
# Of these, what tells that the function's own edit took it away, and not that of what it calls.
TAKEN_AWAY = re.compile(r"has no |is not in scope|is no name")
# How a goal is told whose answer no longer proves it, which weighs less than a goal without an answer.
BROKEN = ", whose answer no longer proves it"
UNREADABLE = re.compile(r"(?:\./)?(src/\S+?):(\d+):\d+: error")
# A law that an impl no longer meets, which an edit of a definition may break.
LAW = re.compile(r"(?:\./)?src/\S+?:\d+:\d+: error: `[^`]+`: (.*)")
NOTE = re.compile(r"note: (src/\S+?):(\d+):\d+: .*\(`([^`]+)`\)")
# How its line of a function goes on that is proved, or would be if what it calls were.
PROVED = ("no holes", "depends on a hole")
# How its last line begins that tells what came of the functions that it was asked for.
TOLD = re.compile(r"only=\d+ ")


def read_crates():
    """Each crate's libraries and whether it is a static library, by its name, as crates.txt has it."""
    found = {}
    with open("crates.txt", encoding="utf-8") as it:
        for line in it:
            head, colon, libraries = line.partition("#")[0].partition(":")
            if colon:
                found[head.split()[0]] = libraries.split(), "staticlib" in head.split()[1:]
    return found


def below(name, crates):
    """The crates of this repository that one stands on."""
    direct = {it for it in crates[name][0] if it in crates}
    return direct.union(*(below(it, crates) for it in direct))


def check_words(name, crates):
    """The words after `rattle check` for a crate over the libraries that rt left in out/."""
    libraries, is_static = crates[name]
    main = os.path.isfile(f"crates/{name}/src/main.rt")
    words = ["--crate-name", name, "src/main.rt" if main else "src/lib.rt", "-L", f"dependency={KIT}/rlibs"]
    for it in ["std", *libraries]:
        at = os.path.abspath(f"crates/{it}/out/rlib") if it in crates else f"{KIT}/rlibs"
        words += ["--extern", f"{it}={at}/{it}.rlib"]
    for it in sorted(below(name, crates)):
        words += ["-L", f"dependency={os.path.abspath(f'crates/{it}/out/rlib')}"]
    words += ["--antt-project", f"{KIT}/rattle/logic/antt-project.json", "--logic-built", f"{KIT}/logic_built"]
    return words + ["--links", f"{name}="] + ["--crate-type", "staticlib"] * is_static


def messages(said):
    """What the prover said, each message on a line: it breaks a long one, and begins the later lines by two spaces."""
    return re.sub(r"\n  +", " ", said.rstrip("\n")).split("\n")


def unreadable(said):
    """The file, the line and the text of each error in what the edits made of the sources."""
    return [(it[1], int(it[2]), it.string) for it in map(UNREADABLE.match, said) if it]


def is_read(said):
    """Whether the prover read all sources. A law that doesn't hold is no fault of reading."""
    laws = [it for it in map(LAW.match, said) if it and not names_what_is_gone(it[1])]
    return len(laws) == len(unreadable(said))


def names_what_is_gone(told, words=NAMES_WHAT_IS_GONE):
    return words.search(re.sub(r"`[^`]*`", "", told))


class Told(NamedTuple):
    """What was said of the proof of a function."""

    broken: list  # its answers that no longer prove their goals
    opened: list  # its goals that are open
    lost: list  # what was said of answers that name what is gone


def told_of(said, crate, name, is_own):
    """What was said of the proof of a function, with the goals that are open at lines that are its own. Nothing, if it
    isn't refused."""
    told = Told([], [], [])
    if not any(it.startswith((f"fn {crate}::{name}: not proved", f"fn {crate}::{name}: no proof")) for it in said):
        return told
    home = re.escape(name.replace("::", "/"))
    answer = re.compile(rf"(?:\./)?proofs/{home}/[\w.+-]+\.antt:\d+:\d+: error: (?:`([^`]+)`: )?(.*)")
    for line in said:
        if (at := NOTE.match(line)) and is_own(at[1], int(at[2])):
            told.opened.append(at[3])
        elif at := answer.match(line):
            if names_what_is_gone(at[2]):
                told.lost.append(line)
            elif at[1]:
                told.broken.append(at[1])
    return told


def own_goal(told, name):
    """The goal by which a function counts as refused, or None: an answer of its own that no longer holds, or a goal
    that is open at a line of its own; this only where no answer was lost because the edit took its goal away."""
    if told.broken:
        return f"{name}: `{told.broken[0]}`{BROKEN}"
    return f"{name}: `{told.opened[0]}`" if told.opened and not told.lost else None


def goals_without_answers(said, crate, name, is_own):
    """The goals of a function that was tried without an edit and without its answers, that were open then. None where
    it isn't clear that these are all."""
    line = next((it for it in said if it.startswith(f"fn {crate}::{name}: ")), "")
    told = told_of(said, crate, name, is_own)
    if not TOLD.match(said[-1]) or unreadable(said) or told.lost:
        return None
    if line.startswith(tuple(f"fn {crate}::{name}: {it}" for it in PROVED)):
        return []
    return sorted({*told.opened, *told.broken, *re.findall(r"`([\w-]+)`", line.partition("did not prove")[2])}) or None


def why_not(said, crate, names):
    """Why an edit of these functions that was tried alone doesn't count as refused."""
    if not TOLD.match(said[-1]):
        return f"BAD EDIT: {next((it for it in said if ': error' in it), said[-1])[:150]}"
    holds = tuple(f"fn {crate}::{it}: {how}" for it in names for how in PROVED)
    if sum(it.startswith(holds) for it in said) == len(names):
        return "NOT REFUSED: what it changes is still proved"
    told = next((it for it in said if it.startswith(tuple(f"fn {crate}::{name}: " for name in names))
                 and not it.startswith(holds)), said[-1])
    return f"NOT REFUSED at a goal of its own: {told[:150]}"
