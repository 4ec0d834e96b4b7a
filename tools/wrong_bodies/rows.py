#!/usr/bin/env python3
"""Runs wrong bodies, unproved: each edit that names worked rows must change the answer to each of them.

    tools/wrong_bodies/rows.py                            at the top of the repository: all edits with a line `row: ..`
    tools/wrong_bodies/rows.py --find FILE.edits#EDIT..  prints for each edit the shortest row that tells it apart

The last line is 'N told apart, M not'; the status is 0 exactly where M is 0. README.md beside this file says more.
"""
import argparse
import glob
import os
import re
import shutil
import subprocess
import sys
import tempfile
from typing import NamedTuple

sys.dont_write_bytecode = True
from edits import edits_in
from functions import functions, types_of
from prover import read_crates


class Program(NamedTuple):
    """A program that answers rows."""

    name: str
    rows: tuple  # what prints its rows, in its folder
    sign: str  # what stands between a question and its answer
    skipped: tuple  # how lines begin that no edit names: headings, rows that take long

    def known(self):
        printed = subprocess.check_output(self.rows, cwd=f"crates/{self.name}", text=True)
        return [line for line in printed.split("\n") if self.sign in line and not line.startswith(self.skipped)]


VECTORS = Program("pkcs1_vectors", ("cat", "stdin"), " = ", ("#", "changed-", "joined-"))
TOOL = Program("pkcs1_tool", ("./all_rows.sh",), " => ", ())
# The crates that only the tool uses.
OF_TOOL = ("pkcs1_program",)
# The lowest crate, which each of the others uses: which edit is meant is said there, by the first line of the input.
LOWEST = "der_core"
CHOICE = """//! Which edit is tried.
unsafe extern "C" {
    safe fn chosen_edit() -> u32;
}

/// Whether this edit is tried.
pub fn is_edit(number: u32) -> bool {
    chosen_edit() == number
}
"""
CHOICE_IN_C = """#include <unistd.h>

static unsigned chosen;

__attribute__((constructor)) static void choose(void) {
    char digit;
    while (read(0, &digit, 1) == 1 && digit != '\\n')
        chosen = 10 * chosen + (unsigned)(digit - '0');
}

unsigned chosen_edit(void) {
    return chosen;
}
"""


def crate_of(edit):
    return edit.name.split("/")[1]


def put(path, text):
    os.makedirs(os.path.dirname(path), exist_ok=True)
    with open(path, "w", encoding="utf-8") as it:
        it.write(text)


def texts_of(crate):
    """The files of a crate's src/."""
    texts = {}
    for path in glob.glob(f"crates/{crate}/src/**/*.rt", recursive=True):
        with open(path, encoding="utf-8") as it:
            texts[path.removeprefix(f"crates/{crate}/")] = it.read()
    return texts


def bodies(texts, types):
    """The lines inside the body of each function, by its file and its place there."""
    found = {}
    for path, text in texts.items():
        lines = text.split("\n")
        for place, it in enumerate(functions(path, text, types)):
            found[path, place] = lines[it.body : it.last - 1]
    return found


def put_side_by_side(crate, edits, room):
    """Writes the crate's files into the copy: a function has its own body and that of each edit, by its number."""
    texts = texts_of(crate)
    types = types_of(texts)
    own, edited = bodies(texts, types), {}
    for number, edit in edits.items():
        for place, body in bodies(texts | edit.applied(texts), types).items():
            if body != own[place]:
                edited.setdefault(place, []).append((number, body))
    home = "crate" if crate == LOWEST else LOWEST
    for path, text in texts.items():
        lines = text.split("\n")
        for place, it in reversed(list(enumerate(functions(path, text, types)))):
            if (path, place) in edited:
                chosen = []
                for number, body in edited[path, place]:
                    chosen += [f"if {home}::edits::is_edit({number}) {{", *body, "} else"]
                lines[it.body : it.last - 1] = [*chosen, "{", *own[path, place], "}"]
        if (crate, path) == (LOWEST, "src/lib.rt"):
            lines.insert(next(at for at, it in enumerate(lines) if it.startswith("mod ")), "pub mod edits;")
        put(f"{room}/crates/{crate}/{path}", "\n".join(lines))


def answers(program, inputs, room):
    """What the program prints for the rows of each edit, by its number; nothing where it stops."""
    folder = f"{room}/crates/{program.name}"
    for number, rows in inputs.items():
        questions = [it.split(program.sign)[0] for it in rows] if program is TOOL else rows
        put(f"{folder}/cases/{number}", "\n".join([str(number), *questions, ""]))
    words = ["rt", "try", "--steps", "1", "--cases", "cases"]
    allowed = os.environ | {"RT_ALLOW_C": LOWEST}
    ran = subprocess.run(words, cwd=folder, env=allowed, stdout=subprocess.PIPE, stderr=subprocess.STDOUT)
    said, found, lines = ran.stdout.decode(errors="replace"), {}, []
    for line in said.split("\n"):
        ended = re.match(r"case=(\d+) run=(ended status=0)?", line)
        if line.startswith("== "):
            lines = []
        elif ended:
            found[int(ended[1])], lines = lines if ended[2] else [], []
        else:
            lines.append(line)
    if found.keys() != inputs.keys():
        sys.exit(f"{said}\nrows.py: {program.name} can't be tried")
    return found


def answered_otherwise(program, rows, lines):
    """The rows to which the program gave another answer, or none."""
    if program is TOOL:
        told = [*lines, *[None] * len(rows)]
        differ = [row for row, it in zip(rows, told) if it != row.split(program.sign)[1]]
        return differ or rows[-1:] * (len(lines) != len(rows))
    return [row for row in rows if row in lines or not lines]


def tried(edits, find):
    """Of each edit, by its name: its rows, and those that tell it apart."""
    found = {}
    with tempfile.TemporaryDirectory(prefix="rows-") as room:
        ignored = shutil.ignore_patterns(".git", "out", "proofs", "ffi", "target")
        shutil.copytree(".", room, dirs_exist_ok=True, ignore=ignored)
        for crate in {LOWEST, *map(crate_of, edits.values())}:
            put_side_by_side(crate, {number: it for number, it in edits.items() if crate_of(it) == crate}, room)
        put(f"{room}/crates/{LOWEST}/src/edits.rt", CHOICE)
        put(f"{room}/crates/{LOWEST}/c/edits.c", CHOICE_IN_C)
        for program in VECTORS, TOOL:
            known = program.known()
            own = {number: it for number, it in edits.items() if (crate_of(it) in OF_TOOL) == (program is TOOL)}
            inputs = {number: known if find else it.texts("row") for number, it in own.items()}
            for number, lines in (answers(program, inputs, room) if inputs else {}).items():
                differ = answered_otherwise(program, inputs[number], lines)
                found[edits[number].name] = inputs[number], [row for row in differ if row in known]
    return found


def main():
    given = argparse.ArgumentParser(description=__doc__, formatter_class=argparse.RawDescriptionHelpFormatter)
    given.add_argument("--find", nargs="+", metavar="FILE.edits#EDIT", help="edits, for which a row is looked for")
    given = given.parse_args()
    edits = [it for name in read_crates() for it in edits_in(f"crates/{name}/wrong")]
    wanted = [it for it in edits if (it.name in given.find if given.find else it.texts("row"))]
    found = tried(dict(enumerate(wanted, 1)), bool(given.find))
    if given.find:
        for name, (_, differ) in found.items():
            print(f"{name}: {'row: ' + min(differ, key=len) if differ else 'no row tells it apart'}")
        return 0
    wrong = {name: [row for row in rows if row not in differ] for name, (rows, differ) in found.items()}
    failed = [f"{name}: NOT TOLD APART by {rows[0]}" for name, rows in wrong.items() if rows]
    print("\n".join([*failed, f"{len(wrong) - len(failed)} told apart, {len(failed)} not"]))
    return 1 if failed else 0


if __name__ == "__main__":
    sys.exit(main())
