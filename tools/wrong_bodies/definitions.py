#!/usr/bin/env python3
"""Tries wrong definitions, all of a crate's rows in one check: a worked row must refuse each.

    tools/wrong_bodies/definitions.py [ROWS..]    at the top of the repository, behind `rt ci` or `rt check`

The edits of `crates/CRATE/specs/FILE.antt` stand in `crates/ROWS/wrong_definitions/CRATE/FILE.edits`, and the rows in
`crates/ROWS/proofs/FILE*Rows.antt`. README.md beside this file says what counts as refused. The last line is
'N refused, M failed'; the status is 0 exactly where M is 0.
"""
import os
import pathlib
import re
import shutil
import subprocess
import sys
import tempfile
from typing import NamedTuple

sys.dont_write_bytecode = True
from edits import BadEdit, edits_of
from prover import KIT, check_words, messages, names_what_is_gone, read_crates

FOLDER = "wrong_definitions"
# Of crates with functions one of them: the check is asked for it alone, and its proof, a hole, cites the rows. So each
# file of rows gets a number that can be cited.
FUNCTIONS = {"pkcs1_c": "status::kind_number"}
CITED = "\npub is_read : ℕ\nis_read = 0\n"
HOLE = """use Rattle.std.proofs.Common.{{ℕ, ◌+◌}}
{imports}
use Rattle.{crate}.proofs.{path}.Statement.{{statement}}

all_read : ℕ
all_read = {sum}

pub {name}_spec : {{M : Type 1}} → statement M
{name}_spec = ?
"""
TOLD = re.compile(r"(?:\./)?(specs|proofs)/\w+_(\d+)\.antt:\d+:\d+: error: (?:`([^`]+)`: )?(.*)")
IS_DONE = re.compile(r"(holes|only)=\d+")


class Copy(NamedTuple):
    """A copy of a file of definitions with an edit, and of the rows, which cite it. The first of a file has no edit."""

    name: str  # of the edit
    module: str  # of the copy
    texts: dict  # by path, without the ending

    def modules(self, part):
        return [it.partition("/")[2] for it in self.texts if it.startswith(part)]


def copies_of(rows_crate, path, begin):
    """The copies of the file that these edits are of, numbered from `begin` on."""
    crate, file = path.parent.name, path.stem
    text = read(f"crates/{crate}/specs/{file}.antt")
    longer = tuple(it.stem for it in pathlib.Path(f"crates/{crate}/specs").glob(f"{file}?*.antt"))
    beside = sorted(pathlib.Path(f"crates/{rows_crate}/proofs").glob(f"{file}*Rows.antt"))
    rows = {it.stem: read(it) for it in beside if not it.stem.startswith(longer)}
    own, cited = f"crates/{crate}/proofs/Rows.antt", re.compile(rf"\bRattle\.{crate}\.specs\.{file}\b")
    if os.path.isfile(own):
        rows[f"{file}OwnRows"] = read(own)
    rows = {name: it for name, it in rows.items() if cited.search(it)}
    made, end = [], CITED if rows_crate in FUNCTIONS else ""
    for edit in [None, *edits_of(str(path), file)]:
        number = begin + len(made)
        module = f"{file}_{number}"
        texts = {f"specs/{module}": edit.applied({file: text})[file] if edit else text}
        for name, it in rows.items():
            texts[f"proofs/{name}_{number}"] = cited.sub(f"Rattle.{rows_crate}.specs.{module}", it) + end
        made.append(Copy(edit.name if edit else f"{path}, without an edit", module, texts))
    return made


def read(path):
    return pathlib.Path(path).read_text(encoding="utf-8")


def put(path, text):
    os.makedirs(os.path.dirname(path), exist_ok=True)
    pathlib.Path(path).write_text(text, encoding="utf-8")


def put_room(room, crate, copies):
    """Puts a copy of the crate there that has no proofs but the rows, on each copy of the definitions."""
    for part in ("src", "specs"):
        if os.path.isdir(f"crates/{crate}/{part}"):
            shutil.copytree(f"crates/{crate}/{part}", f"{room}/{part}")
    for part in ("specs", "proofs"):
        lib = f"{room}/{part}/Lib.antt"
        names = "".join(f"pub mod {name}\n" for it in copies for name in it.modules(part))
        put(lib, (read(lib) if os.path.isfile(lib) else "") + names)
    for it in copies:
        for path, text in it.texts.items():
            put(f"{room}/{path}.antt", text)


def put_hole(room, crate, function, copies):
    """Puts a proof of this function that cites the rows, and gives the words that ask for it alone."""
    names = [name for it in copies for name in it.modules("proofs")]
    imports = "\n".join(f"use Rattle.{crate}.proofs.{it}.{{is_read as read_{it}}}" for it in names)
    *modules, name = function.split("::")
    path, cited = ".".join([*modules, name]), " + ".join(f"read_{it}" for it in names)
    hole = HOLE.format(imports=imports, crate=crate, path=path, sum=cited, name=name)
    put("/".join([f"{room}/proofs", *modules, name, "Proof.antt"]), hole)
    return ["--only", function]


def said_of(crate, crates, copies):
    """What the prover says of the rows on these copies."""
    with tempfile.TemporaryDirectory(prefix="wrong-definitions-") as room:
        put_room(room, crate, copies)
        words = [f"{KIT}/bin/rattle", "check", *check_words(crate, crates), "--allow-holes"]
        if crate in FUNCTIONS:
            words += put_hole(room, crate, FUNCTIONS[crate], copies)
        how = {"stdin": subprocess.DEVNULL, "stdout": subprocess.PIPE, "stderr": subprocess.STDOUT, "errors": "replace"}
        return messages(subprocess.run(words, cwd=room, encoding="utf-8", check=False, **how).stdout)


def verdict(copy, said):
    """The row that refused a copy, or None and why there is none."""
    told = [it for it in map(TOLD.match, said) if it and copy.module.endswith(f"_{it[2]}")]
    unread = [it for it in told if it[1] == "specs"]
    rows = [it[3] for it in told if it[3] and not names_what_is_gone(it[4].partition(". ")[0])]
    if unread or (told and not rows):
        return None, f"BAD EDIT: {(unread or told)[0].string[:150]}"
    return (rows[0], None) if rows else (None, "NOT REFUSED: all rows hold")


def try_all(crate, crates):
    """Tries the edits of these rows. Returns how many were refused, and how many failed."""
    copies = []
    for path in sorted(pathlib.Path(f"crates/{crate}/{FOLDER}").glob("*/*.edits")):
        try:
            copies += copies_of(crate, path, len(copies))
        except BadEdit as why:
            print(f"{path}: FAILED: BAD EDIT: {why}")
            return 0, 1
    said = said_of(crate, crates, copies)
    if not IS_DONE.match(said[-1]):
        print(*said[-5:], f"{crate}: FAILED: the prover gave no verdict", sep="\n")
        return 0, 1
    refused = failed = 0
    for copy in copies:
        row, why = verdict(copy, said)
        is_edit = "#" in copy.name
        is_right = bool(row) == is_edit and (is_edit or why.startswith("NOT REFUSED"))
        told = f"refused at {row}" if row else why if is_edit else why.partition(": ")[2]
        print(f"{copy.name}: {'' if is_right else 'FAILED: '}{told}")
        refused, failed = refused + (is_right and is_edit), failed + (not is_right)
    return refused, failed


def main(names):
    crates = read_crates()
    tried = [try_all(it, crates) for it in names or crates if os.path.isdir(f"crates/{it}/{FOLDER}")]
    refused, failed = sum(it[0] for it in tried), sum(it[1] for it in tried)
    print(f"{refused} refused, {failed} failed")
    return 1 if failed or not refused else 0


if __name__ == "__main__":
    sys.exit(main(sys.argv[1:]))
