#!/usr/bin/env python3
"""Fails where a definition that a public contract leads to has no wrong definition, and uncovered.txt says no reason. A
statement needs one that is weaker and one that is stronger, any other definition one.

    tools/docs/check_covered.py [--table]    at the top of the repository; --table: a line for each definition

uncovered.txt beside this file lists what lacks one, below its reason. A name in it that isn't needed fails too. That
rows refuse what stands in wrong_definitions, tools/wrong_bodies/definitions.py shows."""
import pathlib
import re
import sys

sys.dont_write_bytecode = True
TOP = pathlib.Path.cwd()
HERE = pathlib.Path(__file__).resolve().parent
sys.path.append(str(HERE.parent / "wrong_bodies"))
from check_promises import Definitions, promises  # noqa: E402
from edits import edits_of  # noqa: E402

DIRECTIONS = ("weaker", "stronger")
STATES = re.compile(r"[≡≢≤<×⊎↔]|→ Type|→ ⊥")


def is_statement(name, text):
    """Whether a definition is a statement, or a relation: it has values of which it holds, and others."""
    if re.match(r"(pub )?record ", text):
        return bool(STATES.search(text.partition(" where ")[2]))
    head = text.partition(f" {name} ")[2] if text.startswith(("abbrev", "pub", "unfoldable")) else text
    kind = re.split(rf" {re.escape(name)}(?= )", head)[0]
    return kind.rstrip().endswith(("Type 0", "Type 1")) and not text.startswith(("data", "pub data"))


def mistakes():
    """For each definition, by file and name, what the edits that change it are: a direction, or another value."""
    found = {}
    for path in sorted(TOP.glob("crates/*/wrong_definitions/*/*.edits")):
        file = f"{path.parent.name}/specs/{path.stem}.antt"
        text = (TOP / "crates" / file).read_text(encoding="utf-8")
        old = dict(Definitions.declared(text, False))
        for edit in edits_of(str(path), file):
            new = dict(Definitions.declared(edit.applied({file: text})[file], False))
            for name in (it for it in new if old.get(it) != new[it]):
                found.setdefault((file, name), set()).update(edit.texts("is") or ["other"])
    return found


def lacking():
    """For each definition that a contract leads to whether it is a statement, and which directions it lacks."""
    tried = mistakes()
    for (file, name), text in sorted(promises(TOP).items()):
        if "/specs/" in file:
            said = tried.get((file, name), set())
            if is_statement(name, text):
                yield file, name, True, [it for it in DIRECTIONS if it not in said]
            else:
                yield file, name, False, [] if said else ["other"]


def listed():
    """What uncovered.txt lists: each definition, by file and name, with the direction that it lacks if that is one."""
    found = {}
    for line in (HERE / "uncovered.txt").read_text(encoding="utf-8").splitlines():
        if line and not line.startswith("#"):
            file, *names = line.split()
            crate, _, inner = file.partition("/")
            for it in names:
                name, _, direction = it.partition(":")
                found[f"{crate}/specs/{inner}", name] = {direction} if direction else set()
    return found


def main():
    wrong, count, told, seen = [], {}, listed(), set()
    for file, name, is_one, lacks in lacking():
        seen.add((file, name))
        how = "all" if not lacks else "none" if not is_one or lacks == [*DIRECTIONS] else f"no {lacks[0]} one"
        count[is_one, how] = count.get((is_one, how), 0) + 1
        said = told.get((file, name))
        if lacks and (said is None or said and said != set(lacks)):
            wrong.append(f"{file}: {name} lacks {' and '.join(lacks)}, and uncovered.txt doesn't say so")
        if not lacks and said is not None:
            wrong.append(f"{file}: {name} lacks none, but stands in uncovered.txt")
        if "--table" in sys.argv:
            print(file, name, "statement" if is_one else "value", how, sep="\t")
    wrong += [f"{file}: {name} is in uncovered.txt, but no contract leads there" for file, name in told.keys() - seen]
    print(*sorted(wrong), sep="\n", end="\n" if wrong else "")
    for (is_one, how), n in sorted(count.items(), reverse=True):
        print(f"{n} {'statements' if is_one else 'other definitions'}: {how}")
    return 1 if wrong else 0


if __name__ == "__main__":
    sys.exit(main())
