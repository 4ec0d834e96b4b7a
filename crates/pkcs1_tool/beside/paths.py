#!/usr/bin/env python3
"""paths.py COUNT SEED NAME=TOOL..: copies to and from paths by chance, of which some go through links, or make no
sense. All tools end alike. Not more than one file changes, none after an error, and that one holds the key."""
import functools
import os
import random
import sys

import tools
from tools import OLD, PRIVATE, PUBLIC

KEYS = {"pub": PUBLIC, "priv": PRIVATE}
PARTS = [".", "..", "...", "", "a", "b", "l", "f", "f.", "é", "x" * 255, "x" * 256, "new", "dl", "none", "loop"]
# The folder in which the tool runs, below the one that is looked at.
AT = "1/2/3/r"


def prepare(top):
    os.makedirs(f"{top}/{AT}/a/b")
    for name, what, mode in (("pub.der", PUBLIC, 0o644), ("priv.der", PRIVATE, 0o640), ("f", OLD, 0o644),
                             ("a/f", OLD, 0o604), ("a/b/f", OLD, 0o644)):
        tools.put(f"{top}/{AT}/{name}", what, mode)
    for name, to in (("l", "a/b"), ("a/l", "../f"), ("dl", "nowhere"), ("loop", "loop"), ("a/b/dl", "../../a")):
        os.symlink(to, f"{top}/{AT}/{name}")


def rows(count, seed):
    """The kind of the key, IN, OUT, whether that is absolute, and the umask."""
    by = random.Random(seed)
    for _ in range(count):
        kind = by.choice(["pub", "priv"])
        given = by.choice([f"{kind}.der"] * 4 + [f"./a/../{kind}.der", "a", "none", "f"])
        path = "/".join(by.choice(PARTS) for _ in range(by.randrange(1, 5)))
        path += by.choice(["", "", "", "/", "/.", "//"])
        yield kind, given, path, by.random() < .3, by.choice([0, 0o22, 0o77, 0o277])


def run(tool, kind, given, path, is_absolute, umask):
    """The files before, and the result."""
    with tools.folder() as top:
        prepare(top)
        before = tools.files_below(top)
        words = ["copy", kind, given, f"{top}/{AT}/{path}" if is_absolute else path]
        return before, tools.run(tool, words, f"{top}/{AT}", top, umask=umask)


def trial(compared, *row):
    ran = {tool.name: run(tool, *row) for tool in compared}
    before, result = ran[compared[0].name]
    if len({it for _, it in ran.values()}) > 1:
        yield "the tools differ:" + "".join(f"\n    {name}: {it}" for name, (_, it) in ran.items())
    gone = [name for name, *_ in before if name not in {it for it, *_ in result.files}]
    changed = [what for name, what, mode in result.files if (name, what, mode) not in before]
    if gone or len(changed) > 1 - result.status or any(it != KEYS[row[0]] for it in changed):
        yield f"other files changed, or are gone: {result}"


if __name__ == "__main__":
    count, seed = map(int, sys.argv[1:3])
    compared = tools.tools_of(sys.argv[3:])
    trials = ((functools.partial(trial, compared), it) for it in rows(count, seed))
    sys.exit(tools.try_all(f"paths of the seed {seed}", compared, trials))
