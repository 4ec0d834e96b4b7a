#!/usr/bin/env python3
"""Makes the crate of docs/RATTLE.md by the document's own commands, in a copy of the tree, and proves it there.

    tools/docs/prove_crate.py    behind `rt ci` or `rt check`, which leave the proved libraries in crates/*/out

The commands are the block that begins with `rt new`. In place of `rt ci`, with which it ends, stands what `rt check`
calls, over these libraries."""
import os
import pathlib
import re
import shlex
import shutil
import subprocess
import sys
import tempfile

TOP = pathlib.Path(__file__).resolve().parent.parent.parent
sys.dont_write_bytecode = True
sys.path.insert(0, str(TOP / "tools/wrong_bodies"))
from prover import KIT, check_words, read_crates

BLOCK = re.compile(r"(?m)^    rt new crates/(\w+) .*\n(?:    .*\n)*    rt ci \1\n(?!    )")


def commands():
    """The name of the document's crate, and the commands that make it, up to the one that proves it."""
    block = BLOCK.search((TOP / "docs/RATTLE.md").read_text(encoding="utf-8"))
    if not block:
        sys.exit("docs/RATTLE.md has no block of commands from `rt new` to `rt ci`")
    return block[1], "".join(line[4:] for line in block[0].splitlines(True)[:-1])


def copy_tree(room):
    """The sources as they are here, with the libraries."""
    shutil.copy(TOP / "crates.txt", room)
    shutil.copytree(TOP / "crates", room / "crates", ignore=shutil.ignore_patterns("out"))
    for crate in (room / "crates").iterdir():
        if (TOP / "crates" / crate.name / "out").is_dir():
            (crate / "out").symlink_to(TOP / "crates" / crate.name / "out")


def main():
    name, text = commands()
    with tempfile.TemporaryDirectory() as folder:
        room = pathlib.Path(folder)
        copy_tree(room)
        made = subprocess.run(["sh", "-euc", text], cwd=room, capture_output=True, text=True)
        if made.returncode:
            sys.exit(f"the commands of docs/RATTLE.md fail:\n{made.stdout}{made.stderr}")
        os.chdir(room)
        words = [f"{KIT}/bin/rattle", "check", *check_words(name, read_crates())]
        said = {"stdout": subprocess.PIPE, "stderr": subprocess.STDOUT, "text": True}
        proved = subprocess.run(words, cwd=room / "crates" / name, **said)
    if proved.returncode or "\nlogic=proved " not in proved.stdout:
        sys.exit(f"{shlex.join(words)}\n{proved.stdout}the crate of docs/RATTLE.md isn't proved")
    print("the crate of docs/RATTLE.md is made by its commands, and proved")


if __name__ == "__main__":
    main()
