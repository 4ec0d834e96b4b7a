#!/usr/bin/env python3
"""Tests which edits are tried again: three small crates, each over the one below, and an edit of the topmost whose
verdict is kept. It is tried again after a change of what the prover reads, and after no other change; and a verdict
that was put in another's place is never taken. A line of the repository that counts a harmless edit as refused is found
out: by a sample within some gates, and at once where all is tried or the line doesn't fit. The libraries are built by
the prover. A stand-in for it answers of the edits, as what it says isn't tested here.

    tools/wrong_bodies/test_kept.py     .ci/run calls it
"""
import os
import pathlib
import shutil
import subprocess
import sys
import tempfile

sys.dont_write_bytecode = True
HERE = pathlib.Path(__file__).resolve().parent
CODE = """#![tactic(auto)]

ghost use Rattle.std.specs.Prelude.{◌≡◌};
ghost use Rattle.low.specs.Echo.{echo_of};

/// The number itself.
pub fn echo(number: usize) -> usize
    ensures { result ≡ echo_of number }
{
    BODY
}
"""
DEFINITION = """use Rattle.std.specs.Prelude.{ℕ}

abbrev pub echo_of : ℕ → ℕ
echo_of x = x
"""
EDITS = """edit: zero_for_any
old: middle::echo(number)
new: middle::echo(0)

edit: harmless
old: middle::echo(number)
new: middle::echo(low::echo(number))
"""
# A toolchain of another name: all of it but the name is the one that is installed.
STAND_IN = """#!/bin/sh
case $1 in
    doc) echo {kit}/START-HERE.md ;;
    version) cat {kit}/name ;;
    *) exec {rt} "$@" ;;
esac
"""


# What answers of an edit: the function is proved if it still returns the number.
PROVER = """#!/bin/sh
if grep -q '(number)' src/lib.rt; then
    echo 'fn top::echo: no holes'
else
    echo "note: src/lib.rt:$(grep -n 'middle::echo(' src/lib.rt | cut -d : -f 1):1: open (\\`returns\\`)"
    echo 'fn top::echo: not proved'
fi
echo 'only=1 '
"""


class Tree:
    """The three crates in a folder, with this tool and a cache of its own."""

    def __init__(self, room):
        self.room, self.top = pathlib.Path(room), pathlib.Path(room, "tree")
        self.put("crates.txt", "low:\nmiddle: low\ntop: low middle\n")
        self.put("crates/low/specs/Lib.antt", "pub mod Echo\n")
        self.put("crates/low/specs/Echo.antt", DEFINITION)
        for name, body in ("low", "number"), ("middle", "low::echo(number)"), ("top", "middle::echo(number)"):
            self.put(f"crates/{name}/src/lib.rt", CODE.replace("BODY", body))
        self.put("crates/top/wrong/lib.edits", EDITS)
        self.put("README.md", "A document.\n")
        shutil.copytree(HERE, self.top / "tools/wrong_bodies", ignore=shutil.ignore_patterns("demo"))
        for it in "kept.py", "verdicts.py":
            shutil.copy(HERE.parent / it, self.top / "tools")
        subprocess.run(["git", "init", "-q", self.top], check=True)
        self.make_kit()

    def make_kit(self):
        kit, rt = self.room / "kit", shutil.which("rt")
        page = subprocess.run(["rt", "doc"], capture_output=True, text=True, check=True).stdout.strip()
        kit.mkdir()
        for it in pathlib.Path(page).parent.iterdir():
            if it.name != "bin":
                (kit / it.name).symlink_to(it)
        self.put("../kit/bin/rattle", PROVER)
        (kit / "bin/rattle").chmod(0o755)
        self.put("../kit/name", "a toolchain logic 1\n")
        self.put("../path/rt", STAND_IN.format(kit=kit, rt=rt))
        (self.room / "path/rt").chmod(0o755)

    def put(self, path, text):
        (self.top / path).parent.mkdir(parents=True, exist_ok=True)
        (self.top / path).write_text(text, encoding="utf-8")

    def change(self, path, old, new):
        text = (self.top / path).read_text(encoding="utf-8")
        assert text.count(old) == 1, (path, old)
        self.put(path, text.replace(old, new))

    def run(self, *command, sample="a day"):
        env = {**os.environ, "PATH": f"{self.room}/path:{os.environ['PATH']}", "XDG_CACHE_HOME": f"{self.room}/cache"}
        env.pop("KEPT", None)
        return subprocess.run(command, cwd=self.top, env={**env, "SAMPLE": sample}, capture_output=True, text=True)

    def prove(self):
        proved = self.run("rt", "all", "check")
        assert not proved.returncode, proved.stdout + proved.stderr

    def verdicts(self, statement):
        """What a statement prints about `it`, the verdicts on the edits of the topmost crate."""
        program = "import sys; sys.path.insert(0, 'tools/wrong_bodies'); import earlier, edits, prover; " \
            "every = edits.edits_in('crates/top/wrong'); " \
            "it = earlier.Verdicts('top', prover.read_crates(), every, False); "
        return self.run("python3", "-B", "-c", program + statement).stdout

    def has_line(self):
        return (self.top / "tools/verdicts.txt").exists()

    def tried(self, *words, sample):
        """Of each edit, by the name of its heading, whether it is tried on a machine that keeps nothing."""
        shutil.rmtree(self.room / "cache")
        said = self.run("tools/wrong_bodies/wrong_bodies.py", *words, sample=sample).stdout
        edits = (self.top / "crates/top/wrong/lib.edits").read_text(encoding="utf-8").split("edit: ")
        names = [it.partition("\n")[0] for it in edits[1:]]
        return {it: f"#{it}: " in said for it in names}

    def try_edits(self):
        """How many edits were taken from an earlier run. One of the two is refused and the other isn't, each time."""
        ran = self.run("tools/wrong_bodies/wrong_bodies.py")
        said = ran.stdout
        assert "#zero_for_any: refused at echo: `returns`" in said, said + ran.stderr
        assert "#harmless: FAILED: NOT REFUSED: what it changes is still proved" in said, said
        return next(int(line.split()[0]) for line in said.splitlines() if "were refused in an earlier run" in line)


def test(tree):
    tree.prove()
    assert tree.try_edits() == 0, "an edit is taken that was never tried"
    assert tree.try_edits() == 1, "a verdict isn't kept"
    tree.put("README.md", "Another document.\n")
    assert tree.try_edits() == 1, "an edit is tried again after a change of a document"
    tree.change("crates/top/wrong/lib.edits", "middle::echo(0)", "middle::echo(0)\nrow: echo 1 = 0")
    assert tree.try_edits() == 1, "an edit is tried again after a change of its rows"
    tree.change("crates/top/wrong/lib.edits", "middle::echo(0)", "middle::echo(1)")
    assert tree.try_edits() == 0, "an edit isn't tried again after a change of itself"
    tree.put("../kit/name", "another toolchain logic 1\n")
    assert tree.try_edits() == 0, "an edit isn't tried again by another toolchain"
    tree.change("crates/top/src/lib.rt", "ensures {", "ensures echoed {")
    assert tree.try_edits() == 0, "an edit isn't tried again after a change of the contract"
    tree.change("crates/low/specs/Echo.antt", "echo_of x = x", "echo_of n = n")
    tree.prove()
    assert tree.try_edits() == 0, "an edit isn't tried again after a change of a definition two crates below"
    forge(tree)
    assert tree.try_edits() == 1, "a verdict is taken that was put in another's place"
    test_line(tree)


def test_line(tree):
    """Of a line that counts the harmless edit, among eight that weren't tried here."""
    others = "".join(f"\nedit: constant_{it}\nold: middle::echo(number)\nnew: middle::echo({it})\n" for it in range(6))
    tree.put("crates/top/wrong/lib.edits", EDITS + others)
    said = tree.run("tools/wrong_bodies/wrong_bodies.py", "--write").stderr
    assert "top: its line isn't written" in said and not tree.has_line(), "a line is written of a harmless edit"
    tree.verdicts("earlier.verdicts.write(it.row, it.line())")
    assert tree.has_line()
    days = [f"day {it}" for it in range(12)]
    tried = [day for day in days if tree.tried(sample=day)["harmless"]]
    assert 0 < len(tried) < len(days), f"a harmless edit is found out on {len(tried)} of {len(days)} days"
    assert tree.tried("--anew", sample="day 0")["harmless"], "a harmless edit isn't found out where all are tried"
    untried = next(it for it in days if it not in tried)
    tree.change("tools/verdicts.txt", "| logic ", "| logic 0")
    assert tree.tried(sample=untried)["harmless"], "a line of another logic fits"
    tree.change("tools/verdicts.txt", "| logic 0", "| logic ")
    assert not tree.tried(sample=untried)["harmless"], "more is tried than is drawn"
    tree.change("crates/top/src/lib.rt", "ensures echoed {", "ensures {")
    assert tree.tried(sample=untried)["harmless"], "a line fits after a change of its crate"


def forge(tree):
    """Puts the verdict on the edit that is refused in the place of one on the edit that isn't."""
    refused, harmless = tree.verdicts("print(*map(it.key, it.edits))").split()
    folder = tree.room / "cache/pkcs1-gate/wrong_bodies"
    shutil.copy(folder / refused, folder / harmless)


def main():
    with tempfile.TemporaryDirectory(prefix="test-kept-") as room:
        test(Tree(room))
    print("edits are tried again after a change of what the prover reads, and after no other")


if __name__ == "__main__":
    main()
