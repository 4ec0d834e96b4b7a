#!/usr/bin/env python3
"""Counts the lines and the tokens of crates/, by crate and by kind, which is where a file stands.

    tools/count.py [FOLDER]          of the tree in this folder, or of this one
    tools/count.py --since COMMIT    by how much they differ from those of this commit; nothing if there is no such one

A token is a word, a number, a string or one sign, and in a comment a word. So layout changes no count of tokens. The
kinds:

    src, test          of src/; of src/tests, and of TESTS
    def, speclaw       of specs/; of specs/Laws
    lemma, answer      of proofs/: files right in it; those in the folders of functions
    wrong              edits in wrong/ and must-fail/, which no sum has"""
import argparse
import collections
import pathlib
import re
import subprocess
import tempfile

TESTS = {"pkcs1_vectors", "pkcs1_tests"}  # the second in commits up to 2026-11-28
KINDS = ["src", "test", "def", "speclaw", "lemma", "answer", "wrong"]
TOKENS = {
    ".rt": re.compile(r"""//[^\n]* | b?"(?:\\.|[^"\\])*" | b?'(?:\\.[^']*|[^'\\])' | '[A-Za-z_]+ | [^\W\d]\w*(?:-\w+)*!?
        | \d\w* | ->|=>|::|==|!=|<=|>=|&&|\|\||\.\.=|\.\. | \S""", re.X),
    ".antt": re.compile(r"""--[^\n]* | "(?:\\.|[^"\\])*" | [^\W\d]\w*(?:-\w+)*|\d\w* | \S""", re.X),
}


def weight(token):
    return len(token.lstrip("/!-").split()) if token.startswith(("//", "--")) else 1


def kind_of(parts):
    """The kind of a file, by the parts of its path in crates/."""
    if parts[1] == "src":
        return "test" if parts[0] in TESTS or parts[2] in ("tests", "tests.rt") else "src"
    if parts[1] == "specs":
        return "speclaw" if parts[2] == "Laws" else "def"
    return "lemma" if len(parts) == 3 else "answer"


def count(folder):
    """Of each crate below this folder its lines and its tokens, by kind."""
    found = collections.defaultdict(lambda: (collections.Counter(), collections.Counter()))
    for path in sorted((folder / "crates").rglob("*.*")):
        parts = path.relative_to(folder / "crates").parts
        if "out" in parts or path.suffix not in (".rt", ".antt", ".edit", ".edits"):
            continue
        text, pattern = path.read_text(encoding="utf-8"), TOKENS.get(path.suffix)
        kind = kind_of(parts) if pattern else "wrong"
        lines, tokens = found[parts[0]]
        lines[kind] += text.count("\n")
        tokens[kind] += sum(map(weight, pattern.findall(text))) if pattern else len(text.split())
    return found


def row(name, counts, sign):
    last = sum(counts[it] for it in KINDS if it != "wrong")
    return f"{name:14}" + "".join(f"{it:{sign}10}" for it in [*(counts[it] for it in KINDS), last])


def show(found, sign=""):
    """Prints what was counted of each crate, and the sums. Differences are printed with a sign."""
    for place, what in enumerate(["lines", "tokens"]):
        print(f"{what:14}" + "".join(f"{it:>10}" for it in [*KINDS, "sum"]))
        whole = collections.Counter()
        for crate in sorted(found):
            whole.update(found[crate][place])
            if any(found[crate][place].values()):
                print(row(crate, found[crate][place], sign))
        print(row("all", whole, sign))


def since(commit, folder):
    """Prints by how much the counts of a folder differ from those of a commit, if there is one."""
    git = ["git", "-C", str(folder)]
    if subprocess.run([*git, "cat-file", "-e", f"{commit}^{{commit}}"], capture_output=True).returncode:
        return
    with tempfile.TemporaryDirectory() as room:
        archive = subprocess.run([*git, "archive", commit, "crates"], capture_output=True, check=True).stdout
        subprocess.run(["tar", "x", "-C", room], input=archive, check=True)
        now, before = count(folder), count(pathlib.Path(room))
    for crate in {*now, *before}:
        for one, other in zip(now[crate], before[crate]):
            one.subtract(other)
    show(now, "+")


def main():
    words = argparse.ArgumentParser(description=__doc__, formatter_class=argparse.RawDescriptionHelpFormatter)
    words.add_argument("folder", nargs="?", type=pathlib.Path, default=pathlib.Path(__file__).resolve().parent.parent)
    words.add_argument("--since", metavar="COMMIT", help="print differences from this commit")
    given = words.parse_args()
    if given.since:
        since(given.since, given.folder)
    else:
        show(count(given.folder))


if __name__ == "__main__":
    main()
