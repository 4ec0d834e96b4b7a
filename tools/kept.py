#!/usr/bin/env python3
"""Runs a step in a folder that holds only the files named, unless it passed on this machine with all the same before.

    tools/kept.py [--makes FILE] [--line JUDGE] NAME PATH.. -- COMMAND..      at the top of the repository

PATHs are files and folders; what is made in them (out, target) is left out, but for a file that is named itself. The
command runs at the top of a copy of these, so it can read no other file of the repository. Its variable TOP is the
repository's own folder, for what was made of the files that are named. --makes: a file that it makes, which is put into
the repository.

That it passed is kept outside of the repository, under the hash of these files, the command, this program, the
toolchain, the packages of this Debian, python3 and rustc, with the last line that it printed and the file that it made.
What fails isn't kept, and runs again. KEPT=anew: it runs, whatever is kept.

--line: where nothing is kept here, and the step's line in tools/verdicts.txt fits, it runs with the variable SAMPLE, by
which it draws what it tries. The line is under the hash of the command and of these files but those in out, and names
what judges: logic, debian or frama-c. KEPT=write: nothing runs, and the line is written of what passed here in full.
"""
import functools
import hashlib
import json
import os
import pathlib
import shutil
import subprocess
import sys
import tempfile
import time

import verdicts

CACHE = pathlib.Path(os.environ.get("XDG_CACHE_HOME") or os.path.expanduser("~/.cache"), "pkcs1-gate")
# Entries that no run took for so long are removed.
DAYS = 60
# Whether all is to run again, and whether only lines are to be written.
ANEW, WRITES = (os.environ.get("KEPT") == it for it in ("anew", "write"))
# What is made in a folder of the repository, and belongs to none of its hashes.
MADE = ("out", "target", "__pycache__", ".git")


class Store:
    """What passed on this machine before, each with what is to be said of it. It is looked for by the hash of all that
    it stands on. An entry names that hash too: one that was put in another's place counts for nothing."""

    def __init__(self, kind, anew=ANEW):
        self.folder, self.anew = CACHE / kind, anew

    def taken(self, key):
        """What is to be said of what passed under this key, or None."""
        try:
            found = json.loads((self.folder / key).read_text(encoding="utf-8"))
            if self.anew or found["key"] != key or not isinstance(found["said"], str):
                return None
            os.utime(self.folder / key)
            return found["said"]
        except (OSError, ValueError, KeyError, TypeError):
            return None

    def keep(self, key, said):
        """Keeps it. Where nothing can be written, nothing is kept."""
        try:
            self.folder.mkdir(mode=0o700, parents=True, exist_ok=True)
            with tempfile.NamedTemporaryFile("w", dir=self.folder, delete=False, encoding="utf-8") as it:
                json.dump({"key": key, "said": said}, it)
            os.replace(it.name, self.folder / key)
        except OSError as why:
            print(f"kept: {self.folder} can't be written, so nothing is kept: {why}", file=sys.stderr)

    def shrink(self):
        """Removes what no run took for long."""
        for it in self.folder.glob("*"):
            if it.stat().st_mtime < time.time() - DAYS * 86400:
                it.unlink(missing_ok=True)


def hash_of(*parts):
    return hashlib.sha256(repr(parts).encode()).hexdigest()


def files_below(path):
    """The files in a folder, or the file that is named itself, in order."""
    if not os.path.isdir(path):
        return [path]
    found = []
    for at, folders, files in os.walk(path):
        folders[:] = [it for it in folders if it not in MADE]
        found += [f"{at}/{it}" for it in files]
    return sorted(found)


def contents_of(files):
    """The path of each file, whether it may be run, and the hash of its contents."""
    found = []
    for it in files:
        with open(it, "rb") as file:
            found.append((it, bool(os.stat(it).st_mode & 0o100), hashlib.sha256(file.read()).hexdigest()))
    return found


@functools.lru_cache(maxsize=None)
def kit():
    """What tells builds of the toolchain apart: its name, and size and time of each of its files."""
    top, found = os.path.dirname(said_by("rt", "doc")), []
    for it in files_below(top) if top else []:
        at = os.lstat(it)
        found.append((it.removeprefix(top), at.st_mode, at.st_size, at.st_mtime_ns))
    return hash_of(said_by("rt", "version"), found)


def machine():
    """What a step may use that isn't in the repository, but for the toolchain."""
    return [said_by(*it.split()) for it in ("uname -m", "dpkg-query -W", "python3 -VV", "rustc -vV", "cargo -V")]


def said_by(*command):
    """What a command prints, or nothing where it can't be run."""
    try:
        return subprocess.run(command, capture_output=True, text=True, check=True).stdout.strip()
    except (OSError, subprocess.CalledProcessError):
        return ""


def run_in_room(files, command, makes, **words):
    """Runs the command among these files alone, and prints what it prints. Its last line, or None if it fails."""
    with tempfile.TemporaryDirectory(prefix="kept-") as room:
        for it in files:
            os.makedirs(os.path.dirname(f"{room}/{it}"), exist_ok=True)
            shutil.copy2(it, f"{room}/{it}")
        words |= {it: os.environ[it] for it in ("PATH", "HOME", "CI") if it in os.environ}
        ran = subprocess.Popen(command, cwd=room, env={**words, "TOP": os.getcwd(), "LANG": "C.UTF-8"},
                               stdin=subprocess.DEVNULL, stdout=subprocess.PIPE, text=True, errors="replace")
        last = ""
        for line in ran.stdout:
            print(line, end="", flush=True)
            last = line.strip() or last
        if ran.wait():
            return None
        for it in makes:
            put(f"{room}/{it}", it)
        return last


def put(one, other):
    """Copies a file, in the place of another at once."""
    os.makedirs(os.path.dirname(other), exist_ok=True)
    shutil.copy2(one, f"{other}.new")
    os.replace(f"{other}.new", other)


def taken(store, key, makes):
    """What an earlier run said, with the file that it made in its place; or None where one of these isn't there."""
    said = store.taken(key)
    for it in makes if said is not None else ():
        made, whole = f"{store.folder}/{key}.made", store.taken(f"{key}.hash")
        if not os.path.isfile(made) or contents_of([made])[0][2] != whole:
            return None
        put(made, it)
    return said


def keep(store, key, said, makes):
    store.keep(key, said)
    for it in makes if store.folder.is_dir() else ():
        put(it, f"{store.folder}/{key}.made")
        store.keep(f"{key}.hash", contents_of([it])[0][2])


class Step:
    """A step of the gate: its words, and what is known of it."""

    def __init__(self, words):
        given = {}
        while words[:1] in (["--makes"], ["--line"]):
            given[words[0]], words = words[1], words[2:]
        if "--" not in words or words.index("--") < 2 or words[-1] == "--":
            sys.exit(__doc__)
        at = words.index("--")
        self.name, self.command = words[0], words[at + 1 :]
        self.makes, self.judge = [given["--makes"]] if "--makes" in given else [], given.get("--line")
        self.files = [it for path in words[1:at] for it in files_below(path)]
        missing = [it for it in self.files if not os.path.isfile(it)]
        if missing:
            sys.exit(f"tools/kept.py: {self.name}: no such file: {' '.join(missing)}")

    def key(self):
        own = [contents_of([os.path.realpath(it)])[0][1:] for it in (__file__, verdicts.__file__)]
        read = contents_of(self.files)
        return hash_of(self.name, self.command, self.makes, read, own, kit(), machine())

    def line(self, said=""):
        """Its line, with what came of it: under what it reads of the repository, as out holds what is made of that."""
        read = hash_of(self.command, contents_of([it for it in self.files if "/out/" not in it]))
        return verdicts.Line(said.replace(" | ", ", "), verdicts.judge_of(self.judge), read)

    def write(self, said):
        """Writes its line of what passed here."""
        if not self.judge:
            return 0
        if said is None:
            print(f"{self.name}: it didn't pass on this machine with these files: .ci/run tries it", file=sys.stderr)
            return 1
        verdicts.write(self.name, self.line(said))
        print(f"{self.name}: its line is written: {said}")
        return 0

    def run(self, store, key):
        """Runs it, by a sample where its line fits. What passes in full is kept."""
        standing = verdicts.standing(self.name, *self.line()[1:]) if self.judge else None
        sample = {"SAMPLE": verdicts.sample()} if standing else {}
        said = run_in_room(self.files, self.command, self.makes, **sample)
        if said is None:
            print(f"{self.name}: failed", file=sys.stderr)
            return 1
        if standing:
            print(f"{self.name}: passed as a sample of what its line in tools/verdicts.txt says: {standing}")
            return 0
        keep(store, key, said, self.makes)
        if self.judge and verdicts.lines().get(self.name) != self.line(said):
            print(f"{self.name}: its line in tools/verdicts.txt doesn't fit: .ci/run --write writes it of this")
        return 0


def main(words):
    step, store = Step(words), Store("steps")
    key = step.key()
    said = taken(store, key, step.makes)
    if WRITES:
        return step.write(said)
    if said is None:
        return step.run(store, key)
    print(f"{step.name}: taken from an earlier run on this machine: {said}")
    return 0


if __name__ == "__main__":
    status = main(sys.argv[1:])
    Store("steps").shrink()
    sys.exit(status)
