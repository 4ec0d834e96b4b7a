"""What was refused before: on this machine, and by the line of the repository."""
import functools
import os
import pathlib
import re
import sys

HERE = pathlib.Path(__file__).resolve().parent
sys.path.insert(0, str(HERE.parent))
import kept
import verdicts
from prover import below

# Edits by which this tool itself is tested, below it in a folder for each crate: it must give credit to those called
# wrong, and to no other.
DEMO = "tools/wrong_bodies/demo"
# The files of this program on which a verdict stands.
PROGRAM = ("credit", "earlier", "edits", "functions", "holes", "prover", "rounds")
# A line that is a comment, of either language, or blank.
SAYS_NOTHING = re.compile(r"^[^\S\n]*((//|--).*)?\n", re.M)


class Verdicts:
    """Which edits of a crate were refused before. On this machine, each under all that the prover then read: the
    toolchain, this program, the crate and its line in crates.txt, the libraries below it as they were built, and the
    edit. Only that an edit was refused is kept. By the line of the repository, all edits of the crate, under the same
    without comments and blank lines. There the toolchain is named by its logic, and libraries are their sources."""

    def __init__(self, name, crates, edits, anew):
        self.store = kept.Store("wrong_bodies", anew or kept.ANEW)
        self.edits = [it for it in edits if not is_demo(it.name)]
        self.under = [name, *sorted(below(name, crates))]
        libraries = [f"crates/{it}/out/rlib/{it}.rlib" for it in self.under[1:]]
        read = [f"crates/{name}/{part}" for part in ("src", "specs", "proofs")] + libraries
        own = [*(f"{HERE}/{it}.py" for it in PROGRAM), kept.__file__]
        self.ground = kept.hash_of(kept.kit(), crates[name], *map(contents_below, [*own, *read]))
        self.row, self.own, self.crates = f"wrong bodies of {name}", own, crates
        self.said = None if anew else verdicts.standing(self.row, *self.line()[1:])
        left = [it.name for it in self.edits if self.said and not self.taken(it)]
        self.drawn = set(verdicts.drawn(left, 3, f"{verdicts.sample()} {name}"))

    def key(self, edit):
        """The hash of all that the prover reads of an edit."""
        return kept.hash_of(self.ground, read_of(edit))

    def taken(self, edit):
        return None if is_demo(edit.name) else self.store.taken(self.key(edit))

    def keep(self, edit, goal):
        if not is_demo(edit.name):
            self.store.keep(self.key(edit), goal)

    def stands(self, edit):
        """Whether the line of the repository says that it is refused, and it isn't drawn to be tried all the same, of
        those that this machine hasn't tried."""
        return self.said is not None and not is_demo(edit.name) and edit.name not in self.drawn

    def line(self):
        """The line of the repository, if all are refused."""
        sources = [f"crates/{it}/{part}" for it in self.under for part in ("src", "specs", "proofs")]
        libraries = [self.crates[it] for it in self.under]
        read = kept.hash_of(libraries, *map(text_below, [*self.own, *sources]), [*map(read_of, self.edits)])
        return verdicts.Line(f"{len(self.edits)} refused", verdicts.judge_of("logic"), read)

    def write(self):
        """Writes the line, if all were refused on this machine. Else those that weren't."""
        left = [it.name for it in self.edits if not self.taken(it)]
        if self.edits and not left:
            verdicts.write(self.row, self.line())
        return left


def read_of(edit):
    """What the prover reads of an edit: no row."""
    return edit.name, edit.file, [it for it in edit.lines if it[0] != "row"]


@functools.lru_cache(maxsize=None)
def contents_below(path):
    """The contents of each file in a folder, or of a file, whatever the place of the repository is."""
    files = kept.files_below(path) if os.path.exists(path) else []
    return [(name.removeprefix(path), *rest) for name, *rest in kept.contents_of(files)]


@functools.lru_cache(maxsize=None)
def text_below(path):
    """The text of each file in a folder, or of a file, without comments and blank lines."""
    files = [pathlib.Path(it) for it in kept.files_below(path)] if os.path.exists(path) else []
    texts = [SAYS_NOTHING.sub("", it.read_text(encoding="utf-8")) for it in files]
    return kept.hash_of([(str(it).removeprefix(path), text) for it, text in zip(files, texts)])


def is_demo(name):
    return name.startswith(DEMO)
