"""Reads edits: those of crates/NAME/src/FILE.rt stand in crates/NAME/wrong/FILE.edits, each below a line 'edit: ..'."""
import os
from typing import NamedTuple

from functions import functions

# The words that lines begin with. 'old' and 'new' come in pairs.
WORDS = ("old", "new", "refused", "row", "is")


class BadEdit(Exception):
    """An edit that cannot be tried, and why."""


class Edit(NamedTuple):
    """An edit, as it stands in its file."""

    name: str  # the path of its file, '#' and what its heading calls it
    file: str  # what it changes, src/..
    lines: tuple  # the word and the text of each line
    owned: frozenset = frozenset()  # (file, function) of each body that it changes

    def texts(self, word):
        return [text for it, text in self.lines if it == word]

    @property
    def refused(self):
        """The function that must be refused, if it changes more than bodies; else empty."""
        return "".join(self.texts("refused"))

    def applied(self, texts):
        """The text of the file as it makes it."""
        made, old = texts.get(self.file, ""), None
        for word, text in self.lines:
            if word not in WORDS:
                raise BadEdit(f"a line begins with '{word}'")
            if word == "old":
                old = text
            elif word == "new":
                if not old or made.count(old) != 1:
                    times = made.count(old) if old else 0
                    raise BadEdit(f"an 'old:' text stands {times} times in {self.file}, and not once")
                made, old = made.replace(old, text), None
        return {self.file: made}

    def with_bodies(self, texts, types):
        """The same, with the bodies that it changes of these texts."""
        made = self.applied(texts)
        if self.refused:
            return self
        owned = frozenset(it for file, new in made.items() for it in changed_bodies(file, texts[file], new, types))
        if not owned:
            raise BadEdit("it changes no body of a function")
        return self._replace(owned=owned)


def edits_in(folder):
    """The edits in the files FILE.edits below this folder, in order."""
    files = sorted(f"{at}/{it}" for at, _, inner in os.walk(folder) for it in inner if it.endswith(".edits"))
    return [edit for it in files for edit in edits_of(it, f"src{it.removeprefix(folder).removesuffix('.edits')}.rt")]


def edits_of(path, file):
    """The edits of a file that stand in this path, in order."""
    found = []
    with open(path, encoding="utf-8") as it:
        for line in filter(None, it.read().split("\n")):
            word, _, text = line.partition(":")
            text = text.removeprefix(" ")
            if word == "edit":
                found.append(Edit(f"{path}#{text}", file, ()))
            elif found:
                found[-1] = found[-1]._replace(lines=(*found[-1].lines, (word, text)))
            else:
                raise SystemExit(f"{path} begins with no line 'edit:'")
    twice = {it.name for at, it in enumerate(found) if it.name in {other.name for other in found[:at]}}
    if twice:
        raise SystemExit(f"these headings stand twice: {' '.join(sorted(twice))}")
    return found


def changed_bodies(path, old, new, types):
    """The functions whose bodies differ between two texts that are the same outside bodies."""
    (outside, before), (outside_now, now) = cut(path, old, types), cut(path, new, types)
    if outside != outside_now or before.keys() != now.keys():
        raise BadEdit("it changes more than bodies of functions, and no line 'refused:' names the one to be refused")
    return [(path, name) for name in now if now[name] != before[name]]


def cut(path, text, types):
    """A text without the bodies of its functions, and these bodies."""
    lines, bodies = text.split("\n"), {}
    for it in reversed(functions(path, text, types)):
        bodies[it.name] = lines[it.body : it.last]
        del lines[it.body : it.last]
    return lines, bodies
