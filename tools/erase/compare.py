#!/usr/bin/env python3
"""compare.py [FOLDER]: whether what is made in rust/, or in this folder, is crates/ without what is there for the proof.

Nothing of erase.py is used or believed. The tokens of each source are lined up with those of the file that is made of
it. Where one of the forms below stands in the source, what it says must stand in the other; elsewhere both must have
the same token. Comments and layout are left out. The first difference of each file is printed, and the status is 1.
"""
import collections
import pathlib
import re
import sys
from typing import NamedTuple

TOP = pathlib.Path(__file__).resolve().parents[2]
MADE = {"src/proved": ["der_core", "spki_core", "pkcs1_params", "pkcs1", "pkcs8_core"],
        "src/bin/pkcs1_tool/tool": ["pkcs1_program", "pkcs1_tool"],
        "c/src/calls": ["pkcs1_c"]}
PLACES = {"std": "crate :: rattle_std", "arrayvec": "crate :: rattle_std :: arrayvec",
          "hex": "crate :: rattle_std :: hex"}
PLACES |= {crate: f"crate :: {folder.split('/')[-1]} :: {crate}" for folder, its in MADE.items() for crate in its}
INSIDE = ["decode", "to_bytes", "as_key_ref", "encode_key", "null", "is_alone"]  # of what isn't public, or has others
PRELUDE = {"Vec", "vec", "String", "ToString", "format", "HostRuntime", "Eprint", "eprintln", "assert", "assert_eq"}
TOKEN = re.compile(r"""
    //[^\n]* | (?P<kept> b?"(?:\\.|[^"\\])*" | b?'(?:\\[^\n][^'\n]*|[^'\\\n])' | '[a-z_]\w* | \w+
    | :: | -> | => | \.\.=? | && | \|\| | [-+*/%^&|=!<>]= | \S)""", re.X | re.S)
OPEN, CLOSE = ("(", "[", "{"), (")", "]", "}")


class Word(NamedTuple):
    text: str
    line: int


def words_of(text):
    """The tokens of a file, without comments."""
    found, line, begin = [], 1, 0
    for it in TOKEN.finditer(text):
        line += text.count("\n", begin, it.start())
        begin = it.start()
        if it["kept"]:
            found.append(Word(it["kept"], line))
    return found


class Source:
    """The tokens of a source, and what becomes of them."""

    def __init__(self, crate, text):
        self.crate, self.words = crate, words_of(text)
        self.is_library = crate in MADE["src/proved"]
        self.behind, self.around, opened = {}, [], [-1]
        self.passed = None  # what the body of the call for C that stands here begins with
        for at in range(len(self.words)):
            if self[at] in CLOSE:
                self.behind[opened.pop()] = at + 1
            self.around.append(opened[-1])
            if self[at] in OPEN:
                opened.append(at)

    def __getitem__(self, at):
        return self.words[at].text if 0 <= at < len(self.words) else ""

    def says(self, at, phrase):
        return all(self[at + n] == word for n, word in enumerate(phrase.split()))

    def until(self, at, ends):
        """The next of these signs that stands outside brackets, or the bracket that closes those around."""
        while self[at] not in ends and self[at] not in CLOSE:
            at = self.behind[at] if self[at] in OPEN else at + 1
            if at >= len(self.words):
                raise IndexError("an item doesn't end")
        return at

    # Each form gives what stands here in the source (how many tokens) and what must stand in its place, or nothing.

    def ghost(self, at):
        if self.says(at, "pub ( crate ) ghost") or self.says(at, "pub ghost") or self[at] == "ghost":
            end = self.until(at + 4 if self[at + 1] == "(" else at, [";", ","])
            return end - at + (self[end] in (";", ",")), ""
        return None

    def clause(self, at):
        if self[at] not in ("requires", "ensures"):
            return None
        brace = self.until(at, ["{"])
        if brace - at > 1 + (self[at + 1] == "*") + (self[brace - 1] not in (self[at], "*")):
            raise IndexError("a clause without braces")
        end = self.behind[brace]
        return (self.behind[end + 1] if self.says(end, "by {") else end) - at, ""

    def tactic(self, at):
        if self.says(at, "# [ tactic (") or self.says(at, "# ! [ tactic ("):
            return self.behind[self.until(at, ["["])] - at, ""
        return None

    def final(self, at):
        return (1, "") if self[at] == "final" and "fn" in (self[at + 1], self[at + 2]) else None

    def drop(self, at):
        if self.says(at, "# [ derive ( Drop ) ]"):
            return 7, ""
        for phrase in (", Drop", "+ Drop", ": Drop"):
            if self.says(at, phrase) and not (phrase == ": Drop" and self[at + 2] == "+"):
                return 2, ""
        return (2, "") if self.says(at, "Drop +") or self.says(at, "Drop ,") else None

    def derived(self, at):
        """In the library `Hash` follows `Eq`, and numbers derive no `Debug`."""
        begin = self.around[at] if self.is_library and self[at] in ("Eq", "Debug") else -1
        if begin < 0 or not self.says(begin - 3, "# [ derive ("):
            return None
        if self[at] == "Eq":
            return 1, "Eq , Hash"
        return (2, "") if self[self.behind[begin] + 3] in ("Uint", "UintRef") else None

    def handle(self, at):
        """What takes a handle of memory is called otherwise."""
        first = self[at + 4] if self[at + 3] == "." else self[at + 2]
        taken = self[at] in ("try_clone", "decode_as") or self[at] == "new" and first in ("alloc", "memory")
        called = self[at + 1] == "(" or self[at] == "decode_as" and self[at + 1] in ("<", "::")
        return (1, f"{self[at]}_in") if taken and called else None

    def clone(self, at):
        if self[at] != "impl":
            return None
        body = self.until(at, ["{"])
        if self[body] != "{":  # the `impl` of an argument
            return None
        head = [self[it] for it in range(at, body)]
        end = self.behind[body]
        if "for" in head and head[head.index("for") - 1] == "Clone" and any(
                self.says(it, "& self ) -> std :: result :: Result <") for it in range(body, end)):
            return end - at, ""
        return None

    def formatter(self, at):
        if self[at - 2] == "fn" and self.says(at, "< W : fmt :: Write > ("):
            return 7, ""
        return (4, "Formatter < '_ >") if self.says(at, "Formatter < W >") else None

    def path(self, at):
        if self[at - 1] in ("::", ".") or not (self[at + 1] == "::" or self[at - 1] == "use" and self[at + 1] == "as"):
            return None
        name = self.crate if self[at] == "crate" else self[at]
        return (1, PLACES[name]) if name in PLACES else None

    def empty(self, at):
        of_tool = self.crate in MADE["src/bin/pkcs1_tool/tool"]
        return None if of_tool or not self.says(at, "& [ ]") else (3, "crate :: rattle_std :: NO_OCTETS")

    def errors(self, at):
        """More errors may come."""
        named = self.says(at, "pub enum Error {") or self.says(at, "pub enum ErrorKind {")
        return (1, "# [ non_exhaustive ] pub") if named and self.crate in MADE["src/proved"] else None

    def call(self, at):
        """A slice that C passes is an address and a length, of which the body of the call makes one."""
        if self.says(at, 'extern "C" fn') and self.around[at] < 0:
            self.passed = []
        if self.passed is None:
            return None
        if self[at] == "&" and self[at - 1] == ":" and self[self.around[at]] == "(" and self.around[self.around[at]] < 0:
            begin = next(it for it in range(at + 1, at + 4) if not (self[it] == "mut" or self[it].startswith("'")))
            if self[begin] != "[":
                return None
            end, name, many = self.behind[begin], self[at - 2], self[begin - 1] == "mut"
            self.passed.append(f"let {name} = unsafe {{ core :: slice :: from_raw_parts{'_mut' if many else ''} "
                               f"( {name} , {name}_len ) }} ;")
            of = " ".join(self[it] for it in range(begin + 1, end - 1))
            return end - at, f"* {'mut' if many else 'const'} {of} , {name}_len : usize"
        if self[at] == "{" and self.around[at] < 0:
            passed, self.passed = self.passed, None
            return (1, " ".join(["{", *passed])) if passed else None
        return None

    def entry(self, at):
        """`main` of a program is public, and a test makes the runtime that it is given."""
        if self.says(at, "fn main (") and self.around[at] < 0:
            return 1, "pub fn"
        if self.says(at, "( rt : HostRuntime") and self.says(at - 6, "# [ test ] fn"):
            body = self.until(self.behind[at], ["{"])
            result = " ".join(self[it] for it in range(self.behind[at], body))
            return body + 1 - at, f"( ) {result} {{ let rt = HostRuntime ;"
        return None

    def narrowed(self, at):
        """A public method with a `requires`, with a handle or of the inside, and a public field beside a ghost one, are
        `pub(crate)`. What other methods of the library give must be used."""
        around = self.around[at] if self[at] == "pub" else -1
        if around < 0:
            return None
        name = next(it for it in range(at, len(self.words)) if self[it] not in ("pub", "const", "final", "fn"))
        if self[name - 1] == "fn":
            end = self.until(name, ["{", ";", "requires"])
            while self[end - 1] in ("ensures", "*") or self[end - 2] in ("ensures", "*"):
                end = self.until(self.behind[end], ["{", ";", "requires"])
            open_ = self.until(name, ["("])
            given, pairs = self.behind[open_], {(self[it], self[it + 1]) for it in range(open_, self.behind[open_])}
            inside = self[name] in INSIDE or self.handle(name)
            meant = self[end] == "requires" or self[at + 1] in ("fn", "const") and inside
            is_result = self[self.until(given, ["{", ";", "<", "where", "requires", "ensures"]) - 1] == "Result"
            if not meant and self.is_library and self[given] == "->" and not is_result and ("&", "mut") not in pairs:
                return 1, "# [ must_use ] pub"
        else:
            inside = range(around + 1, self.behind[around])
            meant = self[name + 1] == ":" and any(self[it] == "ghost" and self.around[it] == around for it in inside)
        return (1, "pub ( crate )") if meant else None

    def formed(self, at):
        """The first form that stands here: its name, how many tokens it has, and what must stand in its place."""
        for form in (self.ghost, self.clause, self.tactic, self.final, self.drop, self.derived, self.handle,
                     self.clone, self.formatter, self.path, self.errors, self.empty, self.call, self.entry,
                     self.narrowed):
            found = form(at)
            if found:
                return form.__name__, found[0], found[1].split()
        return None


def prelude_at(made, to):
    """How many tokens an import of Rattle's prelude has that stands here."""
    phrase = "use crate :: rattle_std :: prelude ::".split()
    if [it.text for it in made[to:to + 7]] != phrase:
        return 0
    end = next(it for it in range(to, len(made)) if made[it].text == ";")
    named = {it.text for it in made[to + 7:end]} - {"{", "}", ","}
    return end + 1 - to if named <= PRELUDE else 0


def difference(source, made, counts):
    """Where the file that was made first differs from the source: the index in each, or nothing."""
    at, to, imported = 0, 0, False
    while at < len(source.words) or to < len(made):
        form = source.formed(at)
        kind, count, put = form or ("kept", 1, [source[at]])
        outside = at < len(source.words) and source.around[at] < 0 and source[at] not in CLOSE
        if outside and put and not imported and prelude_at(made, to):
            to, imported = to + prelude_at(made, to), True
            counts["import of the prelude"] += 1
        if at >= len(source.words) or [it.text for it in made[to:to + len(put)]] != put:
            return at, to
        counts[kind] += 1
        at, to = at + count, to + len(put)
    return None


def shown(words, at):
    """A few tokens from here on, and their line."""
    near = words[at:at + 8]
    return f"line {near[0].line}: {' '.join(it.text for it in near)}" if near else "its end"


def compared(source_path, made_path, crate, counts):
    """A message about the first difference, or nothing."""
    source = Source(crate, source_path.read_text(encoding="utf-8"))
    made = words_of(made_path.read_text(encoding="utf-8"))
    try:
        found = difference(source, made, counts)
    except (LookupError, StopIteration) as why:
        return f"{source_path}: no item is read here, {why!r}"
    return found and f"{source_path}, {shown(source.words, found[0])}\n    {made_path}, {shown(made, found[1])}"


def sources(crates):
    """The path of each source of these crates, by that of what is made of it, below the folder of all."""
    found = {}
    for crate in crates:
        for path in sorted((TOP / "crates" / crate / "src").rglob("*.rt")):
            name = path.relative_to(TOP / "crates" / crate / "src").with_suffix(".rs")
            found[pathlib.Path(crate, "mod.rs" if str(name) in ("lib.rs", "main.rs") else name)] = path
    return found


def messages(folder, crates, counts):
    """A message about each file of the folder that isn't as it should be."""
    meant = sources(crates)
    there = {it.relative_to(folder) for it in folder.rglob("*") if it.is_file()}
    for path in sorted(there ^ (meant.keys() | {pathlib.Path("mod.rs")})):
        yield f"{folder}/{path} is {'made of nothing' if path in there else 'missing'}"
    listed = [it.text for it in words_of((folder / "mod.rs").read_text(encoding="utf-8"))]
    if listed != " ".join(f"pub mod {it} ;" for it in crates).split():
        yield f"{folder}/mod.rs has another list of crates"
    for path in sorted(meant.keys() & there):
        message = compared(meant[path], folder / path, path.parts[0], counts)
        if message:
            yield message


def main():
    counts = collections.Counter()
    top = pathlib.Path(sys.argv[1]) if sys.argv[1:] else TOP / "rust"
    wrong = [it for folder, crates in MADE.items() for it in messages(top / folder, crates, counts)]
    print("\n".join(wrong) or "compare: the same tokens but for these forms: "
          + ", ".join(f"{kind} {count}" for kind, count in sorted(counts.items())))
    sys.exit(bool(wrong))


if __name__ == "__main__":
    main()
