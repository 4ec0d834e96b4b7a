#!/usr/bin/env python3
"""by_hand.py [FOLDER]: whether code by hand in rust/, or in this folder, changes what the made text beside it means.

rustc prefers a method of a type to one of a trait, and takes a macro that stands in front. So refused are an `impl` by
hand of a type of the made text that isn't of a trait, unless APART has its methods, and a macro by hand in the reach of
the made text.
"""
import collections
import pathlib
import re
import sys

sys.dont_write_bytecode = True
from tokens import Code  # noqa: E402

TOP = pathlib.Path(__file__).resolve().parents[2]
ROOTS = ("src", "c/src", "tool/src")
MADE = ("src/proved", "src/bin/pkcs1_tool/tool", "c/src/calls")
MODULES = {pathlib.Path(it).name for it in MADE}
# The methods by hand of types of the made text that hide none: no trait of these types has one of the name.
APART = {
    "UintRef": {"len", "is_empty"},
    "Uint": {"new", "bit_len", "len", "is_empty", "try_clone"},
    "AnyRef": {"NULL", "is_null", "decode_as"},
    "RsaPublicKeyOwned": {"try_clone"},
    "OtherPrimeInfo": {"try_clone"},
}


def text_of(path):
    """The text of a file with spaces in place of its comments."""
    return re.sub(r"//[^\n]*", lambda it: " " * len(it[0]), path.read_text(encoding="utf-8"))


def path_at(code, at):
    """The words of the path that stands here, and where it ends."""
    at += code.word(at) in ("::", "$", "dyn")
    words = []
    while at < len(code.tokens) and code.tokens[at].kind == "word":
        words.append(code.word(at))
        if code.word(at + 1) != "::" or code.word(at + 2) in ("{", "*", "<"):
            return words, at + 1
        at += 2
    return words, at


def behind_angles(code, at):
    """The token behind the `<` and `>` that open here, if they do."""
    depth = 0
    while depth or code.word(at) == "<":
        depth += {"<": 1, ">": -1}.get(code.word(at), 0)
        at += 1
    return at


def fragments(code, at):
    """The places of what stands for the fragment of a macro that stands here, or the macro's, if they can't be told."""
    around = at
    while code.around[around] is not None:
        around = code.around[around]
    macro, pattern = code.word(around - 1), code.find(around + 1, "(")
    first = pattern + 1 + 2 * code.reads(pattern + 1, "$ (")
    place, is_told = first, not any(code.reads(it, f"use {macro}") for it in range(len(code.tokens)))
    in_front = 0
    while is_told and not code.reads(place, f"$ {code.word(at + 1)} :"):
        is_fragment = code.word(place) == "$"
        is_told = place < code.closing[pattern] and (not is_fragment or code.word(place + 3) in ("ident", "literal"))
        place, in_front = place + (4 if is_fragment else 1), in_front + 1
    if not is_told:
        return [around]
    found = []
    for call in range(len(code.tokens)):
        begin = call + 3
        while code.reads(call, f"{macro} !") and begin < code.closing[call + 2]:
            found.append(begin + in_front)
            begin = code.find(begin, ";") + 1
    return found


class File:
    """A file by hand: the types that it declares, and the paths that its other names stand for."""

    def __init__(self, top, path):
        self.name, self.code = str(path.relative_to(top)), Code("", text_of(path))
        self.module = path.parent.name if path.stem in ("mod", "lib", "main") else path.stem
        self.types, self.paths = set(), collections.defaultdict(list)
        for at, token in enumerate(self.code.tokens):
            if token.text in ("struct", "enum", "union"):
                self.types.add(self.code.word(at + 1))
            elif token.text == "type" and self.code.word(self.code.find(at, "=;")) == "=":
                self.aliased(at + 1, self.code.find(at, "=") + 1)
            elif token.text == "use":
                self.imported(at + 1, [])

    def aliased(self, name, meant):
        """Notes another name of a type, or those that a macro gives."""
        names = fragments(self.code, name) if self.code.word(name) == "$" else [name]
        types = fragments(self.code, meant) if self.code.word(meant) == "$" else [meant] * len(names)
        for it, path in zip(names, types):
            self.paths[self.code.word(it)].append(path_at(self.code, path)[0])

    def imported(self, at, front):
        """Notes what the tree of an import names that stands here, and returns where it ends."""
        words, end = path_at(self.code, at)
        path = front + words
        if self.code.word(end) == "::":
            end += 1
        if self.code.word(end) == "{":
            while self.code.word(end) in ("{", ","):
                end = self.imported(end + 1, path)
            return end + 1
        path = path[:-1] if words == ["self"] else path
        if words:
            self.paths[self.code.word(end + 1) if self.code.word(end) == "as" else path[-1]].append(path)
        return self.code.find(end, ",;")


class Hand:
    """All files by hand, and the names of the types of the made text."""

    def __init__(self, top):
        self.texts = {path: text_of(path) for folder in MADE for path in sorted((top / folder).rglob("*.rs"))}
        names = r"\b(?:struct|enum|union|type|trait) (\w+)"
        self.made = {name for text in self.texts.values() for name in re.findall(names, text)}
        there = [path for folder in ROOTS for path in sorted((top / folder).rglob("*.rs"))]
        self.files = [File(top, it) for it in there if it not in self.texts]

    def declares(self, file, path, seen=()):
        """Whether the path in this file is of a type by hand, or nothing if that can't be told."""
        if MODULES & set(path):
            return False
        if (file.name, path) in seen:
            return None
        seen = (*seen, (file.name, path))
        if path[0] in file.paths:
            answers = [self.declares(file, it + path[1:], seen) for it in file.paths[path[0]]]
        elif len(path) == 1:
            return path[0] in file.types or None
        else:
            modules = ["src"] if path[:-1] == ["crate"] else path[:-1]
            answers = [self.declares(it, path[-1:], seen) for it in self.files if it.module in modules]
        answers = [it for it in answers if it is not None]
        return all(answers) if answers else None

    def is_by_hand(self, file, path):
        """Whether a type is by hand. What can't be told is told by the name."""
        found = self.declares(file, path)
        return found or path[-1] not in self.made and found is None


def methods_of(hand):
    """Each `impl` by hand that isn't of a trait: its file, its place, those of its types, and what names it gives."""
    for file in hand.files:
        code = file.code
        for at, token in enumerate(code.tokens):
            begins = code.word(at - 1) in ("", "}", ";", "]", "{", "unsafe") or code.reads(at - 2, "$ (")
            if token.text != "impl" or not begins:
                continue
            first, end = behind_angles(code, at + 1), code.find(at + 1, "{")
            depths = [0]
            for it in range(first, end):
                depths.append(depths[-1] + {"<": 1, ">": -1}.get(code.word(it), 0))
            if any(code.word(it) == "for" and not depth for it, depth in zip(range(first, end), depths)):
                continue
            items = [it for it in range(end, code.closing[end]) if code.around[it] == end
                     and (code.word(it) == "fn" or code.word(it) == "const" and code.word(it + 1) != "fn")]
            of_macro = code.word(first) == "$" and code.word(first + 1) != "crate"
            places = fragments(code, first) if of_macro else [first]
            yield file, at, places, {code.word(it + 1) for it in items}


def messages(top):
    """A message about each thing by hand that changes what the made text means."""
    hand = Hand(top)
    for file, at, places, names in methods_of(hand):
        for place in places:
            path, _ = path_at(file.code, place)
            is_apart = path and names and names <= APART.get(path[-1], set())
            if not path or not is_apart and not hand.is_by_hand(file, path):
                yield (f"{top}/{file.name}: line {file.code.line(at)} gives methods to "
                       f"{'::'.join(path) or 'what can not be told'}, which is of the made text")
    apart = set().union(*APART.values())
    for path, text in hand.texts.items():
        for trait in re.findall(r"^(?:pub(?:\(crate\))? )?trait .*?(?:\}$|^\})", text, re.M | re.S):
            yield from (f"{path} has a trait with {it}, which APART has"
                        for it in re.findall(r"\b(?:fn|const) (\w+)", trait) if it in apart)
    for file in hand.files:
        words = [it.text for it in file.code.tokens]
        last = max((at for at in range(len(words)) if words[at] == "mod" and words[at + 1] in MODULES), default=0)
        for word, reach in (("macro_use", len(words)), ("macro_rules", last)):
            if word in words[:reach]:
                yield f"{top}/{file.name} has {word} in the reach of the made text"


def main():
    top = pathlib.Path(sys.argv[1]) if sys.argv[1:] else TOP / "rust"
    wrong = list(messages(top))
    print("\n".join(wrong) or "by_hand: no method or macro by hand stands in front of one that the made text calls")
    sys.exit(bool(wrong))


if __name__ == "__main__":
    main()
