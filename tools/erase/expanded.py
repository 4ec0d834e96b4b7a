#!/usr/bin/env python3
"""expanded.py FILE: whether what `sequence!` makes is what is proved of the same types in crates/.

FILE is rust/tests/proved_records.rs as rustc expands it. Of each record of CRATES the struct and the impls that read and
write its row are compared, token by token, with the source, which compare.py reads without what is there for the proof.
So is `True`, which rust/src/default.rs has by hand.

No paths, attributes and commas in front of a closing bracket are compared, and no name of a type parameter of a call. In
the source a row may have its end in a `let`, and an OPTIONAL part that is made by an `if`: both are put in one expression
first.
"""
import pathlib
import re
import sys

sys.dont_write_bytecode = True
from compare import TOP, Source, words_of  # noqa: E402

CRATES = ["examples", "spki_keys", "pkcs1"]
# What the macro can't say of a record, by its name.
LEFT_OUT = {"ImplicitPair": "its tag is another one than that of SEQUENCE",
            "AuthorityKeyIdentifier": "its context tags have names, which in sequence! are numbers"}
TRAITS = ["TaggedBy", "Record", "EncodeInParts"]
BY_HAND = ["Contents", "TaggedBy", "DecodeValue", "EncodeValue", "OneContents"]
# What begins a path, or goes on in one.
PATHS = ["pkcs1_proved", "core", "std", "crate", "kernel", "option"]
OPEN, CLOSE = ("(", "[", "{"), (")", "]", "}")


def erased(path):
    """The tokens of a source without what is there for the proof."""
    source, at, found = Source(path.parts[-3], path.read_text(encoding="utf-8")), 0, []
    while at < len(source.words):
        kind, count, put = source.formed(at) or ("kept", 1, [source[at]])
        found, at = found + put, at + count
    return found


def after(words, at):
    """The place after the bracket that opens here."""
    depth = 0
    while True:
        depth += (words[at] in OPEN) - (words[at] in CLOSE)
        at += 1
        if not depth:
            return at


def plain(words):
    """The tokens without attributes, paths, and commas in front of a closing bracket."""
    found, at = [], 0
    while at < len(words):
        if words[at] == "#" and words[at + 1] in ("[", "!"):
            at = after(words, words.index("[", at))
            continue
        if words[at] == "::" and words[at + 1] in PATHS and words[at + 2] == "::":
            at += 1
        while words[at] in PATHS and words[at + 1] == "::":
            at += 2
        if words[at] != "," or words[at + 1] not in (*CLOSE, ">"):
            found.append("O" if words[at] == "__Operation" else words[at])
        at += 1
    return found


def items(words):
    """Each struct, function and impl of the file, by its words in front of the first brace or bracket of its text."""
    at, found = 0, {}
    while at < len(words):
        begin = at
        while words[at] not in ("{", ";", "("):
            at += 1
        head = words[begin:at]
        while words[at] not in ("{", ";"):
            at = after(words, at) if words[at] in OPEN else at + 1
        at = after(words, at) if words[at] == "{" else at + 1
        found[" ".join(head)] = words[begin:at]
    return found


def named(found, of, name):
    """The item whose head has this in front of this name, or nothing."""
    return next((it for head, it in found.items() if re.search(rf"(^| ){of} {name}( |$)", head)), None)


def in_one(words):
    """The tokens of an impl, with the `let` of an end of a row, and an `if` around an OPTIONAL part, in one expression."""
    text = " ".join(words)
    bound = re.search(r"\{ let (\w+) = ((?:(?! ; ).)*) ; (.*)", text)
    while bound and bound[1] in bound[3].split() and "row" not in bound[2].split():
        text = text[:bound.start()] + "{ " + re.sub(rf"(?<![\w.] ){bound[1]}\b(?! :)", lambda _: bound[2], bound[3])
        bound = re.search(r"\{ let (\w+) = ((?:(?! ; ).)*) ; (.*)", text)
    chosen = re.search(r"if (self \. \w+) \{ (.*?) \} else \{ (.*?) \} \}", text)
    if chosen:
        one, other = (re.sub(r"Some \( (\w+) \)|None :: < (\w+) >", r"\1\2", it) for it in chosen.groups()[1:])
        if one == other and "Some (" in chosen[2] and "None ::" in chosen[3]:
            said = re.sub(r"Some \( (\w+) \)", rf"{chosen[1]} . then_some ( \1 )", chosen[2])
            text = text[:chosen.start()] + said + " }" + text[chosen.end():]
    return text.split()


def differ(what, one, other):
    """A message if both aren't the same tokens."""
    if one == other:
        return []
    if one is None or other is None:
        return [f"{what} is missing where it is {'proved' if one is None else 'made'}"]
    at = next((at for at, both in enumerate(zip(one, other)) if both[0] != both[1]), min(len(one), len(other)))
    near = [" ".join(it[max(0, at - 6):at + 6]) for it in (one, other)]
    return [f"{what}: in crates/ stands\n    {near[0]}\nand sequence! makes\n    {near[1]}"]


def main():
    made = items(plain([it.text for it in words_of(pathlib.Path(sys.argv[1]).read_text(encoding="utf-8"))]))
    wrong, count = [], 0
    for path in sorted(it for crate in CRATES for it in (TOP / "crates" / crate / "src").rglob("*.rt")):
        source = items(plain(erased(path)))
        for name in (it for head in source for it in re.findall(r" Record for (\w+)", head)):
            if name in LEFT_OUT:
                continue
            count += 1
            wrong += differ(f"struct {name}", named(source, "struct", name), named(made, "struct", name))
            for trait in TRAITS:
                impls = [named(it, f"{trait} for", name) for it in (source, made)]
                wrong += differ(f"{trait} of {name}", impls[0] and in_one(impls[0]), impls[1])
        if path.name == "extension.rt":
            hand = items(plain([it.text for it in words_of((TOP / "rust/src/default.rs").read_text(encoding="utf-8"))]))
            for it in [("struct", "True"), *((f"{trait} .*for", "True") for trait in BY_HAND), ("fn", "is_true"), ("fn", "true_of")]:
                wrong += differ(" ".join(it), named(source, *it), named(hand, *it))
    print("\n".join(wrong) or f"expanded: of {count} records sequence! makes what is proved, token for token")
    sys.exit(bool(wrong) or not count)


if __name__ == "__main__":
    main()
