#!/usr/bin/env python3
"""preconditions.py [CRATE]: who reaches a function with a `requires` in rust/, or in this crate. Rust checks none.

From outside none may be reached. The text that is made of crates/ stands in a private module, so reached are: what a
`pub use` names, methods of types, and methods of a trait that is named, or that is above one.

src/kernel.rs is public and names some of these traits, as the text that `sequence!` makes implements them. Of their
calls only those may be there that take a writer or an operation: no type of these has a name outside.

Each call of one by hand must stand in MET, with what meets the `requires` there, or in HANDED_ON.
"""
import pathlib
import re
import sys
from typing import NamedTuple

TOP = pathlib.Path(__file__).resolve().parents[1]
sys.dont_write_bytecode = True
sys.path.insert(0, str(TOP / "tools/erase"))
from erase import FOLDERS, Code  # noqa: E402
from forms import CALLS, LIBRARY, TOOL, has_requires, method_with_requires  # noqa: E402


class Met(NamedTuple):
    """A call by hand of a function with a `requires`: what stands above it in its function, or nothing, and why that
    is enough."""

    file: str
    call: str
    above: str
    why: str


MET = [
    Met("src/conversions.rs", "Length::of(self.as_bytes().len())", "", "no number has more bytes than `Length::MAX`"),
    Met("src/der.rs", "message.prepend(&mut proved::BackWriter::new(encoding.as_mut_slice()));",
        "let length = message.encoded_len()?.to_usize();\n    let mut encoding = Vec::repeated(Global, 0, length)?;",
        "the room is as long as the encoding"),
    Met("src/identifier.rs", "proved::IdentifierView::over(self.as_bytes())", "",
        "an `ObjectIdentifier` is made of a text that is one, or of an identifier that was read"),
    Met("src/idioms.rs", "else { Ok(TagNumber::new(number)) }", "if number > 30 {", "the number is at most 30"),
]
MET += [Met(file, "(&view).encode_spelling(mask, out)", "if mask >> view.default_fields() != 0 {",
            "the mask is below two to the number of defaults") for file in ("src/oaep.rs", "src/pss.rs")]

# What writes, and what is done to a row: a call that takes one can't be called without one.
HANDLES = {"Prepend", "Writer", "RowOperation"}
# Impls by hand of the traits of reading and writing, by the file: in each function, the functions of parts that it
# calls. What is required of these is what is required of it: contents within the limit, a value that has an encoding, and
# room for it.
HANDED_ON = {
    "src/default.rs": {"prepend_value": {"prepend"}},
    "src/kernel.rs": {"prepend_value": {"prepend_value"}, "append_value": {"append_value"}},
    "src/list.rs": {"read_value": {"read_value", "read_one"}, "prepend_value": {"prepend"}, "prepend_all": {"prepend"},
                    "append_all": {"append"}},
    "src/part.rs": {"read_value": {"read_value"}, "prepend_value": {"prepend_value"}, "append_value": {"append_value"},
                    "read_one": {"read_one"}, "prepend": {"prepend"}, "append": {"append"}},
    "src/sequence.rs": {"with_row": {"apply"}},
}


class Function(NamedTuple):
    """A function with a `requires`, of a trait, of a type or of neither."""

    name: str
    trait: str
    type: str
    takes_self: bool
    is_reached: bool  # from outside, if what it is of is named there
    handle: str  # the trait of what it takes, of HANDLES, or nothing


def stands_in(code, at):
    """The first words of the impl or trait around a function, or none."""
    around = code.around[at]
    if around is None:
        return []
    begin = around
    while begin > 0 and code.word(begin - 1) not in ("}", ";", "]"):
        begin -= 1
    return [it.text for it in code.tokens[begin:around] if it.text not in ("pub", "(", "crate", ")")]


def type_of(head):
    """The type of an `impl` with this head."""
    at, depth = 1, 0
    while depth or head[at] == "<":
        depth += {"<": 1, ">": -1}.get(head[at], 0)
        at += 1
    while head[at + 1:at + 2] == ["::"]:
        at += 2
    return head[at]


def with_requires():
    """Each function with a `requires` that others can name."""
    crates = [TOP / "crates" / crate / "src" for crate in LIBRARY + TOOL + CALLS]
    for path in (it for crate in crates for it in sorted(crate.rglob("*.rt"))):
        text = path.read_text(encoding="utf-8")
        if "requires" not in text:
            continue
        code = Code(path.parts[path.parts.index("crates") + 1], text)
        for at in range(len(code.tokens)):
            if code.word(at - 1) != "fn" or not has_requires(code, at):
                continue
            public = at - 2 - (code.word(at - 2) in ("final", "const"))
            head = stands_in(code, at)
            trait = head[head.index("trait") + 1] if "trait" in head else ""
            first = code.find(at, "(") + 1
            takes_self = any(code.reads(first, it) for it in ("self", "& self", "& mut self"))
            is_public = code.word(public) == "pub"
            is_reached = trait or is_public and not method_with_requires(code, public)
            bounds = {code.word(it) for it in range(at, first)} | {trait}
            if trait or is_public or code.reads(public - 3, "pub ( crate )"):
                yield Function(code.word(at), trait, "" if trait or not head else type_of(head), takes_self,
                               bool(is_reached) and code.crate in LIBRARY, "".join(sorted(bounds & HANDLES)[:1]))


def code_of(path):
    """The text of a file without its comments."""
    return re.sub(r"//[^\n]*", "", path.read_text(encoding="utf-8"))


def named(crate):
    """The words of each `pub use` of the files by hand, those of kernel.rs, and why these files don't keep the made
    text in."""
    texts = {path: code_of(path) for path in sorted((crate / "src").glob("*.rs"))}
    words, of_kernel, wrong = set(), set(), []
    for path, text in texts.items():
        for use in re.findall(r"pub use (?!algorithms::\*)([^;]*);", text):
            found = of_kernel if path.name == "kernel.rs" else words
            found |= set(re.findall(r"\w+|\*", use))
        wrong += [f"{path}: {it} can be reached" for it in re.findall(r"pub mod (?:proved|rattle_std)\b", text)]
        above = re.findall(r"pub trait [^:{]*:([^{]*)\{", text)
        wrong += [f"{path}: a trait is below {it}" for it in above if it.strip() not in ("Sized", "Sealed", "Sealed + Sized")]
    return words, of_kernel, wrong + (["a `pub use` names all of a module"] if "*" in words | of_kernel else [])


def handles(crate, words):
    """The words that name a trait of what writes, or a type of one of HANDLES."""
    text = "\n".join(code_of(it) for it in sorted((crate / "src").rglob("*.rs")))
    types = set(re.findall(rf"\b(?:{'|'.join(HANDLES)})\b(?:<[^{{;]*>)? for (\w+)", text))
    return words & (types | HANDLES - {"RowOperation"})


def owner(code, at):
    """The words in front of the `::` in front of a token: a type, or what stands between `<` and `>`."""
    end = at - 2
    if code.word(end) != ">":
        return {code.word(end)} | ({"$"} if code.word(end - 1) == "$" else set())
    begin, depth = end - 1, 1
    while depth and begin > 0:
        depth += {">": 1, "<": -1}.get(code.word(begin), 0)
        begin -= 1
    if code.word(begin) == "::" or code.tokens[begin].kind == "word":
        return {code.word(begin - (code.word(begin) == "::"))}
    return {it.text for it in code.tokens[begin:end]}


def aliases(text, name):
    """The names that a text gives to a type besides."""
    return set(re.findall(rf"\b{name} as (\w+)", text)) | set(re.findall(rf"\btype (\w+)[^;=]*=[^;]*\b{name}\b", text))


def stands_in_use(code, at):
    """Whether an import stands here."""
    while at >= 0 and code.word(at) not in (";", "use"):
        at -= 1
    return code.word(at) == "use"


def is_named(code, at, function, names):
    """Whether a token by hand that has the name of a function may be it. The names are those of its type."""
    before = code.word(at - 1)
    if before == "fn":
        return False
    if function.trait:
        return before in (".", "::") and bool(re.search(rf"\b{function.trait}\b|\bproved\b[^;]*::\*", code.text))
    if not function.type:
        return before == "::" or before != "." and (code.word(at + 1) in ("(", "::") or stands_in_use(code, at))
    if function.takes_self:
        return before in (".", "::")
    if before != "::" or f"struct {function.type}" in code.text and code.word(at - 3) != "::":
        return False
    return bool(owner(code, at) & (names | aliases(code.text, function.type) | {"$"}))


def met(file, code, at):
    """What meets the `requires` of the call at a token, or nothing."""
    begin = code.tokens[at].begin
    above = code.text[code.text.rfind("fn ", 0, begin):begin]
    function, call = re.match(r"fn (\w*)|", above)[1], code.word(at)
    if call in HANDED_ON.get(file, {}).get(function, ()):
        return file, function, call
    for it in MET:
        starts = [found.start() for found in re.finditer(re.escape(it.call), code.text)]
        if it.file == file and it.above in above and any(start <= begin < start + len(it.call) for start in starts):
            return it
    return None


def by_hand(crate):
    """The files by hand beside what is made, of the crate, of the calls for C and of the tool."""
    made = [crate / folder.removeprefix("rust/") for folder in FOLDERS]
    for path in (it for folder in ("src", "c/src", "tool/src") for it in sorted((crate / folder).rglob("*.rs"))):
        if not any(path.is_relative_to(folder) for folder in made):
            yield path


def unmet(crate, functions):
    """Each call by hand that MET doesn't have, and each of MET that isn't one call."""
    text = "\n".join(code_of(it) for folder in FOLDERS for it in sorted((TOP / folder).rglob("*.rs")))
    names = {it: {it, "Self"} | aliases(text, it) for it in {it.type for it in functions if not it.takes_self} - {""}}
    found = []
    for path in by_hand(crate):
        code = Code("", code_of(path))
        for at, token in enumerate(code.tokens):
            if any(it.name == token.text and is_named(code, at, it, names.get(it.type)) for it in functions):
                found.append(met(str(path.relative_to(crate)), code, at))
                if not found[-1]:
                    line = f"{path}: line {code.line(at)}"
                    yield f"{line} calls {token.text}, which has a `requires`, and MET has no such call"
    for it in MET:
        if found.count(it) != 1:
            yield f"MET has {it.call} of {it.file}, which is {found.count(it)} calls"
    for it in ((file, *it) for file, functions in HANDED_ON.items() for it in functions.items()):
        yield from (f"HANDED_ON has {call} in {it[1]} of {it[0]}, which calls no such function" for call in sorted(it[2])
                    if (*it[:2], call) not in found)


def main():
    crate = pathlib.Path(sys.argv[1]) if sys.argv[1:] else TOP / "rust"
    words, of_kernel, wrong = named(crate)
    functions = [*with_requires()]
    reached = [it for it in functions if it.is_reached]
    wrong += [f"{it.name} has a `requires`, and can be reached" for it in reached
              if it.type or (it.trait or it.name) in (words if it.handle else words | of_kernel)]
    wrong += [f"{it} is named, and writes" for it in sorted(handles(crate, words | of_kernel))]
    wrong += unmet(crate, functions)
    print("\n".join(wrong) or f"preconditions: of {len(reached)} functions with a `requires` that are public or of a "
          f"trait, none can be reached from outside. {len(MET)} calls by hand meet what is required, and "
          f"{sum(len(it) for functions in HANDED_ON.values() for it in functions.values())} kinds of them hand it on")
    sys.exit(bool(wrong))


if __name__ == "__main__":
    main()
