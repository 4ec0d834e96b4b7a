"""What differs between Rattle and Rust, form by form: each is deleted, or replaced by what stands here.

A form is a function of the code and of a place in it. It gives an edit if it stands there, and else nothing. Its first
sentence stands in README.md too.
"""
import re

from calls import body_of_call, slice_of_call
from tokens import Edit, Refused

LIBRARY = ("der_core", "spki_core", "pkcs1_params", "pkcs1", "pkcs8_core")
TOOL = ("pkcs1_program", "pkcs1_tool")
CALLS = ("pkcs1_c",)
PROGRAMS = ("examples", "pkcs1_vectors")
# Where a path begins that the crate has elsewhere.
MOVED = {it: f"crate::{place}::{it}" for place, crates in (("proved", LIBRARY), ("tool", TOOL), ("calls", CALLS), ("programs", PROGRAMS))
         for it in crates} \
    | {"std": "crate::rattle_std", "arrayvec": "crate::rattle_std::arrayvec", "hex": "crate::rattle_std::hex"}
# Methods of public types that ask for or give what the crate doesn't make public, such as a Reader or an ArrayVec, or
# for which it has others.
INSIDE = ("decode", "to_bytes", "as_key_ref", "encode_key", "null", "is_alone")
# What a handle of memory is called, and the types of numbers.
HANDLES = ("alloc", "memory")
NUMBERS = ("Uint", "UintRef")
PRELUDE = ("Vec", "String", "ToString", "HostRuntime", "Eprint")
PRELUDE_MACROS = ("vec", "format", "println", "eprintln", "assert", "assert_eq", "assert_ne")
UNKNOWN = ("prove", "prove_eq", "prove_ne", "ghost", "requires", "ensures", "invariant", "decreases", "Drop",
           "derive_where")


def above_docs(text, begin):
    """Where the doc comments begin that stand above the line that begins here."""
    while begin > 0:
        above = text.rfind("\n", 0, begin - 1) + 1
        if not text[above:begin].lstrip().startswith("///"):
            break
        begin = above
    return begin


def lines_of(code, first, last, documented=True):
    """An edit that deletes whole lines, with the doc comments above if they are of what is deleted."""
    begin = code.text.rfind("\n", 0, code.tokens[first].begin) + 1
    end = code.text.find("\n", code.tokens[last].end) + 1
    if code.text[begin:code.tokens[first].begin].strip() or code.text[code.tokens[last].end:end].strip():
        raise Refused(f"line {code.line(first)}: what is deleted doesn't stand on lines of its own")
    return Edit(above_docs(code.text, begin) if documented else begin, end)


def behind_visibility(code, at):
    """The token behind `pub` or `pub(crate)`, if one stands here."""
    if code.reads(at, "pub ( crate )"):
        return at + 4
    return at + 1 if code.word(at) == "pub" else at


def ghost_item(code, at):
    """A ghost import, member or field, with its doc comment, is deleted."""
    if code.word(behind_visibility(code, at)) != "ghost":
        return None
    end = code.find(at, ";,")
    return lines_of(code, at, end if code.word(end) in ";," else end - 1)


def clauses(code, at):
    """A `requires` or `ensures` is deleted, and so are those behind it."""
    end = at
    while code.clause_end(end) != end:
        end = code.clause_end(end)
    if end == at:
        return None
    if code.word(end) not in ("{", ";"):
        raise Refused(f"line {code.line(at)}: neither a body nor a semicolon follows a clause")
    space = code.text[code.tokens[end - 1].end:code.tokens[end].begin]
    kept = "" if code.word(end) == ";" else space if code.word(at - 1) == "," else " "
    return Edit(code.tokens[at - 1].end, code.tokens[end].begin, kept)


def tactic(code, at):
    """The attribute `tactic` is deleted."""
    bracket = at + 1 + (code.word(at + 1) == "!")
    if code.word(at) == "#" and code.reads(bracket, "[ tactic ("):
        return lines_of(code, at, code.closing[bracket], documented=False)
    return None


def derived(code, at):
    """In a list of derived traits `Drop` is deleted; in the library `Hash` follows `Eq`, and of `Uint` and `UintRef`
    `Debug` is deleted."""
    if not code.reads(at, "# [ derive ("):
        return None
    end = code.closing[at + 3]
    names = [it.text for it in code.tokens[at + 4:end] if it.text != ","]
    gone = ("Drop", "Debug") if code.crate in LIBRARY and code.word(end + 4) in NUMBERS else ("Drop",)
    more = {"Eq": ["Eq", "Hash"]} if code.crate in LIBRARY else {}
    kept = [it for name in names if name not in gone for it in more.get(name, [name])]
    if names == ["Drop"]:
        return lines_of(code, at, end + 1, documented=False)
    return Edit(code.tokens[at + 3].end, code.tokens[end].begin, ", ".join(kept)) if kept != names else None


def bound_of_drop(code, at):
    """`Drop` as a bound is deleted."""
    if code.reads(at, "+ Drop"):
        return Edit(code.tokens[at - 1].end, code.tokens[at + 1].end)
    if code.reads(at, "Drop +"):
        return Edit(code.tokens[at].begin, code.tokens[at + 2].begin)
    if code.reads(at, ": Drop") and code.word(at + 2) != "+":
        return Edit(code.tokens[at].begin, code.tokens[at + 1].end)
    return None


def final(code, at):
    """`final` in front of a function is deleted."""
    if code.reads(at, "final fn") or code.reads(at, "final const fn"):
        return Edit(code.tokens[at].begin, code.tokens[at + 1].begin)
    return None


def clone_that_may_fail(code, at):
    """An `impl Clone` by hand, whose `clone` returns a `Result`, is deleted."""
    if code.word(at) != "impl":
        return None
    body = code.find(at + 1, "{")
    if "Clone" not in [a.text for a, b in zip(code.tokens[at:body], code.tokens[at + 1:body]) if b.text == "for"]:
        return None
    method = next(it for it in range(body, code.closing[body]) if code.reads(it, "fn clone"))
    if not code.reads(code.find(method + 3, ")") + 1, "-> std :: result :: Result <"):
        return None
    return lines_of(code, at, code.closing[body])


def writer_of_fmt(code, at):
    """The writer of a `fmt` isn't a parameter: `fn fmt<W: fmt::Write>` is `fn fmt`."""
    if code.word(at - 1) == "fn" and code.reads(at + 1, "< W : fmt :: Write >"):
        return Edit(code.tokens[at].end, code.tokens[at + 7].end)
    return None


def formatter(code, at):
    """`Formatter<W>` is `Formatter<'_>`."""
    if code.reads(at, "Formatter < W >"):
        return Edit(code.tokens[at].end, code.tokens[at + 3].end, "<'_>")
    return None


def path(code, at):
    """A path from a crate on begins where this crate has it, as below `crate::proved` or `crate::rattle_std`."""
    here = code.word(at)
    follows = code.word(at + 1)
    if not code.begins_path(at) or not (follows == "::" or code.word(at - 1) == "use" and follows in ("as", ";")):
        return None
    moved = MOVED.get(code.crate) if here == "crate" else MOVED.get(here)
    return Edit(code.tokens[at].begin, code.tokens[at].end, moved) if moved else None


def has_requires(code, at):
    """Whether the function whose `fn` stands here has a `requires`."""
    end = code.find(at, ("{", ";", "requires", "ensures"))
    while code.clause_end(end) != end:
        if code.word(end) == "requires":
            return True
        end = code.clause_end(end)
    return False


def method_with_requires(code, at):
    """A public method with a `requires`, which Rust doesn't check, is `pub(crate)`."""
    name = at + 2 + (code.word(at + 1) in ("const", "final"))
    if code.word(at) != "pub" or code.word(name - 1) != "fn" or code.around[at] is None:
        return None
    if not has_requires(code, name):
        return None
    return Edit(code.tokens[at].begin, code.tokens[at].end, "pub(crate)")


def call_with_handle(code, at):
    """A `new` with a handle of memory is `new_in`, as Rust's own is, and so for each `try_clone` and `decode_as`."""
    handle = at + 2 + 2 * (code.word(at + 3) == ".")
    ends = {"new": ["("] if code.word(handle) in HANDLES else [], "try_clone": ["("], "decode_as": ["(", "<", "::"]}
    if code.word(at + 1) not in ends.get(code.word(at), []):
        return None
    return Edit(code.tokens[at].begin, code.tokens[at].end, f"{code.word(at)}_in")


def method_of_the_inside(code, at):
    """A public method that asks for or gives what the crate doesn't make public, or has otherwise, is `pub(crate)`, and
    so is one with a handle of memory that is renamed."""
    name = at + 2 + (code.word(at + 1) == "const")
    if code.word(at) != "pub" or code.word(name - 1) != "fn" or code.around[at] is None:
        return None
    if code.word(name) not in INSIDE and not call_with_handle(code, name):
        return None
    return Edit(code.tokens[at].begin, code.tokens[at].end, "pub(crate)")


def method_with_result(code, at):
    """A public method of the library that gives a value, but no `Result`, and takes nothing by `&mut`, is
    `must_use`."""
    name = at + 2 + (code.word(at + 1) == "const")
    if code.word(at) != "pub" or code.word(name - 1) != "fn" or code.around[at] is None or code.crate not in LIBRARY:
        return None
    open_ = code.find(name, "(")
    given = code.closing[open_] + 1
    result = [it.text for it in code.tokens[given:code.find(given, ("{", ";", "requires", "ensures", "where", "<"))]]
    if result[:1] != ["->"] or result[-1] == "Result" or any(code.reads(it, "& mut") for it in range(open_, given)):
        return None
    margin = code.text[code.text.rfind("\n", 0, code.tokens[at].begin):code.tokens[at].begin]
    return Edit(code.tokens[at].begin, code.tokens[at].end, f"#[must_use]{margin}pub")


def field_with_invariant(code, at):
    """A public field beside a ghost field, which says what values it has, is `pub(crate)`."""
    around = code.around[at]
    if code.word(at) != "pub" or code.word(at + 2) != ":" or around is None or code.word(around) != "{":
        return None
    if not any(code.word(it) == "ghost" and code.around[it] == around for it in range(at, code.closing[around])):
        return None
    return Edit(code.tokens[at].begin, code.tokens[at].end, "pub(crate)")


def enum_of_errors(code, at):
    """The enums `Error` and `ErrorKind` are `non_exhaustive`: more may come."""
    if code.crate not in LIBRARY or not (code.reads(at, "pub enum Error {") or code.reads(at, "pub enum ErrorKind {")):
        return None
    return Edit(code.tokens[at].begin, code.tokens[at].end, "#[non_exhaustive]\npub")


def empty_slice(code, at):
    """An empty slice `&[]` is one with an address of its own, `NO_OCTETS`."""
    if code.crate not in LIBRARY + CALLS or not code.reads(at, "& [ ]"):
        return None
    return Edit(code.tokens[at].begin, code.tokens[at + 2].end, "crate::rattle_std::NO_OCTETS")


def main_of_program(code, at):
    """`main` of a program is public, so that another `main` calls it."""
    if code.reads(at, "fn main (") and code.around[at] is None and code.crate in TOOL + PROGRAMS:
        return Edit(code.tokens[at].begin, code.tokens[at].end, "pub fn")
    return None


def runtime_of_test(code, at):
    """A test makes the runtime that it is given."""
    if not code.reads(at, "( rt : HostRuntime") or not code.reads(at - 6, "# [ test ] fn"):
        return None
    end = code.closing[at]
    body = code.find(end + 1, "{")
    result = code.text[code.tokens[end].end:code.tokens[body].end]
    return Edit(code.tokens[at].begin, code.tokens[body].end, f"(){result} let rt = HostRuntime;")


def refused(code, at):
    """A word that is left of any other form stops the program."""
    if code.word(at) in UNKNOWN and code.tokens[at].kind == "word":
        around = re.sub(r"\s+", " ", code.text[code.tokens[at].begin:][:40])
        raise Refused(f"line {code.line(at)}: no form is known here: {around!r}")


FORMS = (ghost_item, clauses, tactic, derived, bound_of_drop, final, clone_that_may_fail, writer_of_fmt,
         formatter, path, method_with_requires, method_of_the_inside, method_with_result, call_with_handle,
         field_with_invariant, enum_of_errors, empty_slice, slice_of_call, body_of_call, main_of_program,
         runtime_of_test, refused)
