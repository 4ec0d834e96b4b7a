"""Finds the functions of a source file that rt fmt has laid out: the prover's name of each, and its lines."""
import re
from typing import NamedTuple

FUNCTION = re.compile(r'( *)(?:pub(?:\([^)]*\))? )?(?:final )?(?:const )?(?:unsafe )?(?:extern "C" )?fn (\w+)')
CLAUSE = re.compile(r" *(?:requires|ensures|ghost|invariant|decreases|also_\w+)\b")
TYPE = re.compile(r"^(?:pub(?:\([^)]*\))? )?(?:struct|enum) (\w+)", re.M)
ALIAS = re.compile(r"^(?:pub(?:\([^)]*\))? )?type (\w+)", re.M)
BLOCK = re.compile(r"(?:pub(?:\([^)]*\))? )?(?:unsafe )?(impl|trait)\b")


class Function(NamedTuple):
    """A function with a body. Lines count from 1."""

    name: str  # as the prover writes it, from below the crate
    first: int  # its first attribute or line of documentation
    body: int  # the brace that opens its body
    last: int  # the brace that closes it


class Types(NamedTuple):
    """What the files of src/ declare."""

    homes: dict  # the module of each type
    aliases: set  # names that stand for types with arguments


def types_of(texts):
    """The types that files declare, by their paths."""
    homes = {it[1]: module_of(path) for path, text in texts.items() for it in TYPE.finditer(text)}
    return Types(homes, {it[1] for text in texts.values() for it in ALIAS.finditer(text)})


def module_of(path):
    return [it for it in path[len("src/") : -len(".rt")].split("/") if it not in ("lib", "main", "mod")]


def functions(path, text, types):
    """The functions with a body of the file src/.., in order. One inside another is a part of that one."""
    lines, found, owner, at = text.split("\n"), [], None, 0
    while at < len(lines):
        if BLOCK.match(lines[at]):
            owner = owner_of(head_at(lines, at), types.aliases)
        elif lines[at] == "}":
            owner = None
        head = FUNCTION.match(lines[at])
        span = head and span_of(lines, at, head[1])
        if span:
            # a method of a type stands where the type does, and one of a trait where its impl does
            home = [*types.homes.get(owner, module_of(path)), owner] if head[1] else module_of(path)
            found.append(Function("::".join([*home, head[2]]), *span))
        at = span[2] if span else at + 1
    return found


def span_of(lines, at, indent):
    """The first line, the body's first and the last of the function whose head is at `at`; None where it has no
    body."""
    body, has_clause = at, False
    while not opens_body(lines[body], indent, has_clause):
        if lines[body].endswith(";") or not lines[body].strip():
            return None
        has_clause = has_clause or bool(CLAUSE.match(lines[body]))
        body += 1
    last = body
    while not lines[body].endswith("{}") and lines[last] != indent + "}":
        last += 1
    first = at
    while lines[first - 1].startswith((indent + "#[", indent + "///")):
        first -= 1
    return first + 1, body + 1, last + 1


def opens_body(line, indent, has_clause):
    is_alone = line in (indent + "{", indent + "{}")
    return is_alone or not has_clause and not CLAUSE.match(line) and line.endswith(("{", "{}"))


def head_at(lines, at):
    """The head of the impl or trait that begins at `at`, on one line."""
    end = at
    while "{" not in lines[end]:
        end += 1
    return " ".join(lines[at : end + 1]).split("{")[0]


def owner_of(head, aliases):
    """The prover's name of an impl or a trait: `Type`, `Type+Arguments`, `TypeArgumentsTraitArguments` or `Trait`."""
    head = re.sub(r"\bwhere\b.*", "", re.sub(r".*?\b(?=impl\b|trait\b)", "", head, count=1))
    if head.startswith("trait"):
        return re.match(r"trait (\w+)", head)[1]
    rest, parameters = head[len("impl") :], set()
    if rest.startswith("<"):
        end = closing(rest)
        parameters = {re.match(r"(?:const )?(\w+)", it)[1] for it in split(rest[1:end]) if not it.startswith("'")}
        rest = rest[end + 1 :]
    parts = [it.strip() for it in re.split(r" for (?!<)", rest)]
    if len(parts) == 1:
        name = words(base(parts[0]), parameters)
        # behind an alias its parameters are arguments of the type that it stands for
        arguments = arguments_of(parts[0], set() if name in aliases else parameters)
        return "+".join([name, *arguments])
    trait, of = parts
    return (words(of, parameters) or "Any") + words(re.sub(r"^(\w+::)+", "", trait), parameters)


def words(type_, parameters):
    """A type in the prover's words: `&'a [u8]` is RefSliceU8, and `low::Error` LowError. Parameters and lifetimes are
    left out."""
    found = re.finditer(r"&\s*mut\b|&|\[|\(|(?<!')\b\w+\b", type_)
    named = {"&": "Ref", "[": "Array" if ";" in type_ else "Slice", "_": "", "dyn": ""} | dict.fromkeys(parameters, "")
    return "".join(
        "RefMut" if it[0].endswith("mut") else tuple_word(type_[it.end() :]) if it[0] == "("
        else named.get(it[0], it[0][0].upper() + it[0][1:]) for it in found)


def tuple_word(text):
    """The word of the tuple whose opening bracket stands before this text."""
    count = len(split(text[: closing("(" + text, "([<", ")]>") - 1]))
    return f"Tuple{count}" if count else "Unit"


def base(type_):
    return type_.split("<")[0]


def arguments_of(type_, parameters):
    """The arguments of a type and theirs, without lifetimes; none if they are parameters alone."""
    arguments = split(type_[len(base(type_)) :].strip()[1:-1])
    if not any(words(it, parameters) for it in arguments):
        return []
    return [word for it in arguments for word in (words(base(it), set()), *arguments_of(it, set())) if word]


def closing(text, opening="<", ending=">"):
    depth = 0
    for at, it in enumerate(text):
        depth += (it in opening) - (it in ending and text[at - 1] != "-")
        if not depth:
            return at
    return len(text)


def split(text):
    """The parts between the commas that stand in no brackets."""
    parts, depth = [""], 0
    for it in text:
        depth += (it in "<([") - (it in ">)]")
        parts = [*parts, ""] if it == "," and not depth else [*parts[:-1], parts[-1] + it]
    return [it.strip() for it in parts if it.strip()]
