"""Calls, and those of LLVM's own functions, which C says in other words."""
import re

from ir_types import Integer, Struct, Void, type_of
from operands import operand
from reading import Refused
from rust_names import is_of_core

# What is said of parameters and functions besides their types; a call means the same without it.
ATTRIBUTES = {
    "noundef", "zeroext", "signext", "nonnull", "noalias", "captures", "readonly", "readnone", "writeonly", "nocapture",
    "nofree", "returned", "immarg", "range", "initializes", "dead_on_unwind", "writable", "dereferenceable",
    "dereferenceable_or_null", "dead_on_return",
}


def attributes(line):
    """Takes what is said of a parameter."""
    line.skip(ATTRIBUTES)
    while line.accept("align"):
        line.number()
        line.skip(ATTRIBUTES)


def arguments(line, scope):
    """Takes the arguments of a call in brackets: their types and expressions."""
    line.expect("(")
    made = []
    while not line.accept(")"):
        type_ = type_of(line)
        attributes(line)
        made.append((type_, operand(line, type_, scope)))
        if line.peek() != ")":
            line.expect(",")
    return made


def of_memory(name):
    """A call that fills or copies octets, of which there may be none. The last word says whether it is volatile."""

    def made(given):
        if given[3][1] != "0u":
            raise Refused(f"not known: a volatile {name}")
        return Void(), f"{name}({given[0][1]}, {given[1][1]}, {given[2][1]})"

    return made


def of_nothing(_given):
    """A call that does nothing."""
    return Void(), ""


def of_trap(_given):
    """A call that ends the program."""
    return Void(), "TRAP()"


def of_two(form):
    """A call of two numbers a and b, of which C has none."""
    return lambda given: (given[0][0], form.format(a=given[0][1], b=given[1][1]))


def of_order(given):
    """A call that turns the order of a number's octets."""
    type_, value = given[0]
    if type_.bits not in (16, 32, 64):
        raise Refused(f"not known: a number of {type_.bits} bits turned")
    return type_, f"TURNED({type_.bits}, {value})"


def of_zeros(given):
    """A call that counts the zero bits in front of a number."""
    type_, value = given[0]
    if type_.bits not in (8, 16, 32, 64):
        raise Refused(f"not known: the zero bits of a number of {type_.bits} bits")
    return type_, f"ZEROS({type_.bits}, {value})"


def summed(given):
    """The type of two numbers of which C has the sum."""
    type_ = given[0][0]
    if type_.bits not in (32, 64):
        raise Refused(f"not known: the sum of numbers of {type_.bits} bits")
    return type_


def of_capped(given):
    """A call that gives the sum of two numbers, or the greatest number if it is one of more bits."""
    a, b = given[0][1], given[1][1]
    return summed(given), f"{a} + ({b} < ~{a} ? {b} : ~{a})"


def of_overflow(given):
    """A call that gives the sum of two numbers, and whether it is one of more bits."""
    type_ = summed(given)
    return Struct((type_, Integer(1))), f"sum_{type_}({given[0][1]}, {given[1][1]})"


INTRINSICS = {
    "memcpy": of_memory("copy"), "memmove": of_memory("move"), "memset": of_memory("fill"),
    "lifetime.start": of_nothing, "lifetime.end": of_nothing, "trap": of_trap,
    "umin": of_two("{a} < {b} ? {a} : {b}"), "umax": of_two("{a} > {b} ? {a} : {b}"),
    "usub.sat": of_two("{a} > {b} ? {a} - {b} : 0u"), "bswap": of_order, "ctlz": of_zeros,
    "uadd.sat": of_capped, "uadd.with.overflow": of_overflow,
    "assume": None, "experimental.noalias.scope.decl": None,  # what holds may be left unsaid
}


# Functions that the C has otherwise. memcmp isn't one: its sign counts, and that of `unlike` doesn't.
WORDS = {"@bcmp": "unlike"}


def intrinsic(line, result, name, scope):
    """A call of an LLVM function, whose name ends with its types."""
    parts = name.split(".")[1:]
    while re.fullmatch(r"p0|i\d+", parts[-1]):
        parts.pop()
    if ".".join(parts) not in INTRINSICS:
        raise line.refused()
    made = INTRINSICS[".".join(parts)]
    if made is None:
        line.at = len(line.tokens)
        return
    line.take()
    type_, expression = made(arguments(line, scope))
    if isinstance(type_, Void) != (result is None):
        raise line.refused()
    if result is None:
        scope.say(f"{expression};" if expression else "")
    elif isinstance(type_, Struct):
        scope.module.sums.add(type_)
        scope.let(result, type_, expression)
    elif isinstance(type_, Integer) and type_.bits == type_.width:
        scope.let(result, type_, expression)
    else:
        raise line.refused()


def call(line, result, scope):
    """A call of a function by its name."""
    line.accept("fastcc")
    attributes(line)
    type_ = type_of(line)
    if line.peek()[:1] != "@":
        raise line.refused()
    name = line.peek()
    if name.startswith("@llvm."):
        intrinsic(line, result, name, scope)
    else:
        line.take()
        given = arguments(line, scope)
        made = f"{WORDS.get(name) or scope.module.names[name]}({', '.join(it for _, it in given)})"
        if is_of_core(name[1:]):  # of which none comes back
            type_, made = Void(), "TRAP()"
        if result is None or isinstance(type_, Void):
            scope.say(f"{made};")
        else:
            scope.let(result, type_, made)
    if line.peek()[:1] == "#":
        line.take()
