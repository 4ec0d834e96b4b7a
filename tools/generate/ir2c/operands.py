"""Operands of instructions: a function for each kind, which gives C's expression."""
import re

from reading import Refused
from ir_types import Integer, Pointer
from rust_names import told

EXTERNAL = re.compile(r"@pkcs1_c_(\w+)")


class Names:
    """Names in C for those of the module or of a function, each another one."""

    def __init__(self, prefix):
        self.prefix = prefix
        self.names, self.used = {}, set()

    def __getitem__(self, name):
        if name not in self.names:
            plain = re.sub(r"_R\w+", lambda it: "_" + told(it[0]), name[1:])
            plain = self.prefix + re.sub(r"[^A-Za-z0-9]+", "_", plain).strip("_")[:50]
            made, count = plain, 1
            while made in self.used:
                count += 1
                made = f"{plain}__{count}"
            self.used.add(made)
            self.names[name] = made
        return self.names[name]


class Globals(Names):
    """Names of functions and constants. Those that others call BORDER.c gives to them."""

    def __getitem__(self, name):
        external = EXTERNAL.fullmatch(name)
        return f"proved_{external[1]}" if external else super().__getitem__(name)


def of_register(token, _type, scope):
    """The value of an instruction or a parameter."""
    scope.read.add(token)
    return scope.registers[token]


def of_global(token, type_, scope):
    """The address of a constant or a function."""
    if not isinstance(type_, Pointer):
        raise Refused(f"not known: the address {token} as another value")
    return f"AT({scope.module.names[token]})"


def of_number(token, type_, _scope):
    """A number, taken to the bits of its type."""
    if not isinstance(type_, Integer):
        raise Refused(f"not known: the number {token} as another value")
    value = int(token) & ((1 << type_.bits) - 1)
    if value >> 64:
        return f"((u128){value >> 64}ull << 64 | {value & ((1 << 64) - 1)}ull)"
    return f"{value}u" if value < 1 << 31 else f"{value}ull"


def of_nothing(_token, type_, _scope):
    """A value that isn't looked at, or whose octets are zero."""
    if not isinstance(type_, (Integer, Pointer)):
        raise Refused("not known: a whole value that isn't looked at")
    return "(P)0" if isinstance(type_, Pointer) else "0u"


def of_address(line, scope):
    """The address of a constant as a number, in an operand's brackets."""
    line.expect("(", "ptr")
    value = of_global(line.take(), Pointer(), scope)
    line.expect("to", "i64", ")")
    return f"(u64){value}"


def of_part(line, scope):
    """The address of a part of a constant, in an operand's brackets."""
    line.skip_flags({"inbounds", "nuw", "nusw"})
    line.expect("(", "i8", ",", "ptr")
    value = of_global(line.take(), Pointer(), scope)
    line.expect(",", "i64")
    offset = line.number()
    line.expect(")")
    return f"({value} + {offset})"


def of_sum(sign):
    """A number made of an address, in an operand's brackets."""

    def made(line, scope):
        line.skip_flags({"nuw", "nsw"})
        line.expect("(", "i64")
        left = operand(line, Integer(64), scope)
        line.expect(",", "i64")
        right = operand(line, Integer(64), scope)
        line.expect(")")
        return f"({left} {sign} {right})"

    return made


EXPRESSIONS = {
    "add": of_sum("+"), "sub": of_sum("-"), "xor": of_sum("^"),
    "ptrtoint": of_address, "getelementptr": of_part,
}
WORDS = {
    "true": lambda *_: "1u",
    "false": lambda *_: "0u",
    "null": of_nothing,
    "poison": of_nothing,
    "undef": of_nothing,
    "zeroinitializer": of_nothing,
}


def operand(line, type_, scope):
    """Takes an operand of this type, and gives its expression in C."""
    token = line.take()
    if token[0] == "%":
        return of_register(token, type_, scope)
    if token[0] == "@":
        return of_global(token, type_, scope)
    if re.fullmatch(r"-?\d+", token):
        return of_number(token, type_, scope)
    if token in WORDS:
        return WORDS[token](token, type_, scope)
    if token in EXPRESSIONS:
        return EXPRESSIONS[token](line, scope)
    line.at -= 1
    raise line.refused()
