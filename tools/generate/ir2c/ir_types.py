"""Types of LLVM IR, and their names in C."""
import re
from dataclasses import dataclass

from reading import Refused

WIDTHS = (8, 16, 32, 64, 128)


@dataclass(frozen=True)
class Integer:
    """An unsigned number. In C it has the next width that C has, and the bits above its own are zero."""

    bits: int

    @property
    def width(self):
        """The bits of the type in C."""
        for width in WIDTHS:
            if self.bits <= width:
                return width
        raise Refused(f"not known: a number of {self.bits} bits")

    @property
    def is_part(self):
        """Whether it has so many whole octets as no number of C has."""
        return self.bits < 64 and self.bits % 8 == 0 and self.bits not in WIDTHS

    @property
    def octets(self):
        """The octets that it takes in memory."""
        if self.bits != 1 and self.bits not in WIDTHS:
            raise Refused(f"not known: a number of {self.bits} bits in memory")
        return self.width // 8

    def __str__(self):
        return "u1" if self.bits == 1 else f"u{self.width}"


@dataclass(frozen=True)
class Pointer:
    """An address of an octet."""

    octets = 8

    def __str__(self):
        return "P"


class Unstored:
    """A type that isn't read or written as a whole, nor counted in memory."""

    @property
    def octets(self):
        """The octets that it takes in memory."""
        raise Refused(f"not known: {self} in memory")


@dataclass(frozen=True)
class Void(Unstored):
    """No value."""

    def __str__(self):
        return "void"


@dataclass(frozen=True)
class Struct(Unstored):
    """Values side by side, as a call returns them."""

    fields: tuple

    @property
    def name(self):
        """The name by which C calls it, and what reads and writes it."""
        return "_".join(["s", *map(str, self.fields)])

    def __str__(self):
        return f"struct {self.name}"


@dataclass(frozen=True)
class Array:
    """Values of one type in a row, in memory."""

    count: int
    element: object

    @property
    def octets(self):
        """The octets that it takes in memory."""
        return self.count * self.element.octets


# The types that the module has given names, and the octets that each takes in memory.
NAMED = {}


@dataclass(frozen=True)
class Named:
    """A struct with a name, which is only counted."""

    octets: int


def octets_in_struct(type_):
    """The octets that a struct takes whose fields are all words, or such structs."""
    if isinstance(type_, Struct):
        return sum(map(octets_in_struct, type_.fields))
    if type_.octets != 8:
        raise Refused(f"not known: {type_} in a struct with a name")
    return 8


def name_type(line):
    """Takes the definition of a type with a name."""
    name = line.take()
    line.expect("=", "type")
    NAMED[name] = Named(octets_in_struct(type_of(line)))
    line.end()


def type_of(line):
    """Takes a type."""
    token = line.take()
    if token in NAMED:
        return NAMED[token]
    if re.fullmatch(r"i[1-9]\d*", token):
        return Integer(int(token[1:]))
    if token == "ptr":
        return Pointer()
    if token == "void":
        return Void()
    if token == "[":
        count = line.number()
        line.expect("x")
        made = Array(count, type_of(line))
        line.expect("]")
        return made
    if token == "{":
        fields = [type_of(line)]
        while line.accept(","):
            fields.append(type_of(line))
        line.expect("}")
        return Struct(tuple(fields))
    line.at -= 1
    raise line.refused()
