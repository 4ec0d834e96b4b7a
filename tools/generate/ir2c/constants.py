"""Constants: octets, and rows of numbers."""
import re

from ir_types import Array, Integer, type_of
from reading import Line, Refused

CONSTANT = re.compile(r'(@\S+|@"[^"]*") = (?:private |internal )(?:unnamed_addr )?constant (.*)$')


def octets_of(text):
    """The octets of a text in quotes, in which \\ stands before two digits."""
    made = bytearray()
    for piece in re.findall(rb"\\[0-9A-Fa-f]{2}|[^\\]", text.encode()):
        made += bytes([int(piece[1:], 16)] if len(piece) == 3 else piece)
    return made


def elements_of(line, type_):
    """Takes what the constant holds, as octets: those of a number in their order on x86-64."""
    if line.accept("zeroinitializer"):
        return bytes(type_.octets)
    if line.peek().startswith('c"'):
        return octets_of(line.take()[2:-1])
    made = bytearray()
    line.expect("[")
    while not line.accept("]"):
        if type_of(line) != type_.element:
            raise line.refused()
        made += (line.number() % (1 << type_.element.width)).to_bytes(type_.element.octets, "little")
        if line.peek() != "]":
            line.expect(",")
    return made


def constant(text, names):
    """The line of IR as a definition in C."""
    found = CONSTANT.match(text)
    if not found:
        raise Refused(f"not known: {text[:200]}")
    # A packed struct of one row is that row.
    line = Line(re.sub(r"^<\{ (\[\d+ x i8\]) \}> (?:<\{ \[\d+ x i8\] (.*) \}>|zeroinitializer)(, align \d+)?$",
                       lambda it: f"{it[1]} {it[2] or 'zeroinitializer'}{it[3] or ''}", found[2]))
    type_ = type_of(line)
    if not isinstance(type_, Array) or not isinstance(type_.element, Integer):
        raise line.refused()
    made = elements_of(line, type_)
    if len(made) != type_.octets:
        raise line.refused()
    line.end()
    values = ", ".join(map(str, made)) or "0"
    return f"static const unsigned char {names[found[1]]}[{max(len(made), 1)}] = {{{values}}};"
