"""Instructions: a table of opcodes, and a function for each kind, which takes its operands and gives C for it.

Numbers are unsigned in C too, and their bits above those of their type are zero. So a sum is cut to the type, and a
sign is told by its bit. Memory is read and written by memcpy, at any alignment. An address is a number where P is one.
"""
from calls import call
from ir_types import Integer, Pointer, Struct, type_of
from operands import operand

FLAGS = {"nuw", "nsw", "exact", "disjoint", "nneg", "samesign", "inbounds", "nusw"}
COMPARISONS = {"eq": "==", "ne": "!=", "lt": "<", "le": "<=", "gt": ">", "ge": ">="}


def cut(type_, expression):
    """The expression as a value of this type: without the bits above its own."""
    if type_.bits == type_.width:
        return f"({type_})({expression})"
    ones = f"((({type_})1 << {type_.bits}) - 1)" if type_.bits > 1 else "1"
    return f"({type_})(({expression}) & {ones})"


def integer(line):
    """Takes a type that must be a number's."""
    type_ = type_of(line)
    if not isinstance(type_, Integer):
        raise line.refused()
    return type_


def wide(type_, expression):
    """A number in which C computes without taking it for a signed one."""
    return f"({type_})({expression})" if type_.width > 32 else f"(u32)({expression})"


def arithmetic(sign):
    """An instruction of two numbers."""

    def made(line, result, scope):
        line.skip(FLAGS)
        type_ = integer(line)
        left = operand(line, type_, scope)
        line.expect(",")
        right = operand(line, type_, scope)
        if sign in ("<<", ">>"):
            right = f"({right} & {max(type_.width, 32) - 1})"
        scope.let(result, type_, cut(type_, f"{wide(type_, left)} {sign} {wide(type_, right)}"))

    return made


def compare(line, result, scope):
    """icmp. Signed numbers are in order if their sign bits are turned."""
    line.skip(FLAGS)
    predicate = line.take()
    sign = COMPARISONS.get(predicate.lstrip("us"))
    if not sign:
        raise line.refused()
    type_ = type_of(line)
    left = operand(line, type_, scope)
    line.expect(",")
    right = operand(line, type_, scope)
    if isinstance(type_, Pointer) and predicate not in ("eq", "ne"):
        left, right = f"(u64)({left})", f"(u64)({right})"
    if predicate[0] == "s":
        if not isinstance(type_, Integer):
            raise line.refused()
        turn = f"(({type_})1 << {type_.bits - 1})"
        left, right = f"({type_})({left} ^ {turn})", f"({type_})({right} ^ {turn})"
    scope.let(result, Integer(1), f"{left} {sign} {right}")


def convert(of):
    """An instruction that gives its operand another type."""

    def made(line, result, scope):
        line.skip(FLAGS)
        source = type_of(line)
        value = operand(line, source, scope)
        line.expect("to")
        target = type_of(line)
        scope.let(result, target, of(line, source, target, value))

    return made


def widened(line, source, target, value):
    """zext."""
    if not isinstance(source, Integer) or not isinstance(target, Integer):
        raise line.refused()
    return f"({target}){value}"


def narrowed(line, source, target, value):
    """trunc."""
    if not isinstance(source, Integer) or not isinstance(target, Integer):
        raise line.refused()
    return cut(target, value)


def with_sign(line, source, target, value):
    """sext: the sign bit is turned, and then taken away with its value."""
    if not isinstance(source, Integer) or not isinstance(target, Integer):
        raise line.refused()
    turn = f"(({target})1 << {source.bits - 1})"
    return cut(target, f"{wide(target, f'({target}){value} ^ {turn}')} - {turn}")


def address(line, source, target, value):
    """ptrtoint."""
    if not isinstance(source, Pointer) or not isinstance(target, Integer):
        raise line.refused()
    return cut(target, f"(u64){value}")


def pointer(line, source, target, value):
    """inttoptr."""
    if not isinstance(source, Integer) or not isinstance(target, Pointer):
        raise line.refused()
    return f"(P)(u64){value}"


def place(line, result, scope):
    """alloca: a row of octets of the function, zero at first, as some are copied that nothing looks at. Those of other
    blocks than the first would be new each time."""
    type_ = type_of(line)
    line.expect(",", "align")
    alignment = line.number()
    if not scope.is_first_block():
        raise line.refused()
    scope.declare(f"ALIGNED({alignment}) unsigned char m_{scope.registers[result]}[{max(type_.octets, 1)}] = {{0}}")
    scope.let(result, Pointer(), f"AT(m_{scope.registers[result]})")


def load(line, result, scope):
    """Reads memory."""
    type_ = type_of(line)
    line.expect(",", "ptr")
    scope.let(result, type_, f"{scope.memory('GET', type_, line)}({operand(line, Pointer(), scope)})")


def store(line, _result, scope):
    """Writes memory."""
    type_ = type_of(line)
    value = operand(line, type_, scope)
    line.expect(",", "ptr")
    scope.say(f"{scope.memory('PUT', type_, line)}({operand(line, Pointer(), scope)}, {value});")


def offset(line, result, scope):
    """getelementptr, of one index. One that may lead out of the object, if only for a while, is a sum of numbers."""
    inside = False
    while line.peek() in FLAGS:
        inside = line.take() in ("inbounds", "nusw") or inside
    element = type_of(line)
    line.expect(",", "ptr")
    base = operand(line, Pointer(), scope)
    line.expect(",")
    type_ = integer(line)
    if type_.bits != 64:
        raise line.refused()
    constant = int(line.peek()) * element.octets if line.peek().lstrip("-").isdigit() else None
    index = operand(line, type_, scope)
    if constant is not None:
        index = str(constant)
    elif element.octets != 1:
        index = f"{index} * {element.octets}"
    if inside or (constant is not None and constant >= 0):
        index = index if constant is not None else f"(int64_t)({index})"
        scope.let(result, Pointer(), f"{base} + {index}")
    else:
        scope.let(result, Pointer(), f"(P)((u64){base} + (u64)({index}))")


def field(line, result, scope):
    """extractvalue."""
    type_ = type_of(line)
    if not isinstance(type_, Struct):
        raise line.refused()
    value = operand(line, type_, scope)
    line.expect(",")
    at = line.number()
    scope.let(result, type_.fields[at], f"{value}.f{at}")


def with_field(line, result, scope):
    """insertvalue."""
    type_ = type_of(line)
    if not isinstance(type_, Struct):
        raise line.refused()
    scope.module.structs.add(type_)
    scope.declare(f"{type_} {scope.registers[result]}")
    if line.peek() in ("poison", "undef"):
        line.take()
    else:
        scope.say(f"{scope.registers[result]} = {operand(line, type_, scope)};")
    line.expect(",")
    value = operand(line, type_of(line), scope)
    line.expect(",")
    scope.say(f"{scope.registers[result]}.f{line.number()} = {value};")


def choose(line, result, scope):
    """select."""
    line.expect("i1")
    condition = operand(line, Integer(1), scope)
    line.expect(",")
    type_ = type_of(line)
    first = operand(line, type_, scope)
    line.expect(",")
    if type_of(line) != type_:
        raise line.refused()
    scope.let(result, type_, f"{condition} ? {first} : {operand(line, type_, scope)}")


def same(line, result, scope):
    """freeze: a value that isn't looked at is already one here, zero."""
    type_ = type_of(line)
    scope.let(result, type_, operand(line, type_, scope))


def branch(line, _result, scope):
    """br."""
    if line.accept("label"):
        scope.say(scope.jump(line.take()))
        return
    line.expect("i1")
    condition = operand(line, Integer(1), scope)
    line.expect(",", "label")
    first = scope.jump(line.take())
    line.expect(",", "label")
    scope.say(f"if ({condition}) {first} else {scope.jump(line.take())}")


def switch(line, _result, scope):
    """switch, whose lines the reader has joined."""
    type_ = integer(line)
    if type_.bits > 64:
        raise line.refused()
    scope.say(f"switch ({operand(line, type_, scope)}) {{")
    line.expect(",", "label")
    otherwise = scope.jump(line.take())
    line.expect("[")
    while not line.accept("]"):
        if integer(line) != type_:
            raise line.refused()
        case = operand(line, type_, scope)
        line.expect(",", "label")
        scope.say(f"case {case}: {scope.jump(line.take())}")
    scope.say(f"default: {otherwise}")
    scope.say("}")


def give_back(line, _result, scope):
    """ret."""
    if line.accept("void"):
        scope.say("return;")
        return
    type_ = type_of(line)
    scope.say(f"return {operand(line, type_, scope)};")


def stop(_line, _result, scope):
    """unreachable: rustc has LLVM put a trap there, too."""
    scope.say("TRAP();")


OPCODES = {
    "add": arithmetic("+"), "sub": arithmetic("-"), "mul": arithmetic("*"), "udiv": arithmetic("/"),
    "urem": arithmetic("%"), "and": arithmetic("&"), "or": arithmetic("|"), "xor": arithmetic("^"),
    "shl": arithmetic("<<"), "lshr": arithmetic(">>"),
    "icmp": compare, "zext": convert(widened), "trunc": convert(narrowed), "sext": convert(with_sign),
    "ptrtoint": convert(address), "inttoptr": convert(pointer),
    "alloca": place, "load": load, "store": store, "getelementptr": offset,
    "extractvalue": field, "insertvalue": with_field, "select": choose, "freeze": same,
    "br": branch, "switch": switch, "ret": give_back, "unreachable": stop, "call": call,
}
