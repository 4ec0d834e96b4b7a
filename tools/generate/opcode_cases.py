"""Functions of LLVM IR for test_opcodes.py, each a list of lines: those of each width, and those of opcode_cases.ll."""
import os
import re

WIDTHS = [1, 3, 8, 13, 16, 24, 32, 33, 64, 77, 128]
IN_C = [8, 16, 32, 64, 128]
IN_MEMORY = [1, 8, 16, 24, 32, 40, 48, 56, 64, 128]
SIMPLE = ["add", "sub", "mul", "and", "or", "xor"]
PREDICATES = ["eq", "ne", "ult", "ule", "ugt", "uge", "slt", "sle", "sgt", "sge"]
DECLARED = [
    *(f"declare i{it} @llvm.{name}.i{it}(i{it}, i{it})" for name in ("umin", "umax", "usub.sat") for it in IN_C),
    *(f"declare i{it} @llvm.ctlz.i{it}(i{it}, i1)" for it in IN_C[:4]),
    *(f"declare i{it} @llvm.bswap.i{it}(i{it})" for it in IN_C[1:4]),
    *(f"declare i{it} @llvm.uadd.sat.i{it}(i{it}, i{it})" for it in IN_C[2:4]),
    *(f"declare {{ i{it}, i1 }} @llvm.uadd.with.overflow.i{it}(i{it}, i{it})" for it in IN_C[2:4]),
]
FUNCTION = re.compile(r"(?:^;[^\n]*\n)*^define i64 @\w+\(i64 %a, i64 %b\) \{\n(.*?)^\}\n", re.M | re.S)


def operands(width):
    """Lines that make %x and %y of this width from the two numbers."""
    if width == 64:
        return ["%x = add i64 %a, 0", "%y = add i64 %b, 0"]
    if width < 64:
        return [f"%x = trunc i64 %a to i{width}", f"%y = trunc i64 %b to i{width}"]
    made = ["%a1 = zext i64 %a to i128", "%b1 = zext i64 %b to i128",
            "%a2 = shl i128 %a1, 64", "%b2 = shl i128 %b1, 60", "%x1 = or i128 %a2, %b1", "%y1 = xor i128 %b2, %a1"]
    if width == 128:
        return [*made, "%x = add i128 %x1, 0", "%y = add i128 %y1, 0"]
    return [*made, f"%x = trunc i128 %x1 to i{width}", f"%y = trunc i128 %y1 to i{width}"]


def result(width):
    """Lines that give back %z of this width."""
    if width == 64:
        return ["ret i64 %z"]
    if width < 64:
        return [f"%r = zext i{width} %z to i64", "ret i64 %r"]
    return [f"%h = lshr i{width} %z, 64", f"%hi = trunc i{width} %h to i64", f"%lo = trunc i{width} %z to i64",
            "%r = xor i64 %lo, %hi", "ret i64 %r"]


def of_width(width):
    """The functions of one width."""
    t, begin, end = f"i{width}", ["begin:", *operands(width)], result(width)
    for op in SIMPLE:
        yield [*begin, f"%z = {op} {t} %x, %y", *end]
    for op in ("udiv", "urem"):
        yield [*begin, f"%y2 = or {t} %y, 1", f"%z = {op} {t} %x, %y2", *end]
    if width > 1:
        for op in ("shl", "lshr"):
            yield [*begin, f"%y2 = and {t} %y, {(1 << (width.bit_length() - 1)) - 1}", f"%z = {op} {t} %x, %y2", *end]
    for predicate in PREDICATES:
        yield [*begin, f"%c = icmp {predicate} {t} %x, %y", f"%z = select i1 %c, {t} %x, {t} -1", *end]
    if width < 128:
        yield [*begin, f"%z = sext {t} %x to i128", *result(128)]
    if width in IN_C:
        for name in ("umin", "umax", "usub.sat"):
            yield [*begin, f"%z = call {t} @llvm.{name}.{t}({t} %x, {t} %y)", *end]
    if width in (16, 32, 64):
        yield [*begin, f"%z = call {t} @llvm.bswap.{t}({t} %x)", *end]
    if width in (32, 64):
        yield [*begin, f"%z = call {t} @llvm.uadd.sat.{t}({t} %x, {t} %y)", *end]
        yield [*begin, f"%p = call {{ {t}, i1 }} @llvm.uadd.with.overflow.{t}({t} %x, {t} %y)",
               f"%s = extractvalue {{ {t}, i1 }} %p, 0", f"%o = extractvalue {{ {t}, i1 }} %p, 1",
               f"%z = select i1 %o, {t} 7, {t} %s", *end]
    if width in (8, 16, 32, 64):
        yield [*begin, f"%z = call {t} @llvm.ctlz.{t}({t} %x, i1 false)", *end]
    if 1 < width <= 64:
        yield [*begin, f"switch {t} %x, label %c [", f"{t} 0, label %d", f"{t} -1, label %e", "]", "c:", "br label %f",
               "d:", "br label %f", "e:", "br label %f", "f:", f"%z = phi {t} [ %x, %c ], [ 2, %d ], [ %y, %e ]", *end]


def in_memory(width):
    """Functions that write a number of this width over others, and read one that lies in others."""
    others = ["%m = alloca [24 x i8], align 8", "%n = getelementptr i8, ptr %m, i64 8",
              "%o = getelementptr i8, ptr %m, i64 16", "store i64 %a, ptr %m, align 8", "store i64 %b, ptr %n, align 8",
              "store i64 -2, ptr %o, align 8", "%p = getelementptr i8, ptr %m, i64 3"]
    read = ["%f = load i64, ptr %m, align 8", "%g = load i64, ptr %n, align 8", "%h = load i64, ptr %o, align 8",
            "%s = xor i64 %f, %g", "%r = sub i64 %s, %h", "ret i64 %r"]
    yield ["begin:", *others, *operands(width), f"store i{width} %y, ptr %p, align 1", *read]
    if width == 1:
        others.append("store i1 true, ptr %p, align 1")
    yield ["begin:", *others, f"%z = load i{width}, ptr %p, align 1", *result(width)]


def cases():
    """What declares that is called, and the functions."""
    with open(os.path.join(os.path.dirname(os.path.realpath(__file__)), "opcode_cases.ll"), encoding="utf-8") as it:
        text = it.read()
    functions = [it for width in WIDTHS for it in of_width(width)]
    functions += [it for width in IN_MEMORY for it in in_memory(width)]
    functions += [[line.strip() for line in it.splitlines()] for it in FUNCTION.findall(text)]
    return "\n".join([FUNCTION.sub("", text), *DECLARED]), functions
