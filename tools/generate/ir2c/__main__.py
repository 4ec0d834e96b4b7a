#!/usr/bin/env python3
"""C for LLVM IR: python3 tools/generate/ir2c IN.ll BORDER.c OUT.c

The IR is what rustc makes of the library, after LLVM's passes. The translation knows what such a module has today, and
no more: it refuses the rest, with one line, the status 1, and no OUT.c. A function of Rust's core that is left must
not come back: it is a panic, and a trap stands for each call of it. head.c, which stands in front, says how memory is
read on each machine and by each compiler. BORDER.c, which stands behind, has the calls that others make.
"""
import os
import re
import sys

sys.path.append(os.path.dirname(os.path.dirname(os.path.realpath(__file__))))

from calls import WORDS, attributes
from constants import constant
from functions import Function
from ir_types import Struct, name_type, type_of
from operands import Globals
from reading import Line, Refused
from rust_names import is_of_core

HEAD = os.path.join(os.path.dirname(os.path.realpath(__file__)), "head.c")
DECODER = re.compile(r"@pkcs1_c_\w+_decode(_strict)?")
SUM = ("static inline {it} sum_{of}({of} a, {of} b) {{ "
       "{it} made; made.f0 = ({of})(a + b); made.f1 = made.f0 < a; return made; }}")
LINKAGE = {"internal", "fastcc", "local_unnamed_addr", "unnamed_addr", "dso_local", "private"}


class Module:
    """The parts of the C file: `names` of functions and constants, `memory` what reads and writes types."""

    def __init__(self):
        self.names, self.structs, self.memory = Globals("f_"), set(), set()
        self.constants, self.headers, self.bodies = [], [], []
        self.sums = set()  # structs of a sum and whether it has more bits

    def header(self, line, scope):
        """Takes a function's head, and gives it in C."""
        line.skip(LINKAGE)
        attributes(line)
        result = type_of(line)
        name = line.take()
        parameters = []
        line.expect("(")
        while not line.accept(")"):
            type_ = type_of(line)
            attributes(line)
            register = line.take() if line.peek()[:1] == "%" else None
            parameters.append(f"{type_} {scope.registers[register]}" if register else str(type_))
            if line.peek() != ")":
                line.expect(",")
        line.skip(LINKAGE)
        if line.peek()[:1] == "#":
            line.take()
        if isinstance(result, Struct):
            self.structs.add(result)
        return name, f"{result} {self.names[name]}({', '.join(parameters) or 'void'})"

    def declaration(self, text):
        """A function that calls say in other words: LLVM's own, or one of C. What stops the program isn't called."""
        if "(metadata)" in text:
            return
        line = Line(text)
        line.expect("declare")
        name, _ = self.header(line, Function(self))
        line.end()
        if not name.startswith("@llvm.") and name not in (*WORDS, "@pkcs1_stop"):
            raise Refused(f"not known: a function of another file, {name}")

    def definition(self, text, lines):
        """A function and its lines."""
        line = Line(text)
        line.expect("define")
        scope = Function(self)
        name, made = self.header(line, scope)
        if line.peek() == "!dbg":
            line.take()
            line.take()
        made = f"static {'ONCE ' if DECODER.fullmatch(name) else ''}{made}"
        line.expect("{")
        line.end()
        if is_of_core(name[1:]):
            if any(re.match(r"\s+ret ", it) for it in lines):
                raise Refused(f"{name[1:]} of Rust's core is kept: it comes back")
            return
        self.headers.append(made + ";")
        self.bodies.append("\n".join([made + " {", *scope.body(lines), "}"]))

    def read(self, lines):
        """All lines of the module."""
        lines = iter(lines)
        for text in lines:
            if text.startswith("@"):
                self.constants.append(constant(text, self.names))
            elif text.startswith("%"):
                name_type(Line(text))
            elif text.startswith("declare "):
                self.declaration(text)
            elif text.startswith("define "):
                self.definition(text, list(iter(lines.__next__, "}")))
            elif text and not re.match(r";|source_filename|target |attributes |!", text):
                raise Refused(f"not known: {text[:200]}")

    def text(self):
        """What the C file has between its head and its border."""
        structs = [f"{it} {{ {' '.join(f'{of} f{n};' for n, of in enumerate(it.fields))} }};"
                   for it in sorted(self.structs, key=str)]
        sums = [SUM.format(it=it, of=it.fields[0]) for it in sorted(self.sums, key=str)]
        parts = [*sorted(self.memory), *structs, *sums, *self.constants, *self.headers, *self.bodies]
        return "\n".join(parts) + "\n"


def text_of(path):
    """The text of a file."""
    with open(path, encoding="utf-8") as it:
        return it.read()


def main():
    source, border, out = sys.argv[1:]
    module = Module()
    try:
        module.read(text_of(source).split("\n"))
    except Refused as refusal:
        sys.exit(f"ir2c: {refusal}")
    with open(out, "w", encoding="utf-8") as it:
        it.write(f"{text_of(HEAD)}\n{module.text()}\n{text_of(border)}")


main()
