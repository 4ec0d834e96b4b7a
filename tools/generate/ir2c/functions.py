"""A function of LLVM IR as one of C: a label for each block, a variable for each value."""
import re

from ir_types import Integer, Pointer, Struct, type_of
from opcodes import OPCODES
from operands import Names, operand
from reading import METADATA, NAME, Line, Refused

LABEL = re.compile(r'("[^"]*"|[-$.\w]+):(?:\s*;.*)?$')
RESULT = re.compile(rf"\s*({NAME}) = ")


def instructions_of(lines):
    """The lines of a function's blocks, of which a switch takes several."""
    made = []
    for text in lines:
        if made and re.match(r"\s+switch ", made[-1]) and not made[-1].endswith("]"):
            made[-1] += " " + METADATA.sub("", text.strip())
        elif text.strip() and not text.lstrip().startswith((";", "#dbg_")):
            made.append(METADATA.sub("", text.rstrip()))
    return made


class Function:
    """The text of a function, as its instructions are read. They call what stands first."""

    def __init__(self, module):
        self.module = module
        self.registers, self.labels = Names("v_"), Names("L_")
        self.read, self.reached = set(), set()
        self.declarations, self.statements = [], []
        self.phis, self.block, self.blocks = {}, None, 0

    def declare(self, text):
        """A variable of the function."""
        self.declarations.append(f"    {text};")

    def say(self, text):
        """A statement."""
        if text:
            self.statements.append(("    " + text, None))

    def let(self, result, type_, expression):
        """A variable, and a statement that gives it its value; the call alone if nothing reads it."""
        if result is None:
            raise Refused(f"not known: a value without a name, {expression}")
        if isinstance(type_, Struct):
            self.module.structs.add(type_)
        self.statements.append((f"    {self.registers[result]} = {expression};", (result, type_, expression)))

    def memory(self, macro, type_, line):
        """The name of what reads (GET) or writes (PUT) values of this type."""
        if not isinstance(type_, (Integer, Pointer)):
            raise line.refused()
        if isinstance(type_, Integer) and type_.is_part:
            self.module.memory.add(f"{macro}_PART({type_.bits})")
            return f"{macro.lower()}_{type_.bits}"
        _ = type_.octets
        self.module.memory.add(f"{macro}({type_})")
        return f"{macro.lower()}_{type_}"

    def is_first_block(self):
        """Whether the instruction stands in the function's first block, which runs once."""
        return self.blocks == 1

    def jump(self, name):
        """A statement that goes to a block, and gives it what its first lines choose by where they come from."""
        self.reached.add(name)
        moves = ""
        for result, type_, arms in self.phis.get(name, ()):
            if self.block not in arms:
                raise Refused(f"not known: where {result} comes from, in a block without a name")
            moves += f"p_{self.registers[result]} = {operand(Line(arms[self.block]), type_, self)}; "
        return f"{{ {moves}goto {self.labels[name]}; }}"

    def find_phis(self, lines):
        """What each block begins with: the values that depend on the block before, and an operand for each of those."""
        block = None
        for text in lines:
            label = LABEL.match(text)
            if label:
                block = "%" + label[1]
            found = re.match(rf"\s+({NAME}) = phi (.*)", text)
            if found:
                line = Line(found[2])
                type_, arms = type_of(line), {}
                while not arms or line.accept(","):
                    line.expect("[")
                    value = line.until_comma()
                    line.expect(",")
                    arms[line.take()] = value
                    line.expect("]")
                line.end()
                self.phis.setdefault(block, []).append((found[1], type_, arms))

    def begin_block(self, label):
        """A block's label, and the values that depend on the block before."""
        self.block, self.blocks = "%" + label, self.blocks + 1
        if self.blocks > 1:
            self.statements.append((f"{self.labels[self.block]}:;", self.block))
        for result, type_, _ in self.phis.get(self.block, ()):
            self.declare(f"{type_} p_{self.registers[result]}")
            self.let(result, type_, f"p_{self.registers[result]}")

    def instruction(self, text):
        """One instruction."""
        found = RESULT.match(text)
        line = Line(text[found.end() :] if found else text)
        if line.peek() == "phi":
            return
        line.accept("tail") or line.accept("notail")
        opcode = line.take()
        if opcode not in OPCODES:
            raise Refused(f"not known: the instruction {opcode}, in: {text.strip()[:200]}")
        OPCODES[opcode](line, found and found[1], self)
        line.end()

    def body(self, lines):
        """The text between the function's braces."""
        lines = instructions_of(lines)
        self.find_phis(lines)
        if not LABEL.match(lines[0]):
            self.begin_block("(first)")
        for text in lines:
            label = LABEL.match(text)
            if label:
                self.begin_block(label[1])
            else:
                self.instruction(text)
        made = []
        for text, about in self.statements:
            if about is None or about in self.reached:
                made.append(text)
            elif isinstance(about, tuple):
                made += self.given(text, *about)
        return self.declarations + made

    def given(self, text, result, type_, expression):
        """The statement of a value: nothing is declared that nothing reads."""
        if result in self.read:
            self.declare(f"{type_} {self.registers[result]}")
            return [text]
        return [f"    {expression};"] if re.match(r"[a-z]\w*\(", expression) else []
