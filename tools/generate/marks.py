#!/usr/bin/env python3
"""Marks of control flow, which a processor looks for where the system asks it to.

    marks.py remove PROCESSOR < IN.s > OUT.s

An exported call may be called by its address, so it begins with a mark: endbr64, or on aarch64 bti c. A jump by a table
goes where the code says. On x86-64 it says so itself, by notrack, and on aarch64 each place in the table begins with
bti j. The library has no other call or jump to an address. The tool has, so there each function begins with a mark, on
aarch64 one for jumps too, bti jc. A note says that the object has these marks, and for x86-64 that each return goes
back to its call. Marks do nothing else. Those of aarch64 are written as hints, which every assembler knows.
"""
import re
import sys

AT_CALL = {"x86_64": "\tendbr64\n", "aarch64": "\thint\t#34\n"}
AT_FUNCTION = {"x86_64": "\tendbr64\n", "aarch64": "\thint\t#38\n"}
AT_PLACE = "\thint\t#36\n"
UNTRACKED = "\tnotrack"
# The kind of the property in the note, and the marks: IBT and SHSTK, or BTI.
PROPERTY = {"x86_64": (0xC0000002, 3), "aarch64": (0xC0000000, 1)}
# A jump by a table, with the instructions in front of it that find the place, and a few others between them.
OTHERS = r"(?:\t(?!jmp|b[lr]*\t).*\n){0,8}?"
BY_TABLE = {
    "x86_64": re.compile(rf"(\tmovslq\t\((%\w+),%\w+,4\), (%\w+)\n{OTHERS}\taddq\t\2, \3\n{OTHERS})(\tjmpq\t\*\3\n)"),
    "aarch64": re.compile(rf"(\tadd\t(x\d+), \2, x\d+(?:, lsl #2)?\n{OTHERS})(\tbr\t\2\n)"),
}
BY_ADDRESS = {"x86_64": re.compile(r"\t(?:jmp|call)q\t\*"), "aarch64": re.compile(r"\tbl?r\tx")}
TABLE = {"x86_64": re.compile(r"\.LJTI\d+_\d+\(%rip\)"), "aarch64": re.compile(r":lo12:\.LJTI\d+_\d+")}
PLACE = re.compile(r"^\t\.(?:byte|hword|word)\t\(?(\.LBB\d+_\d+)-\.LBB\d+_\d+", re.M)


def note(processor):
    """The note, as assembly."""
    kind, marks = PROPERTY[processor]
    words = "".join(f"\t.long\t{it}\n" for it in (4, 16, 5))
    values = "".join(f"\t.long\t{it}\n" for it in (kind, 4, marks, 0))
    return f'\t.section\t".note.gnu.property","a",@note\n\t.p2align\t3\n{words}\t.asciz\t"GNU"\n{values}'


def is_known(text, processor, is_tool):
    """Whether each jump to an address, or in the tool as many as take the address of a table, is one by a table. Others
    of the tool go to functions."""
    wanted = (TABLE if is_tool else BY_ADDRESS)[processor]
    parts = re.split(r"(?m)^(?=\t\.type\t)", text)
    return all(len(BY_TABLE[processor].findall(it)) == len(wanted.findall(it)) for it in parts)


def add(text, processor, is_tool):
    """Assembly of the processor with its marks."""
    by_table = BY_TABLE[processor]
    if not is_known(text, processor, is_tool):
        raise ValueError("a call or a jump to an address that isn't known")
    mark = (AT_FUNCTION if is_tool else AT_CALL)[processor]
    for name in re.findall(r"^\t\.type\t(\S+),@function$" if is_tool else r"^\t\.globl\t(\S+)$", text, re.M):
        begin = f"\n{name}:\n\t.cfi_startproc\n"
        if text.count(begin) != 1:
            raise ValueError(f"{name} begins otherwise")
        text = text.replace(begin, begin + mark)
    if processor == "x86_64":
        text = by_table.sub(lambda it: it[1] + UNTRACKED + it[4], text)
    else:
        places = set(PLACE.findall(text))
        text = re.sub(r"^(\.LBB\d+_\d+):\n", lambda it: it[0] + AT_PLACE * (it[1] in places), text, flags=re.M)
    return text + note(processor)


def remove(text, processor):
    """Assembly without these marks."""
    for mark in (AT_CALL[processor], AT_FUNCTION[processor], AT_PLACE, note(processor)):
        text = text.replace(mark, "")
    return text.replace(UNTRACKED, "")


if __name__ == "__main__":
    sys.stdout.write({"remove": remove}[sys.argv[1]](sys.stdin.read(), sys.argv[2]))
