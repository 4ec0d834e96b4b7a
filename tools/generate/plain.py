#!/usr/bin/env python3
"""plain.py PROCESSOR library|tool < IN.s > OUT.s: the assembly that rustc writes, as it is kept.

Where in the sources a line comes from goes, and so does what a debugger would read, but for the way back from a call. A
call whose place a program must fill in is a call by name, and memcmp stands for bcmp, which not each C library has. The
hashes in names are numbers, as two builds of a rustc have other hashes. marks.py adds marks of control flow.

What the proof excludes, a panic, is a trap where it would be called: the functions of Rust's core and alloc that it
would go through aren't kept. None of those may come back. In the library no other function of core is left. In the tool
those are that print, and make lists longer. What is otherwise stops the making, with one line.
"""
import collections
import re
import sys

import marks
from rust_names import is_of_core

TRAP = {"x86_64": "\tud2", "aarch64": "\tbrk\t#0x1"}
FUNCTION = re.compile(r'^\t\.section\t"?\.text\.[^\n]*\n(?:(?!\t\.section|\t\.type\t\S+,@object).*\n)*', re.M)
NAMED = re.compile(r"^\t\.type\t([^,\n]+),@function", re.M)
# What goes back to the caller, or to another function, which may.
RETURNS = re.compile(
    r"^\t(?:ret|br|(?:j[a-z]+|b(?:\.[a-z]+)?|cbn?z\t\w+,|tbn?z\t\w+, #\d+,)\s+(?!\.L))", re.M)
CALL = re.compile(r"^\t(?:callq?|j[a-z]+|bl?|b\.[a-z]+|cbn?z\t\w+,|tbn?z\t\w+, #\d+,)\s+([A-Za-z_][\w.$]*)$", re.M)
OF_DEBIAN = re.compile(
    r'^\t\.section\t"?\.text\._ZN[^\n]*\n(?:(?!\t\.section\t"?\.text|\t\.type\t\S+,@object).*\n)*', re.M)
OBJECT = re.compile(r"^\t\.type\t(\S+),@object\n(?:.*\n)*?\t\.size\t\1, \d+\n", re.M)
# Hashes in names, with what stands before and behind them.
HASHES = (("[A-Za-z]Cs", "[0-9A-Za-z]{9,}", r"_\d"), ("17h", "[0-9a-f]{16}", "E"))
HASHED = re.compile(r"17h[0-9a-f]{16}E|\.L\w+")
# What C has, and what ffi/lib/os.c has.
OF_C = re.compile(r"mem(?:cpy|move|set|cmp)|malloc|realloc|free|strlen|pkcs1_os_\w+")


def without_debugging(text):
    """Assembly without what only a debugger reads, and without labels that nothing names."""
    text = re.sub(r"^\t\.(loc|file|ident)\b.*\n", "", text, flags=re.M)
    text = re.sub(r"^\t\.section\t\.debug_.*?(?=^\t\.section\t(?!\.debug)|\Z)", "", text, flags=re.M | re.S)
    # What closes a section for the debugger's tables.
    text = re.sub(r"^\t\.section\t[^\n]*\n(?:\.L\w+:\n)+(?=\t\.section|\Z)", "", text, flags=re.M)
    counts = collections.Counter(re.findall(r"\.L(?:func_begin|tmp)\d+\b", text))
    return re.sub(r"^(\.L(?:func_begin|tmp)\d+):\n", lambda it: it[0] * (counts[it[1]] > 1), text, flags=re.M)


def by_name(text):
    """Assembly that calls by name what the program is linked with."""
    text = re.sub(r"\tjmpq(\t\*\w+@)", r"\tjmp\1", text)
    text = re.sub(r"\*(\w+)@GOTPCREL\(%rip\)", r"\1", text)
    return re.sub(r"\bbcmp\b", "memcmp", text)


def in_order(text, part, key):
    """The text with these parts of it in the order of their keys."""
    parts = iter(sorted((it[0] for it in part.finditer(text)), key=key))
    return part.sub(lambda _: next(parts), text)


def by_number(text, form):
    """The text in which each label of this form ends with its number, in the order in which they stand there."""
    numbers = {}
    return re.sub(form, lambda it: f".L{it[1]}{numbers.setdefault(it[2], len(numbers))}", text)


def numbered(text):
    """Assembly in whose names each hash is its number, in as many letters, so that names are read as before. What
    Debian compiled before, and constants, stand in an order that hashes don't change."""
    text = re.sub(r"(?<=\.llvm\.)\d+", "1", text)
    text = in_order(text, OF_DEBIAN, lambda it: HASHED.sub("", it.replace('"', "")))
    for before, form, behind in HASHES:
        numbers = {}
        text = re.sub(rf"(?<={before}){form}(?={behind})",
                      lambda it: str(numbers.setdefault(it[0], len(numbers))).zfill(len(it[0])), text)
    text = by_number(text, r"\.L(BB|JTI|CPI|func_begin|func_end)(\d+)")
    text = by_number(text, r"(?:\.L)?(anon\.)([0-9a-f]{32}\.\d+)(?:\.llvm\.1)?\b")
    return in_order(text, OBJECT, lambda it: OBJECT.match(it)[1])


def without_panics(text, trap, is_tool):
    """Assembly in which a trap stands for each call of a function of core that doesn't come back."""
    stops = set()
    for part in FUNCTION.findall(text):
        name = NAMED.search(part)
        if not name or not is_of_core(name[1]):
            continue
        if not RETURNS.search(part):
            stops.add(name[1])
            text = text.replace(part, "")
        elif not is_tool or "panic" in name[1]:
            raise ValueError(f"{name[1]} of Rust's core is kept: it comes back")
    text = re.sub(rf"^\t(?:callq?|jmp|bl?)\t({'|'.join(map(re.escape, stops)) or '(?!)'})$", trap, text, flags=re.M)
    left = [it for it in stops if it in text]
    if left:
        raise ValueError(f"{min(left)} is used otherwise than by a call")
    if "pkcs1_stop" in text:
        raise ValueError("a function stops that isn't of core")
    return text


def complete(text):
    """The assembly, if each function that it calls is in it, or in C."""
    missing = set(CALL.findall(text)) - set(NAMED.findall(text))
    missing = [it for it in missing if not OF_C.fullmatch(it)]
    if missing:
        raise ValueError(f"{min(missing)} is called, and isn't there")
    return text


def plain(text, processor, is_tool):
    """The assembly as it is kept."""
    text = complete(without_panics(by_name(without_debugging(text)), TRAP[processor], is_tool))
    return numbered(marks.add(text, processor, is_tool))


if __name__ == "__main__":
    try:
        sys.stdout.write(plain(sys.stdin.read(), sys.argv[1], {"library": False, "tool": True}[sys.argv[2]]))
    except ValueError as why:
        sys.exit(f"plain.py: {why}")
