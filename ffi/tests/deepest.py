#!/usr/bin/env python3
"""The most octets of stack that a call of pkcs1.h takes, whatever it is given.

    deepest.py LIBPKCS1.SO      prints two numbers: of the calls that decode, and of those that encode

They are those of the deepest way from call to call in the code for x86-64 or i386. How deep the stack is at an
instruction say the tables by which a debugger goes back. Functions of the C library aren't looked into. Code is refused
if it calls an address, if a frame has no fixed size, or if a way comes back to a call that hasn't returned, but for one
function.
"""
import bisect
import re
import subprocess
import sys

OF_CALLS = re.compile(r"pkcs1_(?!c_)\w+_(de|en)code(?:_strict)?")
# first_written calls itself, once for each field of parameters: those of PSS have four.
CALLS_ITSELF = re.compile(r"\w*first_written")
FIELDS = 4


def printed(*words):
    """What a program prints."""
    return subprocess.run(words, capture_output=True, text=True, check=True).stdout


def read_depths(library):
    """Where the depth of the stack changes, to what, and by how much a call deepens it. It is None in a frame of no fixed
    size."""
    table = printed("readelf", "--debug-dump=frames-interp", library)
    address = int(re.search(r" cf=\d+ df=-(\d+) ", table)[1])
    depths = {int(begin, 16): address for begin in re.findall(r" pc=([0-9a-f]+)\.\.", table)}
    for at, depth in re.findall(r"^([0-9a-f]{8,}) (?:[er]sp\+(\d+)|[a-z]\S*) ", table, re.M):
        depths[int(at, 16)] = int(depth) if depth else None
    return sorted(depths), [depths[it] for it in sorted(depths)], address


def read_functions(library):
    """The name of each function by its address, and its instructions with theirs."""
    functions = {}
    for line in printed("objdump", "-dw", "--no-show-raw-insn", library).splitlines():
        head = re.match(r"([0-9a-f]{8,}) <(.*)>:$", line)
        instruction = re.match(r" *([0-9a-f]+):\t(.*)", line)
        if head:
            instructions = []
            functions[int(head[1], 16)] = (head[2], instructions)
        elif instruction:
            instructions.append((int(instruction[1], 16), instruction[2]))
    return functions


class Library:
    """A library, and how deep the calls in it go."""

    def __init__(self, library):
        self.places, self.depths, self.address = read_depths(library)
        self.functions = read_functions(library)
        self.deepest = {}

    def depth_at(self, name, at):
        """How deep the stack is in front of an instruction of this function."""
        depth = self.depths[bisect.bisect_right(self.places, at) - 1]
        if depth is None:
            sys.exit(f"deepest.py: {name} has a frame of no fixed size")
        return depth

    def goes_to(self, text):
        """The function that an instruction calls or jumps to, if it does, and whether it calls it."""
        goes = re.match(r"(?:bnd )?(call|j\w+) +([0-9a-f]+) ", text)
        to = int(goes[2], 16) if goes else None
        return (to, goes[1] == "call") if to in self.functions else (None, False)

    def depth_of_step(self, address, at, text):
        """How deep the stack gets by one instruction of a function, and by what it calls or jumps to."""
        name, depth = self.functions[address][0], self.depth_at(self.functions[address][0], at)
        if re.search(r"\bcall +\*", text):
            sys.exit(f"deepest.py: {name} calls an address")
        to, is_call = self.goes_to(text)
        if to == address and is_call and CALLS_ITSELF.fullmatch(name):
            return 0
        if to is None or to == address and not is_call:
            below = re.findall(r"-0x([0-9a-f]+)\(%[er]sp", text)
            return depth + max((int(it, 16) for it in below), default=0)
        if is_call:
            return depth + self.depth_of(to)
        # What is jumped to stands in place of this function, or is a part of it, which begins with its frame.
        is_part = self.depth_at(name, to) > self.address
        return self.depth_of(to) + (0 if is_part else depth - self.address)

    def depth_of(self, address):
        """How deep the stack gets in the function there."""
        name, instructions = self.functions[address]
        if name.endswith("@plt"):
            return self.address
        if address not in self.deepest:
            self.deepest[address] = None
            itself = [self.depth_at(name, at) for at, text in instructions if self.goes_to(text) == (address, True)]
            steps = [self.depth_of_step(address, *it) for it in instructions]
            self.deepest[address] = max(steps) + FIELDS * max(itself, default=0)
        if self.deepest[address] is None:
            sys.exit(f"deepest.py: a way comes back to {name}")
        return self.deepest[address]


def main():
    library = Library(sys.argv[1])
    deepest = {"de": 0, "en": 0}
    for address, (name, _) in library.functions.items():
        call = OF_CALLS.fullmatch(name)
        if call:
            deepest[call[1]] = max(deepest[call[1]], library.depth_of(address))
    print(deepest["de"], deepest["en"])


main()
