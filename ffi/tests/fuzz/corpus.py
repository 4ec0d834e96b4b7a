#!/usr/bin/env python3
"""corpus.py FOLDER: makes this folder, with the inputs from which the decoders are fuzzed: the worked rows, and the keys
in ffi/tests/keys as each kind. The first octet of an input is its kind's number in `kinds` of ffi/tests/rows.c."""
import glob
import os
import re
import sys

folder = os.path.abspath(sys.argv[1])
os.chdir(f"{os.path.dirname(os.path.abspath(__file__))}/../../..")
with open("ffi/tests/rows.c", encoding="utf-8") as it:
    kinds = re.findall(r'"([a-z-]+)"', re.search(r"kinds\[KINDS\] = \{(.*?)\}", it.read(), re.S)[1])
with open("crates/pkcs1_vectors/stdin", encoding="utf-8") as it:
    rows = [line.split()[:2] for line in it if line.split(" ")[0] in kinds]
inputs = [(kinds.index(kind), b"" if der == "-" else bytes.fromhex(der)) for kind, der in rows]
for path in sorted(glob.glob("ffi/tests/keys/*.der")):
    with open(path, "rb") as it:
        key = it.read()
    inputs += [(kind, key) for kind in range(len(kinds))]
os.mkdir(folder)
for number, (kind, der) in enumerate(inputs):
    with open(f"{folder}/{number}", "wb") as it:
        it.write(bytes([kind]) + der)
