#!/usr/bin/env python3
"""Plants each mistake of the file `mistakes` in a copy of ffi/proof/pkcs1.acsl.h. Each must be refused: by calls
that are watched by what is made of it, or else by check_contracts.py, which reads it. Prints by which, and at which
clause. The status is 1 if one passed.

    mistakes.py OUT     OUT: what `make` left there"""
import os
import re
import subprocess
import sys
import tempfile
from concurrent.futures import ThreadPoolExecutor

HERE = os.path.dirname(os.path.abspath(__file__))
sys.path.insert(0, f"{HERE}/..")
from planted import TOP, planted, put, read, tell  # noqa: E402

OUT = os.path.abspath(sys.argv[1])
FLAGS = ["-std=gnu11", "-w", "-DWATCHED", *(f"-I{TOP}/ffi/{it}" for it in (
    "lib/include", "tests", "tests/fuzz", "proof", "proof/seam"))]
SOURCES = [*(f"{HERE}/{it}.c" for it in ("terms", "meaning", "writer")), *(f"{TOP}/ffi/tests/{it}.c" for it in (
    "fuzz/reference", "fuzz/elements", "fuzz/compare", "rows", "large", "test"))]


def run(*words):
    return subprocess.run(words, capture_output=True, text=True, cwd=TOP)


def refused_by(text, room, objects):
    """What refuses these contracts, or None."""
    acsl, made, test = f"{room}/pkcs1.acsl.h", f"{room}/seam.c", f"{room}/test"
    with open(acsl, "w", encoding="utf-8") as it:
        it.write(text)
    return watched(acsl, made, test, objects) or checked(acsl)


def checked(acsl):
    found = run(f"{HERE}/../check_contracts.py", acsl)
    return f"check_contracts.py: {found.stdout.splitlines()[0]}" if found.returncode else None


def watched(acsl, made, test, objects):
    with open(made, "w", encoding="utf-8") as it:
        it.write(run(f"{HERE}/seam.py", acsl, f"{TOP}/ffi/lib/include/pkcs1.h").stdout)
    wraps = [f"-Wl,--wrap={it}" for it in re.findall(r"^\w+ __real_(\w+)\(.*;$", open(made).read(), re.M)]
    built = run("gcc", "-O0", *FLAGS, made, *objects, *wraps, "-o", test)
    if built.returncode:
        return f"seam.py: {built.stderr.splitlines()[-1] if built.stderr else 'no program'}"
    found = run(test, f"{TOP}/crates/pkcs1_vectors/stdin")
    told = found.stderr.splitlines() or [f"the test ends with {found.returncode}"]
    return told[-1] if found.returncode else None


def main():
    whole = read(f"{TOP}/ffi/proof/pkcs1.acsl.h")
    mistakes = planted(f"{HERE}/mistakes", lambda *words: put(whole, *words))
    with tempfile.TemporaryDirectory() as room, ThreadPoolExecutor(os.cpu_count()) as pool:
        subprocess.run(["gcc", "-O1", *FLAGS, "-c", *SOURCES], cwd=room, check=True)
        objects = [f"{room}/{it}" for it in os.listdir(room)] + [f"{OUT}/calls.o", f"{OUT}/proved.o"]
        if refused_by(whole, tempfile.mkdtemp(dir=room), objects):
            sys.exit("without a mistake it is refused")
        tell(mistakes, pool.map(lambda it: refused_by(it[1], tempfile.mkdtemp(dir=room), objects), mistakes))


main()
