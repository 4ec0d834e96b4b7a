#!/usr/bin/env python3
"""Plants each mistake of the file `mistakes` in a copy of ffi/lib/pkcs1.c or of ffi/proof/pkcs1.acsl.h, and lets
ffi/proof/prove.sh look at the function that it is in, or at what promises.c says of the call. Each must be refused: a
goal isn't proved in half as many steps again as its proof takes without it. Prints these goals, or that it passed. The
status is 1 if one passed. AT_ONCE: how many are tried at a time."""
import os
import re
import shutil
import subprocess
import sys
import tempfile
from collections import defaultdict
from concurrent.futures import ThreadPoolExecutor

from planted import TOP, planted, put, read, tell

CODE, CONTRACTS = "ffi/lib/pkcs1.c", "ffi/proof/pkcs1.acsl.h"
GOAL = r"^\[wp\] \[[^]]*\] Goal (?:typed_)?(\S+) : (\w+).*?(?:\((\d+)\))?(?: \(cached\))?$"
# Steps for a goal: more than any takes, and what is tried first where there is a mistake.
MOST, FEW = 400000, 60000
AT_ONCE = os.environ.get("AT_ONCE") or str(os.cpu_count())


def place(function, text):
    """Where the function is in the text, or the macro that makes it. Else it's all of the text."""
    found = re.search(rf"^[A-Za-z][^;{{}}()]*\b{function}\([^;{{}}]*\) \{{\n.*?^\}}", text, re.M | re.S)
    made = re.search(rf"^([A-Z]+)\({re.sub('^(pkcs1|copied)_', '', function)},", text, re.M)
    if made and not found:
        found = re.search(rf"^#define {made[1]}\((.*\\\n)*.*$", text, re.M)
    return found.span() if found else (0, len(text))


def plant(what, old, new):
    """The function, and the text of a file with a mistake in it."""
    function = what.split(":")[0]
    path = CONTRACTS if function.startswith("promises_") else CODE
    text = read(f"{TOP}/{path}")
    start, end = place(function, text)
    return function, path, text[:start] + put(text[start:end], what, old, new) + text[end:]


def prove(functions, steps, cache, path=None, text="", at_once="1"):
    """Of each goal of these functions how many steps its proof takes, or None. The file may have another text. Without
    one, the cache keeps each proof for the goals of others that are the same."""
    with tempfile.TemporaryDirectory() as room:
        for name in ("lib", "proof"):
            shutil.copytree(f"{TOP}/ffi/{name}", f"{room}/ffi/{name}", ignore=shutil.ignore_patterns("generated"))
        if path:
            with open(f"{room}/{path}", "w", encoding="utf-8") as it:
                it.write(text)
        words = ["-wp-cache", "replay" if path else "update", "-wp-cache-dir", cache]
        words += ["-wp-init-const"] if functions == ["identifiers"] else []
        settings = {**os.environ, "GIVE_UP": str(steps), "KEEP": f"{room}/log", "AT_ONCE": at_once}
        run = subprocess.run([f"{room}/ffi/proof/prove.sh", "--must", "-wp-fct", ",".join(functions), *words],
                             capture_output=True, text=True, env=settings)
        if not os.path.exists(f"{room}/log"):
            sys.exit(f"{functions}: {run.stdout}{run.stderr}")
        return {goal: int(taken or 0) if said == "Valid" else None
                for goal, said, taken in re.findall(GOAL, read(f"{room}/log"), re.M)}


def by_function(functions, cache):
    """The goals that are proved of each of these functions without a mistake."""
    alone = {"identifiers"} & functions  # with the octets of constants, which make other proofs slower
    goals, found = {}, defaultdict(dict)
    for several in (functions - alone, alone):
        goals |= prove(sorted(several), MOST, cache, at_once=AT_ONCE) if several else {}
    for goal, steps in goals.items():
        of = max((it for it in functions if goal.startswith(f"{it}_")), key=len)
        if steps is not None:
            found[of][goal] = steps
    return found


def main():
    mistakes = planted(f"{TOP}/ffi/proof/mistakes", plant)
    with tempfile.TemporaryDirectory() as cache, ThreadPoolExecutor(int(AT_ONCE)) as pool:
        whole = by_function({function for _, (function, _, _) in mistakes}, cache)
        print(f"{sum(map(len, whole.values()))} goals are proved without a mistake", flush=True)

        def refused(mistake):
            function, path, text = mistake[1]
            limits = {goal: 3 * took // 2 for goal, took in whole[function].items()}
            most = max(limits.values())
            for steps in sorted({min(FEW, most), most}):
                goals = prove([function], steps, cache, path, text)
                unproved = sorted(it for it, limit in limits.items() if limit <= steps and goals.get(it, 0) is None)
                if unproved:
                    break
            return " ".join(unproved)

        tell(mistakes, pool.map(refused, mistakes))


main()
