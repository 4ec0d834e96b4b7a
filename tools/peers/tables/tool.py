#!/usr/bin/env python3
"""tool.py CASES TOOL..: megabytes of lines that each build of the tool answers in a second of processor time, the best of
rounds in which they take turns, in Markdown. All have to write the same."""
import glob
import os
import subprocess
import sys

ROUNDS = 9


def run(program, path, out):
    """The seconds of processor time of the program on this file."""
    with open(path, "rb") as lines, open(out, "wb") as to:
        process = subprocess.Popen([program], stdin=lines, stdout=to)
        _, status, used = os.wait4(process.pid, 0)
        process.returncode = status
    if status != 0:
        sys.exit(f"{program} ends with {status} on {path}")
    return used.ru_utime + used.ru_stime


def answers(program, path):
    with open(path, "rb") as lines:
        return subprocess.run([program], stdin=lines, stdout=subprocess.PIPE, check=True).stdout


def main():
    cases, *tools = sys.argv[1:]
    print(f"| lines | {' | '.join(f'{it}, MB/s' for it in tools)} |\n|---|{'---|' * len(tools)}")
    for path in sorted(glob.glob(f"{cases}/*.lines")):
        first = answers(tools[0], path)
        if any(answers(it, path) != first for it in tools[1:]):
            sys.exit(f"the tools answer {path} otherwise")
        best = dict.fromkeys(tools, float("inf"))
        for _ in range(ROUNDS):
            for program in best:
                best[program] = min(best[program], run(program, path, os.devnull))
        size = os.path.getsize(path) / 1e6
        name = os.path.basename(path).removesuffix(".lines")
        print(f"| {name} | {' | '.join(f'{size / it:.0f}' for it in best.values())} |")
    print()


if __name__ == "__main__":
    main()
