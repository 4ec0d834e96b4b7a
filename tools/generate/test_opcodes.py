#!/usr/bin/env python3
"""Compares what ir2c makes of each instruction with what LLVM makes of it: test_opcodes.py FOLDER.

Each function of a module of LLVM IR takes two numbers, and gives one, or stops the program: opcode_cases.py. All
programs of it print the same for the same numbers, of which some lie at the ends of a width: that of llc, and of the C
as it is built here, as for another machine, as it is watched for what C leaves undefined, and, where their compilers
and qemu are here, for other machines.

Then each line `FILE: OLD ==> NEW` of opcode_mistakes is an edit of a copy of ir2c, which the C as it is watched, or
as it is built by any compiler for another machine, must tell from the right one. Each entry of ir2c's tables has one.
"""
import importlib
import inspect
import itertools
import os
import random
import re
import shutil
import subprocess
import sys
from concurrent.futures import ThreadPoolExecutor

from opcode_cases import WIDTHS, cases

HERE = os.path.dirname(os.path.realpath(__file__))
LEFT_OUT = "; left out"
HARNESS = """
#include <inttypes.h>
#include <setjmp.h>
#include <signal.h>
#include <stdio.h>
#include <sys/time.h>
{prototypes}
static const struct {{ unsigned number; uint64_t (*made)(uint64_t, uint64_t); }} calls[] = {{{calls}}};
static const uint64_t numbers[] = {{{numbers}}};
static sigjmp_buf back;
static void stopped(int signal) {{ siglongjmp(back, signal); }}
const char *__asan_default_options(void) {{ return "detect_invalid_pointer_pairs=2:detect_leaks=0:symbolize=0"; }}
int main(void) {{
    static const int signals[] = {{SIGILL, SIGTRAP, SIGABRT, SIGFPE}};
    struct sigaction action = {{.sa_handler = stopped, .sa_flags = SA_NODEFER}};
    for (unsigned i = 0; i < 4; i++)
        sigaction(signals[i], &action, NULL);
    for (unsigned f = 0; f < sizeof calls / sizeof *calls; f++) {{
        setitimer(ITIMER_VIRTUAL, &(struct itimerval){{.it_value.tv_sec = 2}}, NULL); /* none runs forever */
        for (unsigned a = 0; a < sizeof numbers / sizeof *numbers; fflush(stdout), a++)
            for (unsigned b = 0; b < sizeof numbers / sizeof *numbers; b++)
                if (sigsetjmp(back, 0))
                    printf("%u stops\\n", calls[f].number);
                else
                    printf("%u %" PRIx64 "\\n", calls[f].number, calls[f].made(numbers[a], numbers[b]));
    }}
    return 0;
}}
"""
WATCHED = ["gcc", "-O1", "-fsanitize=address,undefined,pointer-compare", "-fno-sanitize-recover=all",
           "-ftrivial-auto-var-init=pattern"]
# An edit that changes no meaning, which isn't told.
HARMLESS = ("functions.py", 'Names("L_")', 'Names("M_")')
# Of the functions that a mistake changes so many are tried of the last, which are about memory, and of the others.
MOST = 16
STATIC = ["-O1", "-static"]
HERE_ALONE = ["gcc", *STATIC]
FOREIGN = ["gcc", *STATIC, "-DPKCS1_FOREIGN"]
PLAIN = ["gcc", *STATIC, "-DPKCS1_PLAIN", "-DPKCS1_FOREIGN", "-U__BYTE_ORDER__"]


def read(path):
    """The text of a file."""
    with open(path, encoding="utf-8") as it:
        return it.read()


def write(path, text):
    """Writes a file."""
    with open(path, "w", encoding="utf-8") as it:
        it.write(text)


def numbers():
    """Numbers that are passed to the functions."""
    chance = random.Random(1)
    made = {0, 1, 2, 3, *(chance.getrandbits(64) for _ in range(6))}
    for width in WIDTHS[1:9]:
        made |= {(1 << width) - 1, (1 << (width - 1)), (1 << (width - 1)) - 1}
    return sorted(made)


def write_module(path, declared, functions):
    """Writes the functions as a module of LLVM IR."""
    made = [declared]
    for number, lines in enumerate(functions):
        body = (line if line[-1] == ":" else f"  {line}" for line in lines)
        made += [f"define i64 @pkcs1_c_{number}(i64 %a, i64 %b) {{", *body, "}\n"]
    write(path, "\n".join(made))


def refusal(ir2c, module, place):
    """Has this ir2c translate the module to C, in the folder; what it says if it refuses."""
    ran = subprocess.run([sys.executable, ir2c, module, os.devnull, f"{place}/ours.c"], capture_output=True, text=True,
                         check=False)
    if ran.returncode != 0 and not ran.stderr.startswith("ir2c: "):
        sys.exit(ran.stderr)
    return ran.stderr


def build(place, chosen, compiler, code):
    """Builds a program, in the folder, that calls these functions of this code."""
    made = (f"{{{it}, pkcs1_c_{it}}}" for it in chosen)
    prototypes = (f"uint64_t pkcs1_c_{it}(uint64_t, uint64_t);" for it in chosen)
    write(f"{place}/harness.c", HARNESS.format(prototypes="\n".join(prototypes), calls=", ".join(made),
                                               numbers=", ".join(f"{it}ull" for it in numbers())))
    border = (f"u64 pkcs1_c_{it}(u64 a, u64 b) {{ return proved_{it}(a, b); }}" for it in chosen)
    write(f"{place}/border.c", "\n".join(['#include "ours.c"', *border]))
    subprocess.run([*compiler, "-w", "-o", f"{place}/program", f"{place}/harness.c", code], check=True)


def lines_of(place, run=()):
    """What the program in the folder prints; last what stops it, if anything does."""
    ran = subprocess.run([*run, f"{place}/program"], capture_output=True, text=True, check=False)
    return ran.stdout.splitlines() + ([f"it stops: {ran.returncode} {ran.stderr}"] if ran.returncode else [])


def compare(functions, declared, place, ways):
    """Compares what LLVM's code gives with what the C gives in each of these ways to build and to run it."""
    os.mkdir(place)
    write_module(f"{place}/llvm.ll", declared, functions)
    write_module(f"{place}/ours.ll", declared, [[it for it in them if not it.endswith(LEFT_OUT)] for them in functions])
    subprocess.run(["llc", "-opaque-pointers", "-relocation-model=pic", "-trap-unreachable", "-filetype=obj",
                    f"{place}/llvm.ll", "-o", f"{place}/llvm.o"], check=True)
    refused = refusal(f"{HERE}/ir2c", f"{place}/ours.ll", place)
    if refused:
        sys.exit(refused)
    build(place, range(len(functions)), HERE_ALONE, f"{place}/llvm.o")
    wanted = lines_of(place)
    for compiler, run in ways:
        build(place, range(len(functions)), compiler, f"{place}/border.c")
        for left, right in itertools.zip_longest(wanted, lines_of(place, run)):
            if left != right:
                lines = functions[int((left or right).split()[0])]
                sys.exit("\n".join([f"test_opcodes.py: {right} for {left}, by {' '.join(compiler)}:", *lines]))
    print(f"opcodes: {len(functions)} functions, {len(wanted)} calls, in {len(ways)} ways")
    return wanted


def mistakes():
    """The edits: a file of ir2c, and its text before and after."""
    lines = [it for it in read(f"{HERE}/opcode_mistakes").splitlines() if it and it[0] != "#"]
    return [re.fullmatch(r"(\S+): (.*) ==> ?(.*)", it).groups() for it in lines]


def entries():
    """The entries of the tables of ir2c: the file, the name, and what stands for it."""
    sys.path.append(f"{HERE}/ir2c")
    for file in sorted(os.listdir(f"{HERE}/ir2c")):
        if file.endswith(".py") and file != "__main__.py":
            module, text = importlib.import_module(file[:-3]), read(f"{HERE}/ir2c/{file}")
            tables = [it for it in re.findall(r"^([A-Z]+) = \{", text, re.M) if isinstance(getattr(module, it), dict)]
            yield from ((file, *it) for table in tables for it in getattr(module, table).items())


def without_mistake():
    """Entries that no edit is about: neither at their name, nor in a function that stands for this name alone."""
    known, edits = list(entries()), mistakes()
    for file, name, made in known:
        alone = inspect.isfunction(made) and "<" not in made.__qualname__ and [it[2] for it in known].count(made) == 1
        inside = inspect.getsource(made) if alone else ""
        if not any((f'"{name}":' in old and at == file) or old in inside for at, old, _ in edits):
            yield f"{file}: {name}"


def parts(path):
    """The text of the C besides its functions, and that of each function by its number."""
    function = re.compile(r"^static \w+ proved_(\d+)\([^;]*?\{$.*?^\}$", re.M | re.S)
    text = read(path)
    return function.sub("", text), {int(it[1]): it[0] for it in function.finditer(text)}


def changed(made, right):
    """Some of the functions that are translated otherwise, or use the first macro or constant that is."""
    (rest, bodies), (right_rest, right_bodies) = parts(made), parts(right)
    used = "$^"
    if rest != right_rest:
        front = rest[: len(os.path.commonprefix([rest, right_rest]))]
        named = re.findall(r"(?:#define|static (?:inline|const) [\w ]+?) (\w+)[([]", front)
        used = re.sub(r"_(PART|\d+)$", "", named[-1])
    found = [it for it in bodies if bodies[it] != right_bodies[it] or re.search(used, bodies[it], re.I)]
    return found[: -MOST : len(found) // MOST + 1] + found[-MOST:]


def is_noticed(place, right, wanted, edit):
    """Whether this edit of ir2c, made in the folder, is told from the right one, whose C is in another."""
    file, old, new = edit
    shutil.copytree(f"{HERE}/ir2c", f"{place}/ir2c", ignore=shutil.ignore_patterns("__pycache__"))
    shutil.copy(f"{HERE}/rust_names.py", place)
    text = read(f"{place}/ir2c/{file}")
    if text.count(old) != 1:
        sys.exit(f"test_opcodes.py: in {file} there isn't one {old}")
    write(f"{place}/ir2c/{file}", text.replace(old, new))
    if refusal(f"{place}/ir2c", f"{right}/ours.ll", place):
        return True
    chosen = changed(f"{place}/ours.c", f"{right}/ours.c")
    wanted = [it for it in wanted if int(it.split()[0]) in chosen]
    for compiler in (WATCHED, PLAIN) if chosen else ():
        build(place, chosen, compiler, f"{place}/border.c")
        if lines_of(place) != wanted:
            return True
    return False


def notice_mistakes(folder, right, wanted):
    """Tries all edits of ir2c."""
    edits = [HARMLESS, *mistakes()]
    places = [f"{folder}/{it}" for it in range(len(edits))]
    with ThreadPoolExecutor(os.cpu_count()) as pool:
        noticed = list(pool.map(lambda place, edit: is_noticed(place, right, wanted, edit), places, edits))
    if noticed[0]:
        sys.exit("test_opcodes.py: an edit is told that changes no meaning")
    passed = [": ".join(edit[:2]) + f" ==> {edit[2]}" for edit, it in zip(edits[1:], noticed[1:]) if not it]
    if passed:
        sys.exit("\n".join(["test_opcodes.py: no function tells these mistakes of ir2c:", *passed]))
    print(f"opcodes: {len(edits) - 1} mistakes of ir2c are told")


def main():
    folder = sys.argv[1]
    missing = list(without_mistake())
    if missing:
        sys.exit("\n".join(["test_opcodes.py: opcode_mistakes has no mistake in", *missing]))
    declared, functions = cases()
    narrow = [it for it in functions if not re.search(r"\bi(77|128)\b", " ".join(it))]
    others = {it: ([f"{it}-linux-gnu-gcc", *STATIC], [f"qemu-{it}"]) for it in ("s390x", "mips")}
    others = {it: way for it, way in others.items() if shutil.which(way[0][0]) and shutil.which(way[1][0])}
    foreign = [(FOREIGN, [])]
    wide = [(HERE_ALONE, []), *foreign, (PLAIN, []), (WATCHED, []), others.get("s390x")]
    wanted = compare(functions, declared, f"{folder}/wide", [it for it in wide if it])
    compare(narrow, declared, f"{folder}/narrow", [it for it in [*foreign, others.get("mips")] if it])
    notice_mistakes(f"{folder}/mistakes", f"{folder}/wide", wanted)


main()
