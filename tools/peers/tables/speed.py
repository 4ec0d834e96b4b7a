#!/usr/bin/env python3
"""speed.py FOLDER: times, instructions, branches and calls for memory of each library on sets of different encodings,
from the files of run.sh, in Markdown. Without a folder: the sets."""
import glob
import sys

sys.dont_write_bytecode = True
from measured import branches, counted, mispredicted, print_table, shown, smallest

KEYS = {"2048.public_key": "public 2048", "2048.private_key": "private 2048", "4096.private_key": "private 4096",
        "3_primes.multi_prime_key": "three primes", "20_primes.multi_prime_key": "20 primes",
        "2048.container": "PKCS #8 2048"}
PARAMETERS = {"mixed.pss": "PSS", "mixed.pss_algorithm": "PSS algorithm", "mixed.oaep": "OAEP"}
SETS = {**KEYS, **PARAMETERS}
FIRST, BRANCHED = "libpkcs1", ("2048.private_key", "20_primes.multi_prime_key", "mixed.pss")
READ, WRITTEN = "0", "1"


def net(counts):
    """The numbers, less those of what comes before a call."""
    return {key: count - counts["nothing", key[1], READ] for key, count in counts.items() if key[0] != "nothing"}


def ratio(numbers, *key):
    """Beside that of libpkcs1, of which it is the number itself."""
    number, ours = numbers.get(key), numbers.get((FIRST, *key[1:]))
    return None if number is None or not ours else number if key[0] == FIRST else number / ours


def cell(numbers, *key):
    found = ratio(numbers, *key)
    return "-" if found is None else f"{found:.0f}" if key[0] == FIRST else shown(found)


def print_lines(title, head, libraries, cells):
    """A line for each library of which any cell is known."""
    print(f"{title}\n")
    lines = ([library, *cells(library)] for library in libraries)
    print_table(["library", *head], (line for line in lines if any(it != "-" for it in line[1:])))


def libraries_in(numbers):
    named = dict.fromkeys(key[0] for key in numbers if key[0] != "nothing")
    return sorted(named, key=lambda library: library != FIRST)


def print_ratios(what, numbers):
    for written, done in ((READ, "Read"), (WRITTEN, "Read and written")):
        print_lines(f"{done}: {what} as ratios to those of {FIRST}, whose line has their number.", SETS.values(),
                    libraries_in(numbers), lambda library: [cell(numbers, library, it, written) for it in SETS])


def print_branches(files):
    kinds = [net(counted(files, of)) for of in (lambda events: events["Ir"], branches, mispredicted)]
    print_lines("Read: instructions / branches / those that callgrind predicts wrongly.",
                [SETS[it] for it in BRANCHED], libraries_in(kinds[0]), lambda library: [
                    " / ".join(shown(of[library, it, READ]) for of in kinds) if (library, it, READ) in kinds[0] else "-"
                    for it in BRANCHED])


def main():
    if len(sys.argv) == 1:
        return print(*SETS, sep="\n")
    folder = sys.argv[1]
    print_ratios("nanoseconds", net(smallest(glob.glob(f"{folder}/times.*"))))
    files = sorted(glob.glob(f"{folder}/speed.callgrind.*"))
    print_ratios("instructions", net(counted(files)))
    print_branches(files)
    calls = smallest(glob.glob(f"{folder}/allocations"))
    print_lines("Calls for memory: read, read and written.", SETS.values(), libraries_in(calls), lambda library: [
        " / ".join(f"{calls[library, name, it]:.0f}" for it in (READ, WRITTEN) if (library, name, it) in calls) or "-"
        for name in SETS])


if __name__ == "__main__":
    main()
