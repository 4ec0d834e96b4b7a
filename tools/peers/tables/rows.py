#!/usr/bin/env python3
"""rows.py FOLDER: each call of pkcs1.h on each input, beside a straight line of C and the crate for Rust, in Markdown:
the least and the most ratios, the table of rust/README.md, and all rows."""
import glob
import signal
import sys

sys.dont_write_bytecode = True
from measured import counted, print_table, shown, smallest

US, LINE, STRUCTS, VIEWS = "libpkcs1", "line of C", "our crate, structs", "our crate, views"
QUESTIONS = ("is", "algorithm_is", "label", "bit_len")
CALLS = ("read", "strict", "write", "length", *QUESTIONS)
KINDS = {"keys": ("public_key", "private_key", "multi_prime_key"), "containers": ("container",),
         "parameters": ("pss", "pss_algorithm", "oaep", "oaep_algorithm")}
TYPES = sum(KINDS.values(), ())
OF_CRATE = {"2048.public_key": "public key of 2048 bits", "2048.private_key": "private key of 2048 bits",
            "2048_3_primes.multi_prime_key": "of three primes", "sha1.pss": "PSS `3000`",
            "sha256.pss": "PSS with SHA-256", "sha3_256.pss": "PSS with SHA3-256", "sha256.oaep": "OAEP with SHA-256",
            "sha256_label.oaep": "OAEP with SHA-256 and a label"}


def net(numbers):
    """The numbers, less what comes before a call."""
    before = numbers.pop(("nothing", "-", "-"), 0)
    return {key: number - before for key, number in numbers.items()}


class Measured:
    """Instructions and times, by who, call and input."""

    def __init__(self, folder):
        self.instructions = net(counted([f"{folder}/rows.callgrind"]))
        self.times = net(smallest(glob.glob(f"{folder}/rows.times.*")))
        self.rows = sorted({key[1:] for key in self.instructions if key[0] == US}, key=lambda row: (
            CALLS.index(row[0]), TYPES.index(row[1].split(".")[1]), row[1]))

    def ratio(self, row, numbers):
        """Beside the line of C."""
        ours, theirs = numbers.get((US, *row)), numbers.get((LINE, *row))
        return ours / theirs if ours is not None and theirs else None


def print_ranges(it):
    def least_to_most(call, types):
        ratios = [it.ratio(row, it.instructions) for row in it.rows
                  if row[0] == call and row[1].split(".")[1] in types]
        ratios = [ratio for ratio in ratios if ratio is not None]
        return f"{min(ratios):.2f} to {max(ratios):.2f}" if ratios else "-"

    print_table(["call", "of", "beside a line of C"], (
        [call, kind, least_to_most(call, types)] for call in CALLS[:4] for kind, types in KINDS.items()))


def print_crate(it):
    def count(who, name):
        number = it.instructions.get((who, "read", name))
        return "" if number is None or (who, name) == (VIEWS, "2048.public_key") else f"{number:.0f}"

    print_table(["", "as a struct", "as a view"], (
        [shown_name, count(STRUCTS, name), count(VIEWS, name)] for name, shown_name in OF_CRATE.items()))


def print_all(it):
    def number(value):
        return "-" if value is None else shown(value) if value < 10 else f"{value:.0f}"

    def cells(row, numbers):
        yield number(numbers.get((US, *row)))
        yield number(it.ratio(row, numbers))
        yield from (number(numbers.get((who, *row))) for who in (STRUCTS, VIEWS))

    others = ["beside a line of C", "structs", "views"]
    head = ["call", "input", "instructions", *others, *(["ns", *others] if it.times else [])]
    print_table(head, ([*row, *cells(row, it.instructions), *(cells(row, it.times) if it.times else [])]
                       for row in it.rows))


def main():
    signal.signal(signal.SIGPIPE, signal.SIG_DFL)
    it = Measured(sys.argv[1])
    for part in (print_ranges, print_crate, print_all):
        part(it)


if __name__ == "__main__":
    main()
