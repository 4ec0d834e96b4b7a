#!/usr/bin/env python3
"""damages.py CORPUS ANSWERS..: what each library accepts of each group of damages, and what it then writes.

In Markdown. A file of answers is named answers.LIBRARY."""
import collections
import sys

sys.dont_write_bytecode = True
from measured import print_table

KINDS = ("keys", "keys", "keys", "parameters", "parameters", "parameters", "parameters", "PKCS #8")
NOT_DER = {"False": "all that isn't DER: ", "True": "all that is DER: "}
US, STRICT = "libpkcs1", "libpkcs1 strict"
REJECTED, WRITTEN_ALIKE, NO_SUCH_TYPE = b"029"


def records(path):
    with open(path, "rb") as file:
        data = file.read()
    at = 0
    while at < len(data):
        yield data[at], data[at + 1]
        at += 6 + int.from_bytes(data[at + 2 : at + 6], "little")


class Counts:
    """For one library, how many inputs there were under each heading, and of how many it was so."""

    def __init__(self):
        self.all, self.those = collections.Counter(), collections.Counter()

    def add(self, heading, is_one):
        self.all[heading] += 1
        self.those[heading] += is_one

    def per_cent(self, heading):
        count, those = self.all[heading], self.those[heading]
        if count == 0:
            return "-"
        share = 100 * those / count
        if those in (0, count) or 1 <= share <= 99:
            return f"{share:.0f}"
        return f"{share:.1f}"

    def per_cent_of(self, heading):
        return f"{self.per_cent(heading)} ({self.all[heading]})" if self.all[heading] else "-"


def count(inputs, names, answers):
    """Of one library: what is accepted, by damage and kind and by group, and what is written alike."""
    accepted, written = Counts(), Counts()
    assert len(answers) == len(inputs)
    for (kind, damage), answer in zip(inputs, answers):
        if answer == NO_SUCH_TYPE:
            continue
        *_, group, _, is_der = names[damage]
        for heading in (group, NOT_DER[is_der] + KINDS[kind]):
            accepted.add(heading, answer != REJECTED)
        if chr(answer) in "234":
            written.add(("valid" if damage == 0 else "damaged") + " " + KINDS[kind], answer == WRITTEN_ALIKE)
    return accepted, written


def share(counts, library, heading):
    """What the library accepts. Where it reads less strictly, what it does then too."""
    accepted, strictly = (counts[it][0].per_cent(heading) for it in (library, STRICT))
    return f"{accepted}, strict {strictly}" if library == US and strictly != accepted else accepted


def main():
    corpus, *files = sys.argv[1:]
    with open(corpus + ".names", encoding="utf-8") as file:
        names = [line.rstrip("\n").split("\t") for line in file]
    inputs = list(records(corpus))
    counts = {}
    for name in files:
        with open(name, "rb") as file:
            counts[name.rsplit("answers.", 1)[1].replace("_", " ")] = count(inputs, names, file.read())
    kinds = dict.fromkeys(KINDS)
    lines = {NOT_DER["False"] + kind: NOT_DER["False"] + kind for kind in kinds}
    lines.update((group, group + (" *" if is_der == "True" else "")) for *_, group, _, is_der in names)
    lines["valid"] = "valid"
    lines = {heading: shown for heading, shown in lines.items() if any(it.all[heading] for it, _ in counts.values())}
    print("Per cent accepted. *: DER of the type.\n")
    libraries = [library for library in counts if library != STRICT]
    print_table(["damage", *libraries], ([shown, *(share(counts, library, heading) for library in libraries)]
                                         for heading, shown in lines.items()))
    print("Per cent written as the same octets, of those accepted and written (how many), if it isn't 100 for all.\n")
    writers = {name: written for name, (_, written) in counts.items() if written.all}
    groups = [f"{what} {kind}" for what in ("valid", "damaged") for kind in kinds]
    groups = [group for group in groups if any(it.per_cent(group) not in ("100", "-") for it in writers.values())]
    print_table(["inputs", *writers], ([group, *(it.per_cent_of(group) for it in writers.values())] for group in groups))


if __name__ == "__main__":
    main()
