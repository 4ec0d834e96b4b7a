#!/usr/bin/env python3
"""put.py TABLES DOCUMENT: puts the tables of run.sh's tables.md into docs/COMPARISON.md, each in place of the one there
with the same head. Of those with one head, the first in place of the first. The sentences stay for the writer."""
import collections
import re
import sys

TABLE = re.compile(r"(?:^\|.*\n)+", re.M)


def main():
    tables, document = sys.argv[1:]
    made = collections.defaultdict(list)
    with open(tables, encoding="utf-8") as file:
        for table in TABLE.findall(file.read()):
            made[table.split("\n", 1)[0]].append(table)

    def put(found):
        waiting = made.get(found[0].split("\n", 1)[0])
        return waiting.pop(0) if waiting else found[0]

    with open(document, encoding="utf-8") as file:
        text = TABLE.sub(put, file.read())
    with open(document, "w", encoding="utf-8") as file:
        file.write(text)


if __name__ == "__main__":
    main()
