#!/usr/bin/env python3
"""mistakes.py SOURCE < MESSAGES: each call of `sequence!` in this file is refused as it says.

MESSAGES are those of `cargo check --message-format=json`. At each line with `//~` an error has to stand with the text
after that, and the first error of a call is one of these. How rustc prints the path of a type differs.
"""
import json
import re
import sys


def calls(lines):
    """Of each call its first and its last line, and the lines of its errors, with what these say."""
    begin = None
    for number, line in enumerate(lines, 1):
        if line.startswith("sequence!"):
            begin, meant = number, []
        if begin and (found := re.search(r"//~ (.*)", line)):
            meant.append((number, found[1]))
        if begin and line == "}":
            yield begin, number, meant
            begin = None


def errors(messages):
    """The place and the text of each error, in their order."""
    for message in (it["message"] for it in map(json.loads, messages) if it["reason"] == "compiler-message"):
        spans = [it for it in message["spans"] if it["is_primary"]]
        if message["level"] == "error" and spans:
            yield spans[0], " ".join([message["message"], *(it["label"] or "" for it in spans)])


def outer(span, path):
    """The line of the file that a span stands for: of a macro's text, where it was called."""
    while not path.endswith(span["file_name"]) and span.get("expansion"):
        span = span["expansion"]["span"]
    return span["line_start"]


def main():
    path = sys.argv[1]
    with open(path, encoding="utf-8") as source:
        meant = list(calls(source.read().splitlines()))
    found = [(outer(span, path), text) for span, text in errors(sys.stdin)]
    wrong = []
    for begin, end, said in meant:
        its = [it for it in found if begin <= it[0] <= end]
        for line, text in said:
            if not any(it[0] == line and text in it[1] for it in its):
                wrong.append(f"{path}: line {line} isn't refused by {text!r}, but these are: {its[:3]}")
        if not any(it[0] == line and text in it[1] for it in its[:1] for line, text in said):
            wrong.append(f"{path}: the first error of line {begin} is {its[:1]}")
    wrong += [f"{path}: {it} is in no call" for it in found if not any(begin <= it[0] <= end for begin, end, _ in meant)]
    print("\n".join(wrong) or f"{path}: {len(meant)} calls of sequence! are refused as they should be")
    sys.exit(bool(wrong) or not meant)


if __name__ == "__main__":
    main()
