"""What the program printed, what callgrind counted, and tables."""
import collections
import re

COUNTED_CALLS = 50


def smallest(files):
    """The least number of each line A|B|C|NUMBER."""
    least = {}
    for name in files:
        with open(name, encoding="utf-8") as file:
            for line in file:
                *key, number = line.strip().split("|")
                least[tuple(key)] = min(float(number), least.get(tuple(key), float("inf")))
    return least


def counted(files, wanted=lambda events: events["Ir"]):
    """The instructions of a call, or what else is wanted of callgrind's events, from dumps that stand in one file."""
    counts, label, names = {}, None, []
    for name in files:
        with open(name, encoding="utf-8") as file:
            for line in file:
                found = re.match(r"desc: Trigger: Client Request: (.*)", line)
                label = tuple(found[1].split("|")) if found else label
                if line.startswith("events: "):
                    names = line.split()[1:]
                if line.startswith("totals: ") and label:
                    events = collections.Counter(dict(zip(names, map(int, line.split()[1:]))))
                    counts[label], label = wanted(events) / COUNTED_CALLS, None
    return counts


def branches(events):
    return events["Bc"] + events["Bi"]


def mispredicted(events):
    return events["Bcm"] + events["Bim"]


def shown(number):
    return f"{number:.0f}" if number >= 100 else f"{number:.1f}" if number >= 10 else f"{number:.2f}"


def print_table(head, lines):
    """A table in Markdown."""
    print(f"| {' | '.join(head)} |\n|{'---|' * len(head)}".replace("|  |", "| |"))
    for line in lines:
        print(f"| {' | '.join(line)} |".replace("|  |", "| |"))
    print()
