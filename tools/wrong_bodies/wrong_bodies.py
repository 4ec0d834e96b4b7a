#!/usr/bin/env python3
"""Tries the wrong bodies in crates/NAME/wrong, many in one check: the prover must refuse each at a goal of the function
that it changes.

    tools/wrong_bodies/wrong_bodies.py [--jobs N] [--anew|--demo] [NAME..]
    tools/wrong_bodies/wrong_bodies.py --write [NAME..]     writes the line of each crate whose edits were refused here

Run it at the top of the repository, behind `rt ci` or `rt check`. README.md beside this file says what counts as
refused, and what is kept. The last line is 'N refused, M failed'; the status is 0 exactly where M is 0.
"""
import argparse
import collections
import concurrent.futures
import os
import sys

sys.dont_write_bytecode = True
from earlier import DEMO, Verdicts, is_demo, kept
from credit import NEEDS_NONE
from edits import edits_in
from prover import BROKEN, read_crates
from rounds import Crate


def lanes(wanted):
    """How many crates are tried side by side: one for each processor and each 4 GB of memory."""
    memory = os.sysconf("SC_PAGE_SIZE") * os.sysconf("SC_PHYS_PAGES")
    return wanted or max(1, min(len(os.sched_getaffinity(0)), memory // 4_000_000_000))


def must_be_refused(name):
    """Of the demo only the edits that are called wrong, and harmless ones that are known to get credit."""
    return not is_demo(name) or name.partition("#")[2].startswith(("wrong_", "credited_"))


def tell(crate, counts):
    """Prints the verdicts on a crate's edits, and counts them."""
    for name, (goal, why) in sorted(crate.verdicts.items()):
        is_right = bool(goal) == must_be_refused(name)
        told = "FAILED: " if not is_right else "" if goal else "no credit, as it must be: "
        print(f"{name}: {told}{f'refused at {goal}' if goal else why}")
        counts["failed"] += not is_right
        if is_right and goal:
            counts.update(["refused", *(it for it in (BROKEN, NEEDS_NONE) if goal.endswith(it))])
    counts["taken"] += crate.taken
    counts["standing"] += crate.standing
    print(f"({crate.name}: {len(crate.verdicts)} edits, {crate.taken} refused in an earlier run, {crate.checks} checks,"
          f" {crate.seconds:.0f} s of processor time; {crate.standing} stand in the repository's line"
          f"{'' if crate.earlier.said else ', which does not fit'})", flush=True)


def arguments():
    given = argparse.ArgumentParser(description=__doc__, formatter_class=argparse.RawDescriptionHelpFormatter)
    given.add_argument("--jobs", type=int, help="how many crates side by side")
    given.add_argument("--anew", action="store_true", help="try those too that were refused before")
    given.add_argument("--demo", action="store_true", help="try the edits that test this program, and no other")
    given.add_argument("--write", action="store_true", help="try nothing, and write the lines of the repository")
    given.add_argument("names", nargs="*", metavar="NAME", help="crates, if not all")
    return given.parse_args()


def write_lines(crates, edits):
    """Writes the line of each crate whose edits were all refused on this machine, and says of which some weren't."""
    left = {it: Verdicts(it, crates, edits[it], False).write() for it in edits}
    for name, those in left.items():
        if those:
            print(f"{name}: its line isn't written, as {len(those)} edits were not refused on this machine, the first"
                  f" {those[0]}: wrong_bodies.py tries them", file=sys.stderr)
    return 1 if any(left.values()) else 0


def main():
    given, crates = arguments(), read_crates()
    edits = {it: edits_in(f"{DEMO}/{it}" if given.demo else f"crates/{it}/wrong") for it in given.names or crates}
    if given.write:
        return write_lines(crates, {it: edits[it] for it in edits if edits[it]})
    tried = [Crate(it, crates, edits[it], given.anew) for it in edits if edits[it]]
    tried.sort(key=lambda it: -len(it.edits))
    counts = collections.Counter()
    with concurrent.futures.ThreadPoolExecutor(lanes(given.jobs)) as pool:
        running = {pool.submit(it.try_all): it for it in tried}
        for done in concurrent.futures.as_completed(running):
            done.result()
            tell(running[done], counts)
    kept.Store("wrong_bodies").shrink()
    print(f"{counts[BROKEN]} of the refused edits were judged by an answer that no longer proves its goal")
    print(f"{counts[NEEDS_NONE]} by a goal that fails of itself, where an answer names what the edit took away")
    print(f"{counts['taken']} were refused in an earlier run on this machine, over the same files")
    print(f"{counts['standing']} were not tried: lines of tools/verdicts.txt fit by which they are refused")
    print(f"{counts['refused']} refused, {counts['failed']} failed")
    return 1 if counts["failed"] else 0


if __name__ == "__main__":
    sys.exit(main())
