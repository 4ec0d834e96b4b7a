"""Mistakes that are planted in a text, each of which must be refused. A file has them: of each what it does, the text
there (-), and the text in its place (+). Where the variable SAMPLE is set, some of them are drawn."""
import os
import re
import sys

TOP = os.path.normpath(f"{os.path.dirname(os.path.abspath(__file__))}/../..")
sys.path.insert(0, f"{TOP}/tools")
import verdicts  # noqa: E402


def read(path):
    with open(path, encoding="utf-8") as it:
        return it.read()


def planted(path, plant):
    """What each mistake of the file does, with what `plant` makes of that and of both texts: those that are drawn."""
    found = {}
    for what, *lines in (it.split("\n") for it in re.sub("^#.*\n", "", read(path), flags=re.M).strip().split("\n\n")):
        found[what] = plant(what, *("\n".join(it[1:] for it in lines if it[0] == sign) for sign in "-+"))
    drawn = verdicts.drawn(found, 3, verdicts.sample()) if "SAMPLE" in os.environ else found
    return [(it, found[it]) for it in drawn]


def put(text, what, old, new):
    """The text with the new one in the place of the old one, which is there once."""
    if text.count(old) != 1:
        sys.exit(f"{what}: the text is there {text.count(old)} times: {old}")
    return text.replace(old, new)


def tell(mistakes, refused):
    """Prints of each mistake what refuses it. The status is 1 if one passed."""
    passed = 0
    for (what, _), by in zip(mistakes, refused):
        print(f"{'refused' if by else 'PASSED'}: {what}: {by or ''}", flush=True)
        passed += not by
    print(f"{len(mistakes)} mistakes planted, {passed} passed")
    sys.exit(passed > 0)
