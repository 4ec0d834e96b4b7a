"""Goals that fail of themselves: what counts against an edit that takes away what answers of its function name.

The edited function is tried without its answers, and so is the function itself. A clause of the contract that the
prover's own search proves of the function on each path, and leaves open of the edited one, needed none of the answers.
"""
import re

# How a goal is told that fails of itself.
NEEDS_NONE = ", which needs no answer without the edit"
GOAL = re.compile(r"returns(?:-|$)(?:.*?clause-(\w+))?")


def clause_of(goal):
    """The clause of the contract that a goal is a part of, on whichever path: its name, or '' where the goal is for all
    of them. None where it is for none: for a call's demands, a loop, or an overflow."""
    found = GOAL.match(goal)
    return found and (found[1] or "")


def of_itself(opened, needing):
    """The first of the goals open in an edited function that fails of itself, or None. `needing` are those that are
    open in the function itself."""
    needed = {clause_of(it) for it in needing} - {None}
    for goal in opened:
        clause = clause_of(goal)
        if clause is not None and not needed & {clause, ""} and (clause or not needed):
            return goal
    return None
