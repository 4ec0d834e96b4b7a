"""Takes proofs, answers and bodies of functions away: the prover then goes by their contracts."""
import os
import pathlib
import re
import shutil

from functions import functions

HOLE = """use Rattle.{crate}.proofs.{path}.Statement.{{statement}}

pub {name}_spec : {{M : Type 1}} → statement M
{name}_spec = ?
"""

# The head of a function whose body is a part of what others see: of a constant, of the type that it returns, or of what
# a program reaches.
SEEN = re.compile(r" *(?:pub(?:\([^)]*\))? )?(?:final )?const (?:unsafe )?fn\b|.*-> impl\b|fn main\b")


def is_cycle(proofs, function):
    """Whether a function calls itself. Its proof then stands in a folder of another name."""
    *modules, name = function.split("::")
    return os.path.isdir("/".join([proofs, *modules, f"+{name}"]))


def leave_open(proofs, crate, names):
    """Puts a hole in the place of the proof of each function of these names."""
    for function in names:
        *modules, name = function.split("::")
        home = "/".join([proofs, *modules])
        shutil.rmtree(f"{home}/{name}", ignore_errors=True)
        os.makedirs(f"{home}/{name}")
        with open(f"{home}/{name}/Proof.antt", "w", encoding="utf-8") as it:
            it.write(HOLE.format(crate=crate, path=".".join([*modules, name]), name=name))


def without_bodies(path, text, types, names):
    """The text of a file src/.. in which the functions of these names never end. Each line stays where it is."""
    lines = text.split("\n")
    for it in functions(path, text, types):
        has_lines, is_seen = it.last > it.body + 1, any(map(SEEN.match, lines[it.first - 1 : it.body]))
        if it.name in names and has_lines and not is_seen:
            lines[it.body : it.last - 1] = ["loop {}", *[""] * (it.last - it.body - 2)]
    return "\n".join(lines)


def without_answers(proofs, function):
    """Takes away the answers of a function. What else its proof says, as its invariants, stays."""
    pathlib.Path(proofs, *function.split("::"), "Answers.antt").unlink(missing_ok=True)
