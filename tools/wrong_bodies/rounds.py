"""Tries edits of a crate, many in one check, and each that such rounds don't settle by itself."""
import collections
import os
import pathlib
import shutil
import subprocess
import tempfile

from credit import NEEDS_NONE, of_itself
from earlier import Verdicts, kept
from edits import BadEdit
from functions import functions, types_of
from holes import is_cycle, leave_open, without_answers, without_bodies
from prover import (
    KIT, TAKEN_AWAY, TOLD, check_words, goals_without_answers, is_read, messages, names_what_is_gone, own_goal, told_of,
    unreadable, why_not)


class Crate:
    """A crate, and what the prover kept of it in this run."""

    def __init__(self, name, crates, edits, anew):
        self.name, self.edits, self.kept = name, edits, tempfile.mkdtemp(prefix="wrong-kept-")
        self.words, self.earlier = check_words(name, crates), Verdicts(name, crates, edits, anew)
        self.checks, self.seconds, self.taken, self.standing, self.verdicts = 0, 0.0, 0, 0, {}
        # of edits: what was said of the answers that they lost, by their functions
        self.lost = {}
        # of functions: their goals that are open without an edit and without answers
        self.needing = {}
        self.texts = {}
        for it in kept.files_below(f"crates/{name}/src"):
            self.texts[it.removeprefix(f"crates/{name}/")] = pathlib.Path(it).read_text(encoding="utf-8")
        self.types = types_of(self.texts)
        every = {it.name for path, text in self.texts.items() for it in functions(path, text, self.types)}
        # the functions of whose proof a check needs nothing, where they aren't edited
        self.left_out = {it for it in every if not is_cycle(f"crates/{name}/proofs", it)}

    def check(self, texts, names, unanswered=()):
        """What the prover says of these functions of a copy of the crate with these texts in place of its own, and
        without the answers of some. What they call is taken by its contract, unproved, and has no body."""
        holes = self.left_out.difference(names)
        with tempfile.TemporaryDirectory(prefix="wrong-") as room:
            for part in ("src", "specs", "proofs"):
                if os.path.isdir(f"crates/{self.name}/{part}"):
                    shutil.copytree(f"crates/{self.name}/{part}", f"{room}/{part}")
            for path, text in (self.texts | texts).items():
                with open(f"{room}/{path}", "w", encoding="utf-8") as it:
                    it.write(without_bodies(path, text, self.types, holes))
            leave_open(f"{room}/proofs", self.name, holes)
            for it in unanswered:
                without_answers(f"{room}/proofs", it)
            words = [f"{KIT}/bin/rattle", "check", *self.words, "--incremental", self.kept, "--allow-holes"]
            for it in names:
                words += ["--only", it]
            with open(f"{room}/said", "w+", errors="replace") as said:
                ran = subprocess.Popen(words, cwd=room, stdin=subprocess.DEVNULL, stdout=said, stderr=said)
                _, _, used = os.wait4(ran.pid, 0)
                self.checks, self.seconds = self.checks + 1, self.seconds + used.ru_utime + used.ru_stime
                said.seek(0)
                return messages(said.read())

    def try_all(self):
        """Of each edit, by its name: the goal that refused it, or None and why it doesn't count as refused."""
        left = []
        for edit in self.edits:
            if goal := self.earlier.taken(edit):
                self.verdicts[edit.name] = goal, None
                self.taken += 1
                continue
            if self.earlier.stands(edit):
                self.standing += 1
                continue
            try:
                left.append(edit.with_bodies(self.texts, self.types))
            except BadEdit as why:
                self.judge(edit, None, f"BAD EDIT: {why}")
        for edit in [it for it in left if it.refused]:
            self.try_apart(edit)
        self.try_in_rounds([it for it in left if not it.refused])
        shutil.rmtree(self.kept)
        return self.verdicts

    def judge(self, edit, goal, why):
        """Notes the goal that refused an edit, or else why it doesn't count as refused."""
        self.verdicts[edit.name] = goal, why
        if goal:
            self.earlier.keep(edit, goal)

    def try_in_rounds(self, left):
        """Tries edits, as many as go together in a check. Those that took away what answers name are then tried without
        these answers, in rounds too. What they don't settle, and two of the first rounds, is tried alone."""
        tries, late = collections.Counter(), []
        while left:
            together, texts = self.round_of(left)
            self.settle(together, texts)
            tries.update(it.name for it in together)
            left = [it for it in left if it.name not in self.verdicts]
            late += [it for it in left if tries[it.name] == 2 or self.took_away(it)]
            left = [it for it in left if it not in late]
        self.try_without_answers([it for it in late if self.took_away(it)])
        for edit in late:
            if edit.name not in self.verdicts:
                self.settle(*self.round_of([edit]))

    def took_away(self, edit):
        """Whether each answer that an edit lost was lost by what it took away itself."""
        lost = self.lost.get(edit.name, {}).values()
        return bool(lost) and all(names_what_is_gone(it, TAKEN_AWAY) for it in lost)

    def try_without_answers(self, left):
        """Tries edits without the answers that they lost, as many as go together in a check, and gives a verdict on
        those that a goal refuses which fails of itself."""
        while left:
            together, texts = self.round_of(left)
            lost = sorted({name for it in together for name in self.lost[it.name]})
            said = self.check(texts, sorted({name for it in together for _, name in it.owned}), lost)
            if TOLD.match(said[-1]) and not unreadable(said):
                self.find_needing(lost)
                for edit in together:
                    if goal := self.failing_of_itself(edit, texts, said, self.lost[edit.name]):
                        self.judge(edit, goal, None)
            left = [it for it in left if it not in together]

    def round_of(self, edits):
        """Edits, the first among them, that change different functions and still apply one after another; and the texts
        that they make."""
        together, texts, owned = [], {}, set()
        for edit in edits:
            if not edit.owned & owned:
                try:
                    texts = texts | edit.applied(self.texts | texts)
                except BadEdit:
                    continue
                together.append(edit)
                owned |= edit.owned
        return together, texts

    def settle(self, edits, texts):
        """Tries edits in one check, of these texts that they make. It gives no verdict on an edit without credit among
        others. Those that can't be read are left out, and where the prover doesn't say which these are, each half is
        tried by itself."""
        said = self.check(texts, sorted({name for it in edits for _, name in it.owned}))
        unread = unreadable(said)
        for edit in edits:
            goal, why = self.verdict(edit, texts, said, unread)
            if not goal and not why and len(edits) == 1:
                goal, why = self.second_thought(edit, texts, said)
            if goal or why:
                self.judge(edit, goal, why)
        left = [it for it in edits if it.name not in self.verdicts]
        if not left or not unread and TOLD.match(said[-1]):
            return
        half = len(left) // 2 if len(left) == len(edits) else len(left)
        for part in filter(None, (left[:half], left[half:])):
            self.settle(*self.round_of(part))

    def verdict(self, edit, texts, said, unread):
        """What was said of an edit, tried with others in these texts: a goal that refused it, or why it can't be read,
        or neither."""
        spans = self.spans(edit, texts)
        errors = [told for at, line, told in unread
                  if any(file == at and it.first <= line <= it.last for file, it in spans)]
        if errors:
            return None, f"BAD EDIT: {errors[0][:150]}"
        told = self.told(edit, texts, said)
        self.lost[edit.name] = {name: it.lost[0] for name, it in told.items() if it.lost}
        goals = [goal for name, it in told.items() if not unread and (goal := own_goal(it, name))]
        return (goals[0] if goals else None), None

    def spans(self, edit, texts):
        """The functions that an edit changes as they stand in these texts, each with its file."""
        return [(file, it) for file, text in texts.items() for it in functions(file, text, self.types)
                if (file, it.name) in edit.owned]

    def told(self, edit, texts, said):
        """What was said of the proof of each function that an edit changes, by its name."""
        return {it.name: told_of(said, self.name, it.name, lines_of(file, it)) for file, it in self.spans(edit, texts)}

    def second_thought(self, edit, texts, said):
        """Of an edit that was tried alone, and that no goal refused: one that fails of itself, or why there is none."""
        lost = self.lost[edit.name]
        if not lost or not is_read(said):
            return None, why_not(said, self.name, [name for _, name in edit.owned])
        said = self.check(texts, sorted(name for _, name in edit.owned), lost)
        self.find_needing(lost)
        goal = self.failing_of_itself(edit, texts, said, lost)
        return goal, None if goal else because_of(*lost.values())

    def failing_of_itself(self, edit, texts, said, lost):
        """The first goal that was open without the answers that an edit lost, and fails of itself; or None."""
        for name, told in self.told(edit, texts, said).items():
            needing = self.needing.get(name) if name in lost and told.opened and not told.lost else None
            if needing is not None and (goal := of_itself(told.opened, needing)):
                return f"{name}: `{goal}`{NEEDS_NONE}"
        return None

    def find_needing(self, names):
        """Finds the goals of functions themselves that are open without their answers, where that is clear."""
        names = sorted(set(names) - self.needing.keys())
        if not names:
            return
        said = self.check({}, names, names)
        spans = {it.name: lines_of(file, it) for file, text in self.texts.items()
                 for it in functions(file, text, self.types) if it.name in names}
        for name in names:
            others = [it for other, it in spans.items() if other != name]
            goals = goals_without_answers(said, self.name, name, outside(others))
            if goals is not None or len(names) == 1:
                self.needing[name] = goals

    def try_apart(self, edit):
        """Tries an edit that changes more than bodies, by the function that it names."""
        said = self.check(edit.applied(self.texts), [edit.refused])
        told = told_of(said, self.name, edit.refused, lambda file, line: True)
        goal = own_goal(told, edit.refused) if is_read(said) else None
        if told.lost and is_read(said):
            self.judge(edit, goal, None if goal else because_of(*told.lost))
        else:
            self.judge(edit, goal, None if goal else why_not(said, self.name, [edit.refused]))


def lines_of(file, function):
    """Whether a line of a file is one of the function."""
    return lambda at, line: at == file and function.first <= line <= function.last


def outside(spans):
    """Whether a line of a file is in none of these spans."""
    return lambda at, line: not any(it(at, line) for it in spans)


def because_of(lost, *_):
    """Why an edit has no credit whose function has an answer of which this was said."""
    return f"NOT REFUSED: an answer names what the edit took away, and no goal fails of itself: {lost[:150]}"
