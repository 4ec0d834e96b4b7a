#!/usr/bin/env python3
"""Tests erase.py by the crates and the page forms.txt, compare.py by the mistakes of planted.txt, and by_hand.py by
those of by_hand.txt."""
import collections
import contextlib
import pathlib
import re
import shutil
import subprocess
import sys
import tempfile
import unittest

HERE = pathlib.Path(__file__).resolve().parent
sys.path.insert(0, str(HERE))
sys.dont_write_bytecode = True

import by_hand  # noqa: E402
import compare  # noqa: E402
import erase  # noqa: E402
import forms  # noqa: E402
from tokens import Refused  # noqa: E402

HEAD = "// Made of crates/der_core/src/page.rt by tools/erase/erase.py, and not to be edited.\n"


def cases():
    """The title, the source and the result or the refusal of each case of the page."""
    page = (HERE / "forms.txt").read_text(encoding="utf-8")
    for case in re.split(r"^# ", page, flags=re.M)[1:]:
        title, _, text = case.partition("\n")
        source, sign, result = re.split(r"^(=>\n|!! )", text, maxsplit=1, flags=re.M)
        yield title, source.rstrip("\n") + "\n", sign.strip(), result.rstrip("\n") + "\n"


def place_of(file):
    """Where a file that is made stands below the folder of the crate, and of which crate it is made."""
    crate = pathlib.Path(file).parts[0]
    folder = next((folder for folder, crates in compare.MADE.items() if crate in crates), "src/proved")
    return pathlib.Path(folder, file), crate


def planted(page):
    """The file, what is wrong, and the two texts of each mistake of the page."""
    for line in (HERE / page).read_text(encoding="utf-8").splitlines():
        if not line.startswith("#"):
            yield [it.strip() for it in line.split("|")]


@contextlib.contextmanager
def changed(path, old, new):
    """The file has the new text in place of the old one, or at its end."""
    text = path.read_text(encoding="utf-8")
    assert text.count(old) == 1 or not old, f"{old!r} in {path}"
    path.write_text(text.replace(old, new) if old else text + new, encoding="utf-8")
    try:
        yield
    finally:
        path.write_text(text, encoding="utf-8")


def first_difference(source, made):
    """What compare.py finds between the two texts, as words of both."""
    source, made = compare.Source("der_core", source), compare.words_of(made)
    found = compare.difference(source, made, collections.Counter())
    return found and (source[found[0]], made[found[1]].text if found[1] < len(made) else "")


def run_compare(folder):
    """The status of compare.py over the folder of a crate, and what it prints."""
    done = subprocess.run([HERE / "compare.py", folder], capture_output=True, text=True, check=False)
    return done.returncode, done.stdout + done.stderr


class Forms(unittest.TestCase):
    def test_each_form_is_changed_as_the_page_says(self):
        for title, source, sign, result in cases():
            with self.subTest(title):
                if sign == "=>":
                    self.assertEqual(erase.erased("der_core", "page.rt", source), HEAD + result)
                else:
                    with self.assertRaisesRegex(Refused, re.escape(result.strip())):
                        erase.erased("der_core", "page.rt", source)

    def test_each_form_stands_in_the_crates(self):
        """So erase.py --check tells where one is changed otherwise."""
        found = {form for crates in compare.MADE.values() for path, source in compare.sources(crates).items()
                 for form, _ in erase.edits_of(erase.Code(path.parts[0], source.read_text(encoding="utf-8")))}
        self.assertEqual(found, set(forms.FORMS) - {forms.refused})

    def test_the_table_has_what_each_form_is(self):
        table = (HERE / "README.md").read_text(encoding="utf-8")
        for form in forms.FORMS:
            with self.subTest(form.__name__):
                self.assertIn(f"| {form.__doc__.strip().replace(chr(10) + '    ', ' ')} |", table)


class Comparison(unittest.TestCase):
    def test_it_agrees_with_the_page(self):
        for title, source, sign, result in cases():
            if sign == "=>":
                with self.subTest(title):
                    self.assertIsNone(first_difference(source, result))

    def test_a_clone_that_cannot_fail_stays(self):
        clone = "impl Clone for Tag {\n    fn clone(&self) -> Tag {\n        *self\n    }\n}\n"
        self.assertEqual(first_difference(clone + "fn f() {}", "fn f() {}"), ("impl", "fn"))

    def test_what_begins_as_a_form_but_is_none_stays(self):
        for source, made in [("fn f() { final_value }", "fn f() { }"), ("use a::Drop::b;", "use a::b;"),
                             ("fn f(ghosts: u8) {}", "fn f() {}"), ("#[tactical(x)]\nfn f() {}", "fn f() {}"),
                             ("fn f() { a::std::b }", "fn f() { a::crate::rattle_std::b }"),
                             ("fn f<W: fmt::Read>() {}", "fn f() {}"), ("x!(Formatter<V>)", "x!(Formatter<'_>)")]:
            with self.subTest(source):
                self.assertIsNotNone(first_difference(source, made))

    def test_the_import_of_the_prelude_stands_once_and_outside_of_all(self):
        line = "use crate::rattle_std::prelude::Vec;"
        self.assertIsNone(first_difference("fn f() {}", f"{line} fn f() {{}}"))
        self.assertEqual(first_difference("fn f() {}", f"{line} {line} fn f() {{}}"), ("fn", "use"))
        self.assertEqual(first_difference("fn f() {}", f"fn f() {{ {line} }}"), ("}", "use"))
        more = line.replace("Vec", "{Vec, u8}")
        self.assertEqual(first_difference("fn f() {}", f"{more} fn f() {{}}"), ("fn", "use"))


class Planted(unittest.TestCase):
    def setUp(self):
        self.room = tempfile.TemporaryDirectory()
        self.addCleanup(self.room.cleanup)
        self.folder = pathlib.Path(self.room.name)
        shutil.copytree(erase.TOP / "rust/src", self.folder / "src")
        shutil.copytree(erase.TOP / "rust/c/src", self.folder / "c/src")
        shutil.copytree(erase.TOP / "rust/tool/src", self.folder / "tool/src")

    def messages_of(self, file):
        """What compare.py says, of this file alone if it is made of a source."""
        place, crate = place_of(file)
        source = compare.sources([crate]).get(pathlib.Path(file))
        if not source:
            return compare.messages(self.folder / place.parent, compare.MADE[str(place.parent)], collections.Counter())
        found = compare.compared(source, self.folder / place, crate, collections.Counter())
        return [found] if found else []

    def test_all_is_alike_before(self):
        self.assertEqual(run_compare(self.folder)[0], 0)
        self.assertEqual(list(by_hand.messages(self.folder)), [])

    def check_named(self, page, place, messages):
        """Each mistake of the page has one message, which names its file."""
        mistakes = list(planted(page))
        self.assertGreaterEqual(len(mistakes), 15)
        for file, what, old, new in mistakes:
            path = self.folder / place(file)
            with self.subTest(what), changed(path, old, new):
                named = list(messages(file))
                self.assertEqual(len(named), 1)
                self.assertIn(str(path), named[0])

    def test_each_mistake_is_named(self):
        self.check_named("planted.txt", lambda file: place_of(file)[0], self.messages_of)

    def test_each_mistake_by_hand_is_named(self):
        self.check_named("by_hand.txt", pathlib.Path, lambda _: by_hand.messages(self.folder))

    def test_files_that_are_missing_or_too_many_are_named(self):
        proved = self.folder / "src/proved"
        (proved / "pkcs1/view.rs").unlink()
        (proved / "pkcs1/views.rs").write_text("")
        status, printed = run_compare(self.folder)
        self.assertEqual((status, printed), (1, f"{proved}/pkcs1/view.rs is missing\n"
                                                f"{proved}/pkcs1/views.rs is made of nothing\n"))

    def test_what_is_old_is_seen_and_made_again(self):
        for folder, words in erase.FOLDERS.items():
            made, there = erase.erased_crates(*words), self.folder / folder.removeprefix("rust/")
            self.assertEqual(erase.stale(made, there), [])
            (there / "mod.rs").write_text("")
            (there / "more.rs").write_text("")
            self.assertEqual([str(it) for it in erase.stale(made, there)], ["mod.rs", "more.rs"])
            erase.write(made, there)
            self.assertEqual(erase.stale(made, there), [])


if __name__ == "__main__":
    unittest.main()
