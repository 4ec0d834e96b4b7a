#!/usr/bin/env python3
"""Tests check_promises.py. Each of these edits, made in a copy, weakens a promise, and changes these promises alone."""
import pathlib
import shutil
import sys
import tempfile

import check_promises

# A file, its text, what stands in its place, and the names of the promises that this changes.
PLANTED = [
    ("pkcs8_core/src/info.rt", "(ok_of (λ n. n) result) }\n        ensures err", "None }\n        ensures err",
     {"impl<'a, O: ReadIdentifier<'a>> PrivateKeyInfoOf<'a, O> fn encode_info"}),
    ("pkcs1/src/laws.rt", "    ensures public { AreDelimited PublicKeyEncoding }\n", "",
     {"fn lemma_encodings_are_delimited"}),
    ("pkcs1_c/src/status.rt", "const OK: u32 = 0;", "const OK: u32 = 1;", {"const OK"}),
    ("der_core/src/prepend.rt", "ghost filled: { Self → ℕ };", "", {"trait Prepend ghost filled"}),
    ("der_core/src/prepend.rt", "    fn filled_len(&self) -> u64\n        ensures { result ≡ filled self.now };\n", "",
     {"trait Prepend fn filled_len"}),
    ("pkcs1_c/specs/Structs.antt", "× IsShortest Encoding v bytes ×", "× Encoding v bytes ×", {"IsShortestLength"}),
    ("standard/specs/Statement.antt", "limit = ", "limit = 1 + ", {"limit"}),
    ("pkcs1_params/specs/HashFunctions.antt", "AreSameHash, ", "IsHash as AreSameHash, ",
     {"AreSameMask", "AreSameOaep", "AreSamePss"}),
]


def main():
    wrong = 0
    with tempfile.TemporaryDirectory() as room:
        top = pathlib.Path(room)
        shutil.copytree(check_promises.HERE.parent.parent / "crates", top / "crates",
                        ignore=lambda folder, names: {"out", "proofs", "wrong", "rows"} & set(names))
        before = check_promises.promises(top)
        for file, old, new, names in PLANTED:
            path = top / "crates" / file
            text = path.read_text(encoding="utf-8")
            path.write_text(text.replace(old, new, 1), encoding="utf-8")
            now = check_promises.promises(top)
            path.write_text(text, encoding="utf-8")
            changed = {it[1] for it in before.keys() | now.keys() if before.get(it) != now.get(it)}
            if text.count(old) == 0 or changed != names:
                print(f"{file}: without {old.strip()!r} these promises change: {sorted(changed)}, not {sorted(names)}")
                wrong += 1
    sys.exit(wrong > 0)


if __name__ == "__main__":
    main()
