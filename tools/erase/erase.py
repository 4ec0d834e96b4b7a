#!/usr/bin/env python3
"""Makes plain Rust of the crates in Rattle: deletes what is there for the proof, and changes the forms of forms.py.

    erase.py                     writes rust/src/proved, of the crates of the library, and the tool's text
    erase.py --check             whether they are what the crates give
    erase.py --programs FOLDER   writes there the programs that test the library, for rust/check

The lines stay as they are laid out in crates/, but for those that are deleted or changed. So no other program lays them
out, and the files are the same on each machine.
"""
import argparse
import pathlib
import re
import sys

sys.dont_write_bytecode = True
from forms import CALLS, FORMS, LIBRARY, PRELUDE, PRELUDE_MACROS, PROGRAMS, TOOL, above_docs  # noqa: E402
from tokens import Code, Refused  # noqa: E402

TOP = pathlib.Path(__file__).resolve().parents[2]
# The folders of what is made: of which crates, and what their lists of them say.
FOLDERS = {
    "rust/src/proved": (LIBRARY, "The proved crates, without what is there for the proof."),
    "rust/src/bin/pkcs1_tool/tool": (TOOL, "The program, without what is there for the proof."),
    "rust/c/src/calls": (CALLS, "The calls for C, without what is there for the proof."),
}


def edits_of(code):
    """The forms that stand in the code, in order, each with what becomes of it."""
    edits, at = [], 0
    while at < len(code.tokens):
        form, edit = next(((form, it) for form in FORMS if (it := form(code, at))), (None, None))
        if form:
            edits.append((form, edit))
        at += 1
        while form and at < len(code.tokens) and code.tokens[at].begin < edit.end:
            at += 1
    return edits


def edited(text, edits):
    """The text with the edits made."""
    made, begin = "", 0
    for _, edit in edits:
        made += text[begin:edit.begin] + edit.text
        begin = edit.end
    return made + text[begin:]


def tidy(text):
    """The text without the blank lines that deleted ones leave behind."""
    text = re.sub(r"\n\n\n+", "\n\n", text)
    text = re.sub(r"\{\n\n+", "{\n", text)
    text = re.sub(r"\n\n+( *\})", r"\n\1", text)
    return re.sub(r"\{\n *\}", "{}", text)


def with_prelude(crate, text):
    """The text with one line that imports those names that Rattle's prelude has, and Rust's hasn't or has otherwise."""
    code = Code(crate, text)
    words = {it.text for it in code.tokens if it.kind == "word"}
    macros = {it.text for at, it in enumerate(code.tokens) if code.word(at + 1) == "!"}
    names = sorted(words.intersection(PRELUDE) | macros.intersection(PRELUDE_MACROS))
    names += ["ToString"] if "to_string" in words and "ToString" not in words else []
    if not names:
        return text
    listed = f"{{{', '.join(names)}}}" if len(names) > 1 else names[0]
    first = next((at for at, it in enumerate(code.tokens) if it.text == "use" and code.around[at] is None), 0)
    first -= code.word(first - 1) == "pub"
    begin = above_docs(text, text.rfind("\n", 0, code.tokens[first].begin) + 1)
    blank = "" if code.word(first) in ("use", "pub") else "\n"
    return f"{text[:begin]}use crate::rattle_std::prelude::{listed};\n{blank}{text[begin:]}"


def erased(crate, name, text):
    """The plain Rust of a file of this crate."""
    code = Code(crate, text)
    plain = with_prelude(crate, tidy(edited(text, edits_of(code))).lstrip("\n"))
    return f"// Made of crates/{crate}/src/{name} by tools/erase/erase.py, and not to be edited.\n{plain}"


def erased_crate(crate):
    """Each file that is made of a crate, by its path below the folder of all."""
    sources = TOP / "crates" / crate / "src"
    made = {}
    for path in sorted(sources.rglob("*.rt")):
        name = path.relative_to(sources)
        target = pathlib.Path(crate, "mod.rs" if name.name in ("lib.rt", "main.rt") else name.with_suffix(".rs"))
        try:
            made[target] = erased(crate, name, path.read_text(encoding="utf-8"))
        except Refused as why:
            sys.exit(f"{path}: {why}")
    return made


def erased_crates(crates, says):
    """Each file that is made of the crates."""
    made = {pathlib.Path("mod.rs"): f"//! {says} Made by tools/erase/erase.py.\n"
            + "".join(f"pub mod {crate};\n" for crate in crates)}
    for crate in crates:
        made |= erased_crate(crate)
    return made


def stale(made, folder):
    """The files of the folder that aren't what was made."""
    there = {path.relative_to(folder): path.read_text(encoding="utf-8") for path in folder.rglob("*") if path.is_file()}
    return sorted(path for path in made.keys() | there.keys() if made.get(path) != there.get(path))


def write(made, folder):
    """Writes what differs, and deletes what isn't made."""
    for path in stale(made, folder):
        if path not in made:
            (folder / path).unlink()
        else:
            (folder / path).parent.mkdir(parents=True, exist_ok=True)
            (folder / path).write_text(made[path], encoding="utf-8")


def main():
    parser = argparse.ArgumentParser(description=__doc__, formatter_class=argparse.RawDescriptionHelpFormatter)
    parser.add_argument("--check", action="store_true")
    parser.add_argument("--programs", type=pathlib.Path)
    args = parser.parse_args()
    if args.programs:
        write(erased_crates(PROGRAMS, "The programs that test the library, as plain Rust."), args.programs)
        return
    old, count = [], 0
    for folder, (crates, says) in FOLDERS.items():
        made = erased_crates(crates, says)
        if not args.check:
            write(made, TOP / folder)
        old += [f"{folder}/{path}" for path in stale(made, TOP / folder)]
        count += len(made)
    for path in old:
        print(f"{path} isn't what crates/ gives: tools/erase/erase.py writes it", file=sys.stderr)
    print(f"erase: {count} files")
    sys.exit(bool(old))


if __name__ == "__main__":
    main()
