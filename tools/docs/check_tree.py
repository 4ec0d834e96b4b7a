#!/usr/bin/env python3
"""Fails where the documents don't fit the rest of the tree, or where parts of it don't fit each other. Each function
that begins with check_ says what it looks at, and names each place that is wrong.

    tools/docs/check_tree.py                        all of them
    tools/docs/check_tree.py FOLDER DOCUMENT..      the names in these documents alone, in the tree in FOLDER
    tools/docs/check_tree.py --platforms            puts the platforms that steps declare into USING and README
    tools/docs/check_tree.py --version VERSION      writes the version in all places. Then tools/erase/erase.py and
                                                    tools/generate.sh, as the proved code has it too. CHANGELOG gets
                                                    its heading by hand"""
import collections
import functools
import os
import re
import subprocess
import sys

import calls
import names

HEADER = "ffi/lib/include/pkcs1.h"
EXAMPLES = {"rattle": r"crates/\w+/src/.*\.rt", "antt": r"crates/\w+/(proofs|specs)/.*\.antt", "c": r"ffi/.*\.c",
            "rust": r"rust/examples/\w+\.rs", "toml": r"rust/README\.md", "python": r"ffi/examples/\w+\.py",
            "go": r"ffi/examples/\w+\.go"}
# check_commands.sh runs the first three, check_names reads the last.
NO_EXAMPLES = "sh", "cmake", "meson", "text"
# What ReadingsRows.antt reads, by the words of worked rows.
ROWS = {"rsa_public_key": "pub", "rsa_private_key": "priv", "identifier_alone": "oid", "(alone any_front)": "any",
        "(alone (algorithm_front any_front))": "algorithm",
        "(alone (algorithm_front (algorithm_front any_front)))": "mask", "rsa_pss_params": "pss",
        "rsa_oaep_params": "oaep", "rsa_pss_algorithm": "pss-algorithm", "rsa_oaep_algorithm": "oaep-algorithm",
        "private_key_info": "info", "rsa_private_key_info": "info"}
DEFINES = re.compile(r"(?:abbrev |unfoldable |pub )*(?:(?:record|data|ruleset) (?:pub )?(\S+)|(\S+) :(?! goal\.))(?:\s|$)")
PLATFORM_SCRIPTS = ["tools/clean_room.sh", "tools/other_platforms.sh", "rust/check.sh"]
BEGIN, END = "<!-- made by tools/docs/check_tree.py -->", "<!-- end of what is made -->"
# What README calls these systems, where they are run under this program.
CALLED = {("Linux", "under qemu"): "on other processors", ("no system", "under qemu"): "without a system"}
# Where the version stands: what is in front of it, and behind it.
VERSIONS = [(HEADER, 'static string, "', '"'), ("crates/pkcs1_c/src/status.rt", 'codes "', '"'),
            ("crates/pkcs1_c/src/status.rt", 'octets = b"', r'\\0"'),
            ("crates/pkcs1_c/wrong/status.edits", 'octets = b"', r'\\0"'),
            ("crates/pkcs1_tool/pkcs1_tool.1", '"pkcs1 ', '"'), ("rust/Cargo.toml", '^version = "', '"'),
            ("rust/c/Cargo.toml", '^version = "', '"'), ("rust/tool/Cargo.toml", '^version = "', '"'),
            ("rust/Cargo.lock", 'name = "pkcs1-proved"\nversion = "', '"'),
            ("rust/tool/Cargo.lock", 'name = "pkcs1-proved-tool"\nversion = "', '"')]


class Tree:
    """The files and folders below this folder, but for what is made."""

    def __init__(self):
        self.paths = set()
        for folder, inner, files in os.walk("."):
            inner[:] = set(inner) - {".git", "out", "target", "__pycache__"}
            self.paths.update(os.path.relpath(os.path.join(folder, it)) for it in inner + files)

    @functools.cache
    def text(self, path):
        with open(path, encoding="utf-8", errors="replace") as it:
            return it.read()

    def like(self, pattern):
        """The files whose path is like this."""
        return sorted(it for it in self.paths if re.fullmatch(pattern, it) and os.path.isfile(it))


def check_names(tree):
    """Names in documents are there: files, words of code, places to link to. The map has each part."""
    documents = tree.like(r"(README|CONTRIBUTING|SECURITY)\.md|(docs|crates/\w+|rust|tools/\w+)/\w+\.md")
    return f"the names in {len(documents)} documents are there", names.wrong_in(tree, documents)


def check_calls(tree):
    """A comment in front of each public item of src/ says what it promises, and in each file what that holds."""
    files, items, wrong = calls.look_at(tree)
    return f"{files} files say what they hold, and {items} public items of src/ what they promise", wrong


def check_examples(tree):
    """An example of README.md, docs or a crate's README stands, but for spaces in front of a line, in one file."""
    plain = lambda text: re.sub(r"(?m)^ +", "", text)
    code = {language: [plain(tree.text(it)) for it in tree.like(pattern)] for language, pattern in EXAMPLES.items()}
    found = [(document, *it) for document in tree.like(r"README\.md|(docs|crates/\w+)/\w+\.md")
             for it in re.findall(r"^```(\w*)\n(.*?)^```$", tree.text(document), re.M | re.S)]
    wrong = [f"{document}: this example stands nowhere in the code:\n{text}" for document, language, text in found
             if language not in NO_EXAMPLES and not any(plain(text) in it for it in code.get(language, []))]
    return f"{len(found)} examples are in the code, or run", wrong or ["there is no example"] * (not found)


def check_rows(tree):
    """A row of ReadingsRows.antt, which the prover computes, is a worked row with the same outcome."""
    rows = [it.split(" = ", 1) for it in tree.text("crates/pkcs1_vectors/stdin").splitlines() if " = " in it]
    outcome, count, wrong = dict(rows), 0, []
    text = tree.text("crates/pkcs8_core/proofs/ReadingsRows.antt")
    for how, read, body in re.findall(r": (RowsMean|RowsAreRejected) (.*?) \(\n(.*?)\n    \)\n", text, re.S):
        for digits, said in re.findall(r'codes\s+"([0-9a-f]*)",\s*(\w*)', body):
            asked = f"{ROWS[read]} {digits or '-'}"
            printed = re.sub(r"0x..", "0x..", outcome.get(f"kind {said}", said))
            wanted = "(?!refused: ).+" if how == "RowsMean" else f"(.*; )?refused: {printed}"
            if not re.fullmatch(wanted, outcome.get(asked, "")):
                wrong.append(f"{asked}: {said} in ReadingsRows, {outcome.get(asked)} in the worked rows")
            count += 1
    return f"{count} rows that the prover computes are worked rows", wrong or ["there are few rows"] * (count < 100)


def definitions(text):
    """The number of a line and the name that it defines, at the margin or at that of a section (`module _ .. where`).
    What is local, as in a `where`, and the parts of a record aren't looked at."""
    margins, in_head, opened = [0], False, False
    for number, line in enumerate(text.split("\n"), 1):
        said = line.strip()
        indent = line.index(said[:1])
        if not said or said.startswith("--"):
            continue
        if opened:
            margins.append(indent)
        while indent < margins[-1]:
            margins.pop()
        in_head = in_head or indent == margins[-1] and said.startswith("module ")
        opened = in_head and said.endswith("where")
        if not in_head and indent == margins[-1] and (head := DEFINES.match(said)):
            yield number, head[1] or head[2]
        in_head = in_head and not opened


def check_definitions(tree):
    """No two definitions or lemmas have the same name. A goal has the name that the toolchain gives it."""
    places = collections.defaultdict(list)
    for path in tree.like(r"crates/\w+/(specs|proofs)/.*\.antt"):
        for number, name in definitions(tree.text(path)):
            places[name].append(f"{path}:{number}")
    wrong = [f"{name} is defined in {' and '.join(at)}" for name, at in sorted(places.items()) if len(at) > 1]
    return f"{len(places)} definitions and lemmas have names of their own", wrong


def check_citations(tree):
    """The proofs of these crates rest on what the crates below promise: they cite none of those crates' proofs/."""
    wrong, files = [], tree.like(r"crates/(pkcs8_core|pkcs1_program|spki_keys)/(specs|proofs)/.*\.antt")
    for path in files:
        own = path.split("/")[1]
        cited = set(re.findall(r"Rattle\.(\w+)\.proofs\b", tree.text(path))) - {own}
        wrong += [f"{path} cites proofs/ of {it}" for it in sorted(cited) if os.path.isdir(f"crates/{it}")]
    return f"{len(files)} files of proofs cite what the crates below promise", wrong


def check_shape(tree):
    """Of src: no line of a clause has over 120 columns, no file over 300 lines, and what is cited isn't in proofs."""
    wrong, crates = [], {it.split("/")[1] for it in tree.paths if it.startswith("crates/")}
    for path in tree.like(r"crates/\w+/src/.*\.rt"):
        lines, in_clause = tree.text(path).splitlines(), False
        wrong += [f"{path}: {len(lines)} lines"] * (len(lines) > 300)
        for number, line in enumerate(lines, 1):
            if any(it in crates for it in re.findall(r"Rattle\.(\w+)\.proofs\b", line)):
                wrong.append(f"{path}:{number}: what contracts and ghost members name stands in specs")
            if line.strip().startswith("//"):
                continue
            if re.match(r"\s*(also_\w+|ensures|requires|invariant|decreases|ghost (?!use\b))", line):
                in_clause = True
            elif re.match(r"\s*(\{|pub\b|fn\b|impl\b|ghost use\b|type\b|const\b|$)", line):
                in_clause = False
            wrong += [f"{path}:{number}: a clause of {len(line)} columns"] * (in_clause and len(line) > 120)
    return "src: clauses within 120 columns, files within 300 lines", wrong


def version_of(tree):
    return ".".join(re.findall(r"(?m)^#define PKCS1_VERSION_[A-Z]* (\d+)$", tree.text(HEADER)))


def check_version(tree):
    """The version is that of the macros in pkcs1.h. test.c compares that of the built library."""
    version, wrong = version_of(tree), []
    for path, front, behind in VERSIONS:
        found = re.search(f"(?m){front}([0-9.]+)(?={behind})", tree.text(path))
        if not found or found[1] != version:
            wrong.append(f"{path} has the version {found and found[1]}, and pkcs1.h {version}")
    if not re.search(rf"(?m)^## {re.escape(version)}(,|$)", tree.text("CHANGELOG.md")):
        wrong.append(f"CHANGELOG.md has no heading for {version}")
    return f"all places have version {version}", wrong


def write_version(tree, version):
    if not (numbers := re.fullmatch(r"(\d+)\.(\d+)\.(\d+)", version)):
        sys.exit("check_tree.py: a version is three numbers")
    for path in {it[0] for it in VERSIONS}:
        text = tree.text(path)
        for _, front, behind in [it for it in VERSIONS if it[0] == path]:
            text = re.sub(f"(?m)({front})[0-9.]+(?={behind})", rf"\g<1>{version}", text)
        for part, number in zip(["MAJOR", "MINOR", "PATCH"], numbers.groups()):
            text = re.sub(rf"(_VERSION_{part}) \d+$", rf"\1 {number}", text, flags=re.M) if path == HEADER else text
        write(path, text)


def write(path, text):
    with open(path, "w", encoding="utf-8") as it:
        it.write(text)


def listed(words):
    return " and ".join([", ".join(words[:-1]), words[-1]] if len(words) > 1 else words)


def table(rows):
    """The rows as Markdown, those of a system beside each other. Rows that differ in the machine alone are one."""
    machines = collections.defaultdict(list)
    for system, machine, built, done in sorted(rows, key=lambda row: row[0].lower()):
        machines[system, built, done].append(machine)
    lines = ["| system | machine | what, by what | |", "|---|---|---|---|"]
    lines += [f"| {system} | {listed(these)} | {built} | {done} |" for (system, built, done), these in machines.items()]
    return "".join(f"{it}\n" for it in lines)


def sentences(rows):
    """On which systems it is tested, here and under what, and for which it is only compiled."""
    systems = collections.defaultdict(dict)
    for system, _, _, done in sorted(rows, key=lambda row: (row[3], row[0].lower())):
        if done.startswith("tested"):
            systems[done[len("tested"):].strip()][system] = None
    tested = {system for those in systems.values() for system in those}
    others = sorted({row[0] for row in rows} - tested, key=str.lower)
    places = [f"{' and '.join(CALLED.get((it, under), f'on {it}') for it in those)} {under or 'natively'}"
              for under, those in systems.items()]
    return (f"The library is [tested](docs/USING.md#platforms) {', '.join(places)}. "
            f"For {listed(others)} it is only compiled.")


def with_platforms(tree):
    """How many platforms the steps declare (tools/platforms.sh), and each document with its text as they have it."""
    said = subprocess.run(["bash", "-euc", '. tools/platforms.sh; declared "$@"', "declared", *PLATFORM_SCRIPTS],
                          stdout=subprocess.PIPE, text=True, check=True).stdout
    rows, made = [line.split(" | ") for line in said.splitlines()], {}
    for document, pattern, new in [
            ("docs/USING.md", f"(?<={BEGIN}\n).*?(?={END})", table(rows)),
            ("README.md", r"The library is \[tested\]\(docs/USING.md#platforms\).*? it is only compiled\.", sentences(rows))]:
        made[document], places = re.subn(pattern, lambda _, it=new: it, tree.text(document), flags=re.S)
        if places != 1:
            sys.exit(f"{document} has {places} places for platforms")
    return len(rows), made


def check_platforms(tree):
    """The table in USING and the two sentences in README have the platforms that steps declare."""
    count, made = with_platforms(tree)
    wrong = [f"{it} has other platforms: check_tree.py --platforms puts these there" for it in made if made[it] != tree.text(it)]
    return f"the documents have the {count} platforms that steps declare", wrong


def main(words):
    if words and not words[0].startswith("-"):
        os.chdir(words[0])
        results = [("the names are there", names.wrong_in(Tree(), words[1:]))]
    else:
        os.chdir(os.path.join(os.path.dirname(os.path.realpath(__file__)), "../.."))
        if words[:1] == ["--platforms"]:
            for path, text in with_platforms(Tree())[1].items():
                write(path, text)
        elif words[:1] == ["--version"]:
            write_version(Tree(), words[1])
        tree = Tree()
        results = [check(tree) for name, check in globals().items() if name.startswith("check_")]
    for said, wrong in results:
        print("\n".join(wrong) or said)
    sys.exit(any(wrong for _, wrong in results))


if __name__ == "__main__":
    main(sys.argv[1:])
