#!/usr/bin/env python3
"""Fails where a promise isn't the text that tools/docs/promises.txt has a hash of. Promises are the contract of each
public function, trait method and law, each ghost member, constant and type, each struct, enum and macro, and each
definition in specs/ that one of them leads to by the names that its file imports. A lemma in specs/Laws is none, as a
check proves it. A difference shows that a text changed, not whether it promises less now.

    tools/docs/check_promises.py [--write] [TOP]      --write: writes promises.txt, once each change was read

The message of a commit that changes promises.txt says why."""
import hashlib
import pathlib
import re
import sys

HERE = pathlib.Path(__file__).resolve().parent
sys.path.append(str(HERE.parent / "erase"))
import tokens  # noqa: E402

# Tests and examples promise nothing.
CRATES = ("standard", "der_core", "spki_core", "pkcs1_params", "pkcs1", "pkcs8_core", "spki_keys", "pkcs1_c",
          "pkcs1_program", "pkcs1_tool")
HEAD = "# A hash of each promise, by file. tools/docs/check_promises.py, which says what they are, writes this.\n"
DECLARES = re.compile(r"(?=abbrev |unfoldable |opaque |pub |record |data |infix|[^\s:]+ :(?: |$))"
                      r"(?:abbrev |unfoldable |opaque |pub |record |data |infix[lr]? \d+ )*([^\s:({]+)")
IMPORTS = re.compile(r"\buse (Rattle\.[\w.+-]+)(?:\.\{([^}]*)\}| as (\w+))")
WORDS = re.compile(r"[^\s(){}.,:;λ×→⊎[\]]+")
QUALIFIERS = {"pub", "const", "final", "unsafe", "extern", "ghost", '"C"'}


def imports(text):
    """What each name of a file means: a module and a name in it, or of an alias the module alone."""
    found = {}
    for module, names, alias in IMPORTS.findall(text):
        if alias:
            found[alias] = module, None
        for name, _, other in (it.strip().partition(" as ") for it in names.split(",")):
            found[other or name] = module, name
    return found


class Definitions:
    """What specs/ of each crate defines."""

    def __init__(self, top):
        self.top, self.read = top, {}

    @staticmethod
    def path(module):
        """The file of a module in specs/. The library and what the toolchain declares of src/ have none."""
        _, crate, *inner = module.split(".")
        is_here = crate in CRATES and inner[0] == "specs" and "declared" not in inner
        return pathlib.Path(crate, *inner[:-1], inner[-1] + ".antt") if is_here else None

    def module(self, module):
        """The text of each definition of a module, by name, and what the names that it imports mean."""
        if module not in self.read:
            text = (self.top / "crates" / self.path(module)).read_text(encoding="utf-8")
            self.read[module] = dict(self.declared(text, ".Laws." in module)), imports(text)
        return self.read[module]

    @staticmethod
    def declared(text, are_laws):
        """Each name that is declared, with what follows up to the next. Lemmas are left out."""
        name, blocks = None, {}
        for line in text.splitlines():
            if re.match(r"\s*(--|$)|((unfoldable|pub) )*(use|mod) ", line):
                continue
            declares = DECLARES.match(line)
            if declares:
                name = None if are_laws and not re.match(r"(pub )?(abbrev|record|data)", line) else declares[1]
            if name:
                blocks.setdefault(name, []).append(line)
        return ((name, " ".join(" ".join(lines).split())) for name, lines in blocks.items())

    def origin(self, module, name):
        """The module that defines what this one calls so, and the name there. Of what isn't in specs/ nothing."""
        while self.path(module):
            defined, its = self.module(module)
            if name in defined:
                return module, name
            if name not in its:
                return None
            module, name = its[name]
        return None

    def cited(self, text, names, module=None):
        """The definitions that a text cites, each with its name there, by what names mean and in its own module."""
        used = set(WORDS.findall(text))
        for name, (where, origin) in names.items():
            if origin is None:
                yield from ((it, self.origin(where, it)) for it in re.findall(rf"\b{name}\.([\w'-]+)", text))
            elif set(filter(None, name.split("◌"))) <= used:
                yield name, self.origin(where, origin)
        if module:
            own = self.module(module)[0]
            yield from ((it, (module, it)) for it in own if set(filter(None, it.split("◌"))) <= used)


class Source:
    """A file in src/."""

    def __init__(self, crate, text):
        self.code = tokens.Code(crate, text)
        self.words = [it.text for it in self.code.tokens] + [";", ""]

    def text(self, begin, end):
        """The words from here to there, without comments, and with one space between them."""
        return " ".join(self.words[begin:end])

    def head(self, begin, end):
        """The same as it is written."""
        return " ".join(self.code.text[self.code.tokens[begin].begin:self.code.tokens[end].begin].split())

    def promises(self, at=0, end=None, head=""):
        """The name and the text of each promise of the items from here to there, in a trait or an impl of this head."""
        end = len(self.words) - 2 if end is None else end
        while at < end:
            begin = self.after_attributes(at)
            kind, where = self.kind(begin)
            body, stop = self.extent(where, kind in ("fn", "trait", "impl", "struct", "enum", "macro_rules"))
            if kind in ("trait", "impl"):
                inner = self.head(where, body)
                if kind == "trait" or " for " in inner:
                    yield inner, inner
                yield from self.promises(body + 1, stop - 1, inner)
            else:
                yield from self.promised(kind, where, (at, begin, body, stop), head)
            at = stop

    def promised(self, kind, where, places, head):
        """The promise of an item that has no items in it, if it is one."""
        at, begin, body, stop = places
        name = f"{head} {kind} {self.words[where + 1]}".strip()
        is_public = self.words[begin] == "pub" and self.words[begin + 1] != "("
        if kind == "fn":
            has_clauses = {"requires", "ensures"} & set(self.words[begin:body])
            if is_public or head.startswith("trait") or " for " in head and has_clauses:
                yield name, self.text(begin, body)
        elif kind in ("struct", "enum"):
            yield name, self.text(at, stop)
        elif kind in ("const", "type", "ghost"):
            yield name, self.text(begin, stop)
        elif kind == "macro_rules":
            yield f"macro {self.words[where + 2]}", self.text(begin, stop)
        elif kind == "use" and is_public:
            yield f"export {self.head(where + 1, stop - 1)}"[:72], self.text(begin, stop)

    def after_attributes(self, at):
        while self.words[at] == "#":
            at = self.code.closing[at + 1 + (self.words[at + 1] == "!")] + 1
        return at

    def kind(self, at):
        """The word that tells an item's kind, and where it stands. A `ghost` member has no other, nor a constant."""
        while True:
            word, following = self.words[at], self.words[at + 1]
            if word == "pub" and following == "(":
                at = self.code.closing[at + 1] + 1
            elif word not in QUALIFIERS or word in ("const", "ghost") and following not in QUALIFIERS | {"fn", "use"}:
                return word, at
            else:
                at += 1

    def extent(self, at, may_have_body):
        """Where an item's body or last `;` stands, and where the next item does. Clauses have braces too."""
        in_clause = False
        while self.words[at] != ";":
            in_clause |= self.words[at] in ("requires", "ensures")
            if self.words[at] in tokens.CLOSER:
                if self.words[at] == "{" and may_have_body and not in_clause:
                    return at, self.code.closing[at] + 1
                in_clause &= self.words[at] != "{"
                at = self.code.closing[at]
            at += 1
        return at, at + 1


def promises(top):
    """The text of each promise, by file and name."""
    definitions, found, todo = Definitions(top), {}, []

    def note(file, name, text, names, module=None):
        while module is None and (file, name) in found:
            name += "'"
        if (file, name) not in found:
            found[file, name] = text
            todo.append((file, name, names, module))

    for crate in CRATES:
        for path in sorted((top / "crates" / crate / "src").rglob("*.rt")):
            if "tests" not in path.parts:
                text = path.read_text(encoding="utf-8")
                names = imports(text)
                for name, said in Source(crate, text).promises():
                    note(str(path.relative_to(top / "crates")), name, said, names)
    while todo:
        file, name, names, module = todo.pop()
        for word, origin in filter(lambda it: it[1], definitions.cited(found[file, name], names, module)):
            there, its = definitions.module(origin[0])
            note(str(definitions.path(origin[0])), origin[1], there[origin[1]], its, origin[0])
            if word != origin[1]:
                found[file, name] += f" [{word} is {origin[1]}]"
    return found


def lines(found):
    """A line for each promise, below its file."""
    last = None
    for (file, name), text in sorted(found.items()):
        if file != last:
            yield f"{file}\n"
        last = file
        yield f"  {hashlib.sha256(text.encode()).hexdigest()[:12]} {name}\n"


def by_file(text):
    """The promises of promises.txt, each with its file."""
    file, found = None, set()
    for line in text.splitlines():
        if line.startswith("  "):
            found.add((file, line.strip()))
        else:
            file = line
    return found


def main():
    top = pathlib.Path(next((it for it in sys.argv[1:] if it != "--write"), HERE.parent.parent))
    file = top / "tools/docs/promises.txt"
    found = promises(top)
    text = HEAD + "".join(lines(found))
    if "--write" in sys.argv:
        file.write_text(text, encoding="utf-8")
    there, now = by_file(file.read_text(encoding="utf-8")), by_file(text)
    for file, it in sorted(there ^ now, key=lambda it: (it[0], it[1].split(maxsplit=1)[1:], it)):
        print(f"{file}: {'was' if (file, it) in there else 'is'} {it}")
    print(f"{len(now)} promises, of which {len(there ^ now)} lines differ")
    sys.exit(bool(there ^ now))


if __name__ == "__main__":
    main()
