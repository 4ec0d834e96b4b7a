"""The names in documents. In backquotes stand files, and words of code and of logic. A word is there if it stands in
code, not in a comment or in proofs. Links lead to a file, and to a heading in it."""
import fnmatch
import functools
import os
import re

ALLOWED = set("rt selftest umask start_lib bazel holes lemma meson room_at MaybeUninit from_residual fn".split())
PLACEHOLDER = r"[A-Z0-9]+|[0-9a-f]*\d[0-9a-f]*|\w"
COMMENT = {".rt": r"//.*", ".rs": r"//.*", ".go": r"//.*", ".c": r"/[/*].*", ".h": r"/\*.*", ".antt": r"--.*"}
# No code: what is said of it, mistakes in it, keys, proofs, and what looks at documents.
NO_CODE = re.compile(r".*\.(md|edits?|der)|.*/proofs/.*|tools/docs/.*")


def quoted(text):
    return re.findall(r"`([^`]+)`", text)


def headings(text):
    return {re.sub(r"[^\w -]", "", it.strip("# ").lower()).replace(" ", "-") for it in text.splitlines() if it[:1] == "#"}


class Names:
    """The names that are there, and those in documents that aren't."""

    def __init__(self, tree):
        self.tree, self.wrong, self.at = tree, [], ""
        comments = {it: "(?m)" + COMMENT.get(os.path.splitext(it)[1], r"^[ \t]*#.*")
                    for it in tree.like(r".*") if not NO_CODE.fullmatch(it)}
        self.code = [set(re.findall(r"\w+", re.sub(comment, "", tree.text(it)))) for it, comment in comments.items()]
        self.words = ALLOWED.union(*self.code)
        self.all_paths = "".join(f"/{it}\n" for it in tree.paths)

    def say(self, what, name):
        self.wrong.append(f"{self.at}: no such {what}: {name}")

    @functools.cache
    def is_path(self, name):
        """Whether a path ends like this; a word in capitals, and `..`, stand for any text."""
        pattern = re.escape(re.sub(r"\b[A-Z][A-Z_]+\b|\.\.", "*", name.strip("/"))).replace(r"\*", ".*")
        return re.search(rf"(?m)/{pattern}$", self.all_paths)

    @functools.cache
    def is_word(self, word):
        return word in self.words or re.fullmatch(PLACEHOLDER, word) or "*" in word and fnmatch.filter(self.words, word)

    @functools.cache
    def is_member(self, pair):
        return not self.words.issuperset(pair) or any(there.issuperset(pair) for there in self.code)

    def look_at(self, name):
        """A name in backquotes: paths, in which {a,b} stands for two, and words."""
        for piece in name.split():
            if re.search(r"\w/|/\w|\.(rt|antt|sh|py|md|rs|c|h)$", piece):
                start, parts, end = re.fullmatch(r"([^{]*)\{?([^}]*)\}?(.*)", piece).groups()
                for it in [start + part + end for part in parts.split(",")]:
                    re.search(r"\bout\b|^lib/|PREFIX", it) or self.is_path(it) or self.say("file", it)
                continue
            for word in re.findall(r"[A-Za-z_*][\w*]*", piece):
                self.is_word(word) or self.say("word", word)
            for pair in re.findall(r"(\w+)::(\w+)", piece):
                self.is_member(pair) or self.say("member", "::".join(pair))

    def look_at_links(self, document, line):
        for path, heading in re.findall(r"\]\((?!https?:)([^)#]*)#?([^)]*)\)", line):
            path = os.path.normpath(os.path.join(os.path.dirname(document), path)) if path else document
            if not os.path.exists(path) or heading and heading not in headings(self.tree.text(path)):
                self.say("place to link to", f"{path}#{heading}")

    def read(self, document):
        head, fenced = [], ""
        for number, line in enumerate(self.tree.text(document).splitlines(), 1):
            self.at = f"{document}:{number}"
            if line.startswith("```"):
                fenced = "" if fenced else line[3:].strip() or "code"
            # A picture is a block of `text`: its files are there.
            for path in re.findall(r"[\w.]+(?:/[\w.]*\w)+", line) if fenced == "text" else []:
                path in self.tree.paths or self.say("file", path)
            if fenced or line.startswith("    "):
                continue
            cells = [cell.strip() for cell in line.strip().split("|")[1:-1]]
            head = cells and (head or cells)
            # What that crate names isn't here.
            for name in quoted(" ".join(cells[head[0] == "the Rust crate":]) if cells else line):
                self.look_at(name)
            self.look_at_links(document, line)

    def read_map(self, document):
        """The map names each crate and each entry of ffi and tools."""
        named = [it.strip("/") for it in quoted(self.tree.text(document))]
        for it in sorted(self.tree.paths):
            entry = re.fullmatch(r"crates/(\w+)|(?:ffi|tools)/[^/]+", it)
            if entry and not any(name in (it, entry[1]) or name.startswith(it + "/") for name in named):
                self.wrong.append(f"{document}: the map lacks {it}")


def wrong_in(tree, documents):
    """What these documents name that isn't there."""
    names = Names(tree)
    for document in documents:
        names.read(document)
    if "docs/DESIGN.md" in documents:
        names.read_map("docs/DESIGN.md")
    return names.wrong
