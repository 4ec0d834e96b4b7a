#!/usr/bin/env python3
"""api.py FOLDER [--write]: is what rustdoc says in this folder the public interface in rust/api?

FOLDER is target/doc/pkcs1_proved. A line is a page, and what it declares: the item itself, calls, constants, impls and
their types. Not listed are the calls of traits that are implemented, and what rustdoc adds to each type: blanket impls,
auto traits, methods of what it derefs to. Where rustc 1.85 and 1.95 print otherwise, the list is the same. --write makes it.
"""
import difflib
import html.parser
import pathlib
import re
import sys

KEPT = pathlib.Path(__file__).with_name("api")
LEFT_OUT = re.compile("(blanket-implementations|synthetic-implementations|deref-methods)-")
OF_TRAIT, OF_ALIAS = re.compile(r"fn |impl.* StructuralPartialEq for "), re.compile("(?!pub type )")
VOID = {"br", "hr", "img", "input", "link", "meta", "wbr"}


class Page(html.parser.HTMLParser):
    """The code of a page that declares something."""

    def __init__(self):
        super().__init__()
        self.open, self.codes, self.depth_of_code, self.left_out = [], [], None, None

    def handle_starttag(self, tag, attrs):
        if tag in VOID:
            return
        attrs = dict(attrs)
        self.open.append(tag)
        classes = (attrs.get("class") or "").split()
        if LEFT_OUT.match(attrs.get("id") or "") and self.left_out is None:
            self.left_out = len(self.open)
        if {"code-header", "item-decl"} & set(classes) and self.left_out is None and self.depth_of_code is None:
            self.depth_of_code = len(self.open)
            self.codes.append("")

    def handle_endtag(self, tag):
        if tag in VOID or tag not in self.open:
            return
        while self.open.pop() != tag:
            pass
        if self.depth_of_code is not None and len(self.open) < self.depth_of_code:
            self.depth_of_code = None
        if self.left_out is not None and len(self.open) < self.left_out:
            self.left_out = None

    def handle_data(self, data):
        if self.depth_of_code is not None:
            self.codes[-1] += data


def lines(folder):
    """The lines of the list."""
    for path in sorted(folder.rglob("*.html")):
        if path.name in ("all.html", "index.html", "sidebar-items.html"):
            continue
        page = Page()
        page.feed(path.read_text(encoding="utf-8"))
        where = str(path.relative_to(folder))[: -len(".html")].replace("/", "::")
        codes = {re.sub(r"( = \d+)[iu](?:\d+|size)$", r"\1", " ".join(code.replace("ⓘ", "").split())) for code in page.codes}
        left_out = OF_ALIAS if path.name.startswith("type.") else OF_TRAIT
        yield from sorted(f"{where}: {code}" for code in codes if not left_out.match(code))


def main():
    found = [it + "\n" for it in lines(pathlib.Path(sys.argv[1]))]
    if "--write" in sys.argv:
        KEPT.write_text("".join(found), encoding="utf-8")
    kept = KEPT.read_text(encoding="utf-8").splitlines(keepends=True)
    differ = list(difflib.unified_diff(kept, found, "rust/api", "what is public", n=0))
    sys.stdout.writelines(differ or [f"api: {len(found)} lines, as in rust/api\n"])
    sys.exit(bool(differ))


if __name__ == "__main__":
    main()
