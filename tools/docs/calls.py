"""The comments of calls: whether each public call, method of a trait, type and constant of src/ has one (`///`) in front
of it, and each file of src/, specs/ and proofs/ begins with one. Of tests only the first line is looked at."""
import re

FILE = r"crates/\w+/(src|specs|proofs)/.*\.(rt|antt)"
ITEM = re.compile(r"( *)(pub )?(?:(?:const|final|unsafe|extern \"C\") )*(fn|trait|struct|enum|type|const) (\w+)")


def items(text):
    """Each public item: the number of its line, its name, and whether a comment stands in front of it."""
    in_trait = commented = False
    for number, line in enumerate(text.split("\n"), 1):
        in_trait = line.startswith("pub trait ") or in_trait and not line.startswith("}")
        found = ITEM.match(line)
        if found and (found[2] or in_trait and found[1] == "    " and found[3] == "fn"):
            yield number, found[4], commented
        said = line.strip()
        commented = said.startswith("///") or commented and said.startswith("#")


def look_at(tree):
    """How many files and items there are, and where a comment is missing."""
    files, count, wrong = tree.like(FILE), 0, []
    for path in files:
        text = tree.text(path)
        if not re.match(r"(//!?|--) \S", text):
            wrong.append(f"{path}:1: no comment says what the file holds")
        of_code = re.match(r"crates/\w+/src/(?!tests/)", path)
        for number, name, commented in items(text) if of_code else []:
            count += 1
            commented or wrong.append(f"{path}:{number}: no comment says what {name} promises")
    return len(files), count, wrong
