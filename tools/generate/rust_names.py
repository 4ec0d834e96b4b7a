"""Names as rustc codes them: in the form v0, which this text's have, and in the older one of what Debian compiled."""
import re

CRATE = re.compile(r"_R\w*?Cs[0-9A-Za-z]+_(\d+)(\w+)")
# What stands between the words of a path: a crate's hash, a number, where a word stood before, or what a word is.
BETWEEN = re.compile(r"Cs[0-9A-Za-z]+_|[sB][0-9A-Za-z]*_|[^0-9]")
WORD = re.compile(r"(\d+)_?")
# What core and alloc call in the end: the panic handler, and what stands for it where there is no memory.
ENDS = re.compile(r"(rust_begin_unwind|\w*_alloc_error_handler|\w*rdl_oom)(\.\w+)*")


def is_of_core(name):
    """Whether a function is of Rust's core or alloc, with which its name begins, or what they call in the end."""
    found = CRATE.match(name)
    of_crate = found and found[2][:int(found[1])] in ("core", "alloc", "std", "compiler_builtins")
    return bool(of_crate or name.startswith("_ZN") or ENDS.fullmatch(name))


def told(name):
    """The last two words of a path in the form v0."""
    words, at = [], 2
    while at < len(name):
        it = WORD.match(name, at)
        if it:
            at = it.end() + int(it[1])
            words.append(name[it.end():at])
        else:
            at = BETWEEN.match(name, at).end()
    return "_".join(words[-2:]) or name
