#!/usr/bin/env python3
"""folders.py NAME=TOOL..: copies in folders that have no path: one that would be too long, one whose file system is
unmounted, and one over which another is mounted. OUT is replaced by its own name, or left as it is."""
import functools
import os
import shutil
import subprocess
import sys

import tools
from tools import OLD, PRIVATE

# A shell that lets no file grow runs the rest.
FULL = ["sh", "-c", 'trap "" XFSZ; ulimit -f 0; exec "$@"', "sh"]
REFUSED = "writing {}: it can't be opened\n"
# OUT, whether files may grow, and the error, in a folder whose path is short enough, and in another.
DEEP = [
    ("key", True, "", ""),
    ("key", False, "writing {}: a write failed\n", "writing {}: a write failed\n"),
    ("old", True, "", ""),
    ("old", False, "writing {}: a write failed\n", "writing {}: a write failed\n"),
    ("new", True, "", ""),
    ("link", True, "", REFUSED),
    ("link", False, "writing {}: a write failed\n", REFUSED),
    ("empty_link", True, "", REFUSED),
    ("link_to_nothing", True, "writing {}: it is a link to nothing\n", "writing {}: it is a link to nothing\n"),
]
# Which file is another one after a copy to OUT.
WRITTEN = {"link": "old", "empty_link": "empty"}
# Folders that have no path any more, and what is said of copies there by the script below.
MOUNTED = {
    "an unmounted folder": 'mkdir m; mount -t tmpfs none m; cd m; cp ../key ../old .; umount -l ../m',
    "a folder that is mounted over": 'mkdir -p m/f; cd m/f; cp ../../key ../../old .; mount -t tmpfs none "$2/m"',
    # Both file systems may give such files the same numbers.
    "a folder that is mounted over by one with such files": """
        mkdir m; mount -t tmpfs none m; mkdir m/f; cd m/f; cp ../../key key; cp ../../old old
        mount -t tmpfs none "$2/m"; mkdir "$2/m/f"; cp "$2/old" "$2/m/f/key"; cp "$2/old" "$2/m/f/old"
        ln -s old "$2/m/f/link" """,
    "a folder that is mounted over by another one of the same file system": """
        mkdir -p m/f other/f; cd m/f; cp ../../key ../../old .; mount --bind "$2/other" "$2/m"
        cp "$2/old" "$2/m/f/key"; cp "$2/old" "$2/m/f/old"; ln -s old "$2/m/f/link" """,
}
COPIES = """
    (trap '' XFSZ; ulimit -f 0; "$1" copy priv key key); echo $?; cmp "$2/key" key && echo whole
    ln -s old link; "$1" copy priv key link; echo $?; cmp "$2/old" old && echo kept
    "$1" copy priv key old; echo $?; cmp key old && echo copied
    for it in "$2"/m/f/*; do [ ! -e "$it" ] || cmp "$2/old" "$it"; done; ls -A"""
SAID = """writing key: a write failed
1
whole
writing link: it can't be opened
1
kept
0
copied
key
link
old
"""


def prepare(at):
    for name, what, mode in (("key", PRIVATE, 0o600), ("old", OLD, 0o644), ("empty", b"", 0o644)):
        tools.put(f"{at}/{name}", what, mode)
    for name, to in (("link", "old"), ("empty_link", "empty"), ("link_to_nothing", "nothing")):
        os.symlink(to, f"{at}/{name}")


def deep(compared, levels, out, may_grow, short, long):
    """In a folder whose path has 251 octets for each level."""
    for tool in compared:
        with tools.folder() as top:
            at = os.open(top, os.O_PATH)
            for _ in range(levels):
                os.mkdir("d" * 250, dir_fd=at)
                above, at = at, os.open("d" * 250, os.O_PATH, dir_fd=at)
                os.close(above)
            try:
                error = (long if levels > 16 else short).format(out)
                yield from copied(tool, f"/proc/self/fd/{at}", out, may_grow, error)
            finally:
                os.close(at)


def copied(tool, at, out, may_grow, error):
    prepare(at)
    wanted = {name: (what, mode) for name, what, mode in tools.files_below(at)}
    shell = tools.Tool(tool.name, FULL[0] if not may_grow else tool.path)
    result = tools.run(shell, [*(FULL[1:] + [tool.path] if not may_grow else []), "copy", "priv", "key", out], at)
    if not error:
        wanted[WRITTEN.get(out, out)] = (PRIVATE, 0o100600)
    if (result.status, result.error.decode()) != (1 if error else 0, error):
        yield f"{tool.name} ends otherwise: {result}"
    if {name: (what, mode) for name, what, mode in result.files} != wanted:
        yield f"{tool.name} leaves other files: {result}"


def mounted(compared, what):
    for tool in compared:
        with tools.folder() as top:
            prepare(top)
            script = f"set -e\n{MOUNTED[what]}\nset +e\n{COPIES}"
            ran = subprocess.run(["unshare", "-rm", "sh", "-c", script, "sh", tool.path, top], cwd=top, check=False,
                                 stdout=subprocess.PIPE, stderr=subprocess.STDOUT, text=True)
            if ran.stdout != SAID:
                yield f"by {tool.name} it is otherwise: {ran.stdout}"


def trials(compared):
    for levels in (10, 15, 16, 17, 20):
        yield from ((functools.partial(deep, compared), (levels, *it)) for it in DEEP)
    tried = ["unshare", "-rm", "true"]
    if not shutil.which(tried[0]) or subprocess.run(tried, capture_output=True, check=False).returncode:
        print("folders: what is mounted isn't tried: no file system can be mounted here")
        return
    yield from ((functools.partial(mounted, compared), (it,)) for it in MOUNTED)


if __name__ == "__main__":
    compared = tools.tools_of(sys.argv[1:])
    sys.exit(tools.try_all("folders", compared, trials(compared)))
