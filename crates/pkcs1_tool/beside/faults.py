#!/usr/bin/env python3
"""faults.py LIBRARY NAME=TOOL..: each call on files that the tool makes fails with each of some errors, one in each
run, in copies to all kinds of OUT. All tools make the same calls, and end alike. A new file has a random name, is
created with its mode, and is on the disk before it is renamed. Each error ends the copy, but for those of closing, and
of reading and setting a mode. After that each file is as it was, unless only the folder can't be synced. A new file
that can't be removed is named, and only its owner may read a private key there. A disk that has no room, as it finds
out when a file is closed, loses nothing. LIBRARY is what is built of refuse_calls.c."""
import collections
import errno
import os
import sys
import tempfile

import tools
from tools import OLD, PRIVATE, PUBLIC

ERRORS = ("EIO", "EINTR", "ENOMEM", "ENOENT")
# What a signal interrupts is done again. Rust's std doesn't read or write again, so cargo's tool fails.
AGAIN, NOT_BY_CARGO = ("open", "read", "write", "fsync", "fchmod"), ("read", "write")
Case = collections.namedtuple("Case", "words out key mode", defaults=(None, None, None))
CASES = {
    "lines": Case([]),
    "a new public key": Case(["pub", "pub.der", "new.der"], "new.der", PUBLIC, 0o644),
    "a public key over a file": Case(["pub", "pub.der", "old.der"], "old.der", PUBLIC, 0o664),
    "a new private key": Case(["priv", "priv.der", "new.der"], "new.der", PRIVATE, 0o600),
    "a private key over a file": Case(["priv", "priv.der", "old.der"], "old.der", PRIVATE, 0o600),
    "a private key over itself": Case(["priv", "priv.der", "priv.der"], "priv.der", PRIVATE, 0o600),
    "through a link": Case(["priv", "priv.der", "link.der"], "real.der", PRIVATE, 0o600),
    "into a folder": Case(["pub", "pub.der", "sub/new.der"], "sub/new.der", PUBLIC, 0o644),
    "through a link to nothing": Case(["pub", "pub.der", "nothing.der"]),
    "to a device": Case(["pub", "pub.der", "/dev/null"]),
    "no public key": Case(["pub", "priv.der", "old.der"]),
}
# Where the system says of a link to nothing that nothing is there, the link is replaced.
UNTRIED = {("through a link to nothing", "lstat", "ENOENT")}
# What is never copied.
KEPT = ("through a link to nothing", "no public key")
# Two calls of one run that fail.
PAIRS = [
    ("a private key over a file", "write,1,EIO unlink,1,EIO"),
    ("a private key over a file", "fsync,1,EIO unlink,1,EACCES"),
    ("a private key over a file", "rename,1,EIO unlink,1,EIO"),
    ("a new public key", "fsync,1,EIO unlink,1,EIO"),
    ("into a folder", "rename,1,EIO unlink,1,EIO"),
]
LEFT = ".pkcs1_tool.NEW"
UNSYNCED = b": it is replaced, but its folder can't be synced\n"
UNKNOWN = b": it can't be opened\n"
NO_MEMORY = b": no memory was found\n"


def prepare(at):
    os.makedirs(f"{at}/sub")
    for name, what, mode in (("pub.der", PUBLIC, 0o644), ("priv.der", PRIVATE, 0o600), ("old.der", OLD, 0o664),
                             ("real.der", OLD, 0o644)):
        tools.put(f"{at}/{name}", what, mode)
    os.symlink("real.der", f"{at}/link.der")
    os.symlink("gone.der", f"{at}/nothing.der")


def numbers(refused):
    """The same, with numbers in place of the names of errors."""
    return " ".join(",".join([*it.split(",")[:2], str(getattr(errno, it.split(",")[2]))]) for it in refused.split())


class Faults:
    """The runs of the tools. What is wrong is yielded, in words."""

    def __init__(self, library, compared):
        self.library, self.compared = library, compared
        self.names = {tool: collections.Counter() for tool in compared}
        with tools.folder() as top:
            at = f"{top}/files"
            prepare(at)
            self.before = tools.files_below(at)

    def run(self, tool, case, refused="", **more):
        """Its result, and its calls as refuse_calls.c writes them, with another name for a new file."""
        words = ["copy", *CASES[case].words] if CASES[case].words else []
        with tools.folder() as top, tempfile.TemporaryFile() as log:
            at = f"{top}/files"
            prepare(at)
            env = {"LD_PRELOAD": self.library, "REFUSED": numbers(refused), "CALLS": str(log.fileno())}
            env.update(more)
            lines = b"pub 3006020107020103\npub 30\n"
            result = tools.run(tool, words, at, env=env, input=lines, pass_fds=(log.fileno(),))
            log.seek(0)
            calls = log.read()
            self.names[tool].update(set(tools.RANDOM.findall(calls)))
            return result, tools.RANDOM.sub(LEFT.encode(), calls).decode().split()

    def files(self, case, calls, result):
        """Whether each file is as it may be after this run."""
        what, files = CASES[case], {name: it for name, *it in result.files}
        wanted = {name: it for name, *it in self.before}
        if what.out and (result.status == 0 or result.error.endswith(UNSYNCED)):
            mode = 0o600 if "!fstat" in calls and what.out not in wanted else what.mode
            set_in_vain = "!fchmod" in calls and "fchmod" not in calls
            wanted[what.out] = [what.key, 0o100000 | (mode & ~0o022 if set_in_vain else mode)]
        if any(files.get(it) != wanted.get(it) for it in files.keys() | wanted.keys() if it.split("/")[-1] != LEFT):
            yield f"other files than there may be: {result}"
        if (result.status, result.error.count(b"\n")) not in ((0, 0), (1, 1)):
            yield f"another status, or other lines: {result}"
        left = [name for name in files if name.split("/")[-1] == LEFT]
        if left != (left[:1] if "!unlink" in calls else []):
            yield f"a new file is left: {result}"
        if left and (files[left[0]][1] & 0o77 and what.key == PRIVATE or
                     not result.error.endswith(f", and {left[0]} can't be removed\n".encode())):
            yield f"a new file is left that others may read, or isn't named: {result}"

    def alike(self, ran):
        """Whether the tools ended alike, and made the same calls."""
        results = {tool.name: result for tool, (result, _) in ran.items()}
        if len(set(results.values())) > 1:
            yield "the tools differ:" + "".join(f"\n    {name}: {it}" for name, it in results.items())
        calls = {tool.name: " ".join(calls) for tool, (_, calls) in ran.items() if tool.name != tools.RATTLE}
        if len(set(calls.values())) > 1:
            yield "the tools make other calls:" + "".join(f"\n    {name}: {it}" for name, it in calls.items())

    def in_order(self, case, calls):
        """Whether a new file gets its mode when it is created, and is renamed when it is whole."""
        what = CASES[case]
        made = [at for at, call in enumerate(calls) if call.startswith("open/")]
        folder = os.path.basename(os.path.dirname(what.out)) or "files"
        wanted = ["write", f"fsync/{LEFT}", "close", "rename", "open", f"fsync/{folder}", "close"]
        if what.key == PUBLIC and any(name == what.out for name, *_ in self.before):
            wanted.insert(0, "fchmod")
        if not made or calls[made[0]:] != [f"open/{what.mode:o}/{LEFT}", *wanted]:
            yield f"other calls, or in another order: {' '.join(calls)}"

    def unhindered(self, case):
        """Nothing fails, and nothing differs if few octets are read and written at a time."""
        ran = {tool: self.run(tool, case) for tool in self.compared}
        result, calls = ran[self.compared[0]]
        yield from self.alike(ran)
        yield from self.files(case, calls, result)
        if result.status != (case in KEPT):
            yield f"another status: {result}"
        if CASES[case].out:
            yield from self.in_order(case, calls)
        for more in ({"SHORT": "1"}, {"SHORT": "3"}, {"LAZY": "yes"}):
            ran = {tool: self.run(tool, case, **more) for tool in self.compared}
            yield from self.alike(ran)
            if ran[self.compared[0]][0] != result:
                yield f"with {more} it ends otherwise: {ran[self.compared[0]][0]}"

    def goes_on(self, case, call, error):
        """Whether a copy that fails at this call isn't ended by it."""
        is_new = all(name != CASES[case].out for name, *_ in self.before)
        return call[0] in ("close", "fchmod") or call == ("fstat", "1") or (
            error == "ENOENT" and call[0] in ("stat", "lstat") and CASES[case].out and is_new)

    def ends(self, case, refused, result, again):
        """Whether it ends as it may after this call failed."""
        kind, number, error = refused.split(",")
        goes_on = again or self.goes_on(case, (kind, number), error)
        if result.status != (case in KEPT or not goes_on):
            yield f"another status: {result}"
        text = NO_MEMORY if (kind, error) == ("realpath", "ENOMEM") else UNKNOWN
        if kind in ("stat", "lstat", "realpath") and error != "ENOENT" and not result.error.endswith(text):
            yield f"another error: {result}"

    def hindered(self, case, refused):
        """These calls fail."""
        kinds, error = [it.split(",")[0] for it in refused.split()], refused.split(",")[-1]
        again = error == "EINTR" and kinds[0] in AGAIN
        left_out = {tools.RATTLE} if error == "EINTR" or len(kinds) > 1 else set()
        left_out |= {"cargo"} if again and kinds[0] in NOT_BY_CARGO else set()
        ran = {tool: self.run(tool, case, refused) for tool in self.compared if tool.name not in left_out}
        if not ran:
            return
        result, calls = ran[next(iter(ran))]
        yield from self.alike(ran)
        yield from self.files(case, calls, result)
        if sorted(it.split("/")[0] for it in calls if it[0] == "!") != sorted("!" + it for it in kinds):
            yield f"not each of these is called: {' '.join(calls)}"
        if len(kinds) == 1:
            yield from self.ends(case, refused, result, again)
        if again and result != self.run(self.compared[0], case)[0]:
            yield f"it isn't done again: {result}"

    def renamed_and_failed(self, case):
        """A rename that is done, and then reported as failed: OUT has the key, and nothing is left."""
        for tool in self.compared:
            result, _ = self.run(tool, case, LYING=numbers("rename,1,EIO"))
            if result.status != 1 or not result.error.endswith(b": the new file can't be renamed to it\n"):
                yield f"it ends otherwise: {result}"
            if {name: it for name, *it in result.files}[CASES[case].out][0] != CASES[case].key:
                yield f"the key is lost: {result}"
            if any(LEFT in name for name, *_ in result.files):
                yield f"a new file is left: {result}"

    def unsynced(self, case, refused):
        """Where a system can't open a folder, it isn't waited for. The tool of make is for none of these."""
        for tool in (it for it in self.compared if it.name != "make"):
            result, _ = self.run(tool, case, refused)
            if result.status:
                yield f"it ends otherwise: {result}"

    def names_are_random(self):
        """No name came twice, and no digit was always the same."""
        for tool, names in self.names.items():
            digits = [set(it) for it in zip(*(name[-16:] for name in names))]
            if set(names.values()) != {1} or min(map(len, digits)) == 1:
                yield f"new files of {tool.name} have the names {sorted(names)[:3]} and others like these"

    def trials(self):
        """What is tried: functions, each with its arguments."""
        for case in CASES:
            yield self.unhindered, (case,)
            seen = collections.Counter()
            for call in self.run(self.compared[0], case)[1]:
                kind = call.split("/")[0]
                seen[kind] += 1
                yield from ((self.hindered, (case, f"{kind},{seen[kind]},{error}")) for error in ERRORS
                            if (case, kind, error) not in UNTRIED)
        yield from ((self.hindered, it) for it in PAIRS)
        yield self.renamed_and_failed, ("a private key over a file",)
        yield self.renamed_and_failed, ("a private key over itself",)
        yield self.unsynced, ("a new public key", "open,3,ENOSYS")
        yield self.names_are_random, ()


if __name__ == "__main__":
    compared = tools.tools_of(sys.argv[2:])
    sys.exit(tools.try_all("faults", compared, Faults(sys.argv[1], compared).trials()))
