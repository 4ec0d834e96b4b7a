"""The tools that are compared, and the folders in which they run."""
import contextlib
import dataclasses
import os
import re
import shutil
import stat
import subprocess
import sys
import tempfile
from concurrent.futures import ThreadPoolExecutor

PUBLIC = bytes.fromhex("3006020107020103")
PRIVATE = bytes.fromhex("301b02010002010702010302010502010b02010d020102020104020106")
OLD = b"old"
# The name of a new file, in place of which another stands in what is compared.
RANDOM = re.compile(rb"\.pkcs1_tool\.[0-9a-f]{16}\b")
# The tool that rattle builds has a std of its own, by which it does other calls again.
RATTLE = "rattle"


@dataclasses.dataclass(frozen=True)
class Tool:
    """A program, and whose it is: make, cargo or rattle."""
    name: str
    path: str


def tools_of(words):
    """Those that are named by words of the command line, NAME=PATH. From here on nothing is done as root: a tool with a
    mistake may replace a device."""
    if os.geteuid() == 0:
        try:
            os.setgroups([])
            os.setgid(65534)
            os.setuid(65534)
        except OSError as why:
            print(f"{sys.argv[0]}: isn't tried: no other user runs the tools here: {why}")
            sys.exit(0)
    os.umask(0o022)
    return [Tool(*it.split("=", 1)) for it in words]


@dataclasses.dataclass(frozen=True)
class Result:
    """How a run ended, what it printed, and the files that it left: what each holds, or the link, and its mode."""
    status: int
    printed: bytes
    error: bytes
    files: tuple

    def __str__(self):
        files = [f"{name} {what[:30]!r} {mode:o}" for name, what, mode in self.files]
        return f"status {self.status}, {self.printed[:60]!r}, {self.error[-100:]!r}, files: {', '.join(files)}"


@contextlib.contextmanager
def folder():
    """A new folder, which goes at the end."""
    made = tempfile.mkdtemp()
    try:
        yield made
    finally:
        shutil.rmtree(made, ignore_errors=True)
        if os.path.exists(made):  # it is too deep for Python
            subprocess.run(["rm", "-rf", made], check=True)


def put(path, what, mode=0o644):
    with open(path, "wb") as file:
        file.write(what)
    os.chmod(path, mode)


def what_is_at(path, mode):
    """What a file with this mode holds, or where a link leads."""
    if stat.S_ISLNK(mode):
        return os.readlink(path).encode()
    if not mode & 0o400:
        os.chmod(path, 0o600)
    with open(path, "rb") as file:
        held = file.read()
    if not mode & 0o400:
        os.chmod(path, stat.S_IMODE(mode))
    return held


def files_below(top):
    found = []
    for at, _, names in os.walk(top):
        for path in (os.path.join(at, name) for name in names):
            mode = os.lstat(path).st_mode
            name = RANDOM.sub(b".pkcs1_tool.NEW", os.path.relpath(path, top).encode()).decode()
            found.append((name, what_is_at(path, mode), mode))
    return tuple(sorted(found))


def run(tool, words, at, top=None, **more):
    """Runs it in the folder. What is told of files is told of those below `top`."""
    ran = subprocess.run([tool.path, *words], cwd=at, capture_output=True, check=False, **more)
    top = top or at
    error = RANDOM.sub(b".pkcs1_tool.NEW", ran.stderr.replace(top.encode(), b"TOP"))
    return Result(ran.returncode, ran.stdout, error, files_below(top))


def try_all(name, compared, trials):
    """Calls each function with its arguments, and prints what is wrong. The exit status."""
    wrong = tried = 0
    with ThreadPoolExecutor(4) as pool:
        for (_, words), found in [(it, pool.submit(lambda it: list(it[0](*it[1])), it)) for it in trials]:
            tried += 1
            for what in found.result():
                wrong += 1
                print(f"{name}: {' '.join(repr(it) for it in words)}: {what}")
    print(f"{name}: {tried} trials of {', '.join(it.name for it in compared)}, {wrong} failed")
    return min(wrong, 1)
