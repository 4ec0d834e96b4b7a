#!/usr/bin/env python3
"""Plants each mistake of the file `mistakes` in a copy of the tool's text, in rust, which cargo builds. The test that
it names must notice it. Prints by what. The status is 1 if one passed. Where root calls it, what is planted runs as
another user. It needs cargo and gcc. All take 90 seconds of processor time."""
import json
import os
import shutil
import subprocess
import sys
import tempfile
from concurrent.futures import ThreadPoolExecutor

HERE = os.path.dirname(os.path.abspath(__file__))
TOP = os.path.normpath(f"{HERE}/../../..")
sys.path[:0] = [f"{TOP}/ffi/proof"]
from planted import planted, put, read, tell  # noqa: E402

# Where mistakes are planted, in rust.
PLACES = [f"src/bin/pkcs1_tool/tool/pkcs1_program/{it}.rs" for it in ("copy", "replace_std")]
ENV = dict(os.environ, CARGO_TERM_QUIET="true", PYTHONDONTWRITEBYTECODE="1")
if os.access("/dev/shm", os.W_OK):
    ENV["TMPDIR"] = "/dev/shm"  # in memory nothing waits for a disk
AS_NOBODY = ["setpriv", "--reuid", "65534", "--regid", "65534", "--clear-groups"] if os.geteuid() == 0 else []


def run(*words, **more):
    return subprocess.run(words, capture_output=True, text=True, check=False, env=ENV, **more)


MOUNTS = shutil.which("unshare") and not run(*AS_NOBODY, "unshare", "-rm", "true").returncode


def cargo(manifest, *words):
    """The program that cargo builds by these words."""
    built = run("cargo", *words, "--offline", "--message-format=json", "--manifest-path", manifest)
    if built.returncode:
        sys.exit(f"cargo {' '.join(words)}: {built.stdout}{built.stderr}")
    return [it for it in map(json.loads, built.stdout.splitlines()) if it.get("executable")][-1]["executable"]


class Trials:
    """Builds and tries the tool in a folder that other users may read."""

    def __init__(self, room):
        self.room, self.count = room, 0
        os.chmod(room, 0o755)
        # By its files' times, what was built of another copy would be taken for this one's.
        ENV["CARGO_TARGET_DIR"] = f"{room}/target"
        shutil.copytree(f"{TOP}/rust", f"{room}/rust", ignore=shutil.ignore_patterns("target"))
        self.calls = f"{room}/refuse_calls.so"
        words = ["-shared", "-fPIC", "-O1", f"{HERE}/refuse_calls.c", "-o", self.calls, "-ldl"]
        subprocess.run([os.environ.get("CC", "gcc"), *words], check=True)

    def built(self, test, texts):
        """The program that runs this test on the tool with these texts. Those that change are written."""
        for place, text in texts.items():
            path = f"{self.room}/rust/{place}"
            if read(path) != text:
                with open(path, "w", encoding="utf-8") as it:
                    it.write(text)
        if test == "file_calls":
            program = cargo(f"{self.room}/rust/check/Cargo.toml", "test", "--lib", "--no-run")
        else:
            program = cargo(f"{self.room}/rust/Cargo.toml", "build", "--bin", "pkcs1_tool")
        self.count += 1
        return shutil.copy(program, f"{self.room}/{self.count}")

    def noticed(self, test, program):
        """What the test says of the tool if it fails, or None."""
        if test == "mounted":
            return self.noticed("folders", program) if MOUNTS else "not tried: no file system can be mounted here"
        if test == "file_calls":
            with tempfile.TemporaryDirectory() as at:
                os.chmod(at, 0o777)
                found = run(*AS_NOBODY, program, test, cwd=at)
        else:
            library = [self.calls] if test == "faults" else []
            found = run(f"{HERE}/{test}.py", *library, f"cargo={program}")
        said = [it for it in found.stdout.splitlines() if it.startswith(f"{test}:") or it.endswith("FAILED")]
        return (said or ["it ends otherwise"])[0][:160] if found.returncode else None


def main():
    if run(*AS_NOBODY, "true").returncode:
        print("mistakes in copies aren't tried: no other user runs the tools here")
        return
    whole = {it: read(f"{TOP}/rust/{it}") for it in PLACES}

    def plant(what, old, new):
        place = max(PLACES, key=lambda it: whole[it].count(old))
        return what.split(":")[0], {**whole, place: put(whole[place], what, old, new)}

    mistakes = planted(f"{HERE}/mistakes", plant)
    with tempfile.TemporaryDirectory() as room, ThreadPoolExecutor(os.cpu_count()) as pool:
        trials = Trials(room)
        for test in sorted({test for _, (test, _) in mistakes} - {"mounted"}):
            if said := trials.noticed(test, trials.built(test, whole)):
                sys.exit(f"without a mistake {test} says {said}")
        tell(mistakes, [it.result() for it in [
            pool.submit(trials.noticed, test, trials.built(test, texts)) for _, (test, texts) in mistakes]])


main()
