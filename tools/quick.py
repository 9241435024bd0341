#!/usr/bin/env python3
"""Builds the program before any proof, in minutes: out/quick/runtest.

    python3 tools/quick.py [TOP]      of the repository at TOP, else of the one where this is called, else of this file's own

`rt try` compiles the program with run-time checks in the place of proofs, and runs it. It keeps what it compiled in TMPDIR for as
long as the program runs. So it gets a folder of its own for that, and the program a suite to run whose one child sleeps for some
seconds: meanwhile the file is taken. Where no source has changed since, nothing is built.

A program that was built so is for trying things. It may stop where a proved one cannot, and it is slower.
"""
import fcntl
import hashlib
import os
import re
import shlex
import shutil
import signal
import stat
import struct
import subprocess
import sys
import tempfile
import time
from pathlib import Path

RT = shlex.split(os.environ.get("RT") or "rt")
HOLD = 3  # how many seconds the program is kept running
SCRIPT = f"spawn sleep {HOLD}\nexpect eof {{}} timeout {{}}\nwait\npass \"a child ran\"\n"
NEEDED = 4_500_000  # how much memory compiling takes, in kB
KILLED = """`rt try` was ended before it had compiled the program: most likely the memory did not suffice. It takes some four gigabytes.
Call this again when they are free."""
NO_FILE = """`rt try` compiled and ran the program, and left no file of it that could be taken: this kit keeps none where it is looked for
(a file `program` below TMPDIR). There is no quick build with this kit. Build the proved program: make (about an hour)."""


def repository(said):
    """The top of the repository that is meant."""
    if said:
        return Path(said).resolve()
    here = Path.cwd()
    return next((it for it in (here, *here.parents) if is_top(it)), Path(__file__).resolve().parents[1])


def is_top(folder):
    return (folder / "crates.txt").is_file() and (folder / "crates/runtest/src/main.rt").is_file()


def sum_of_sources(top):
    """A number for all that the build reads of the repository, and for the kit."""
    made = hashlib.sha256(subprocess.run([*RT, "version"], stdout=subprocess.PIPE, check=False).stdout)
    files = [it for part in ("src", "specs") for it in top.glob(f"crates/*/{part}/**/*") if it.is_file()]
    for it in [top / "crates.txt", *sorted(files)]:
        made.update(f"{it.relative_to(top)}\0{it.stat().st_size}\0".encode() + it.read_bytes())
    return made.hexdigest()


def is_whole(file):
    """Whether a file is a 64-bit ELF program that has all that its head names."""
    head = file.read_bytes()[:64]
    if len(head) < 64 or head[:5] != b"\x7fELF\x02":
        return False
    (sections_at,) = struct.unpack_from("<Q", head, 40)
    size, count = struct.unpack_from("<HH", head, 58)
    return sections_at + size * count <= file.stat().st_size


def version(program):
    """What the program says of itself, or nothing where it doesn't run."""
    try:
        ran = subprocess.run([program, "--version"], capture_output=True, text=True, timeout=60, check=False)
    except (OSError, subprocess.TimeoutExpired):
        return ""
    return ran.stdout.strip() if ran.returncode == 0 and ran.stdout.startswith("runtest ") else ""


class Taken:
    """The files that were taken out of a folder while it was there."""

    def __init__(self, folder, to):
        self.folder, self.to, self.known, self.files = folder, to, set(), []

    def look(self):
        """Takes each new file `program` that may be run."""
        for it in self.folder.glob("**/program"):
            try:
                told = it.lstat()
                if told.st_ino in self.known or not stat.S_ISREG(told.st_mode) or not told.st_mode & stat.S_IXUSR:
                    continue
                file = self.to / f"taken-{told.st_ino}"
                # by a second name, which holds what is still being written, and what is removed
                os.link(it, file)
            except OSError:
                continue
            self.known.add(told.st_ino)
            self.files.append(file)

    def best(self):
        """The last that is whole and runs, or nothing."""
        return next((it for it in reversed(self.files) if is_whole(it) and version(it)), None)


def free_memory():
    """How much memory can be used, in kB, or nothing where that isn't told."""
    try:
        lines = Path("/proc/meminfo").read_text().splitlines()
    except OSError:
        return None
    return next((int(it.split()[1]) for it in lines if it.startswith("MemAvailable:")), None)


def why_none(said, status):
    """Why there is no program, by what `rt try` said and its status."""
    if re.search(r"^(checked: ended|run=ended) ", said, re.MULTILINE):
        return NO_FILE
    if "error" not in said and said.splitlines()[-1:] in ([], ["run=none proved=no"]):
        return KILLED
    return f"rt try ended with status {status}, see above"


def suite(folder):
    """A suite whose one script starts a child that sleeps; gives the words that run it."""
    script = folder / "suite/hold.all/hold.exp"
    script.parent.mkdir(parents=True)
    script.write_text(SCRIPT)
    return ["--tool", "hold", "--srcdir", str(folder / "suite"), "--outdir", str(folder / "ran")]


def tried(top, folder):
    """Runs `rt try`, and gives the program that it compiled, or nothing, with what it said and its status."""
    kept = folder / "tmp"
    kept.mkdir()
    taken = Taken(kept, folder)
    words = [*RT, "try", "--", *suite(folder)]
    with open(folder / "said", "w+b") as said:
        ran = subprocess.Popen(
            words, cwd=top / "crates/runtest", env={**os.environ, "TMPDIR": str(kept)}, stdin=subprocess.DEVNULL, stdout=said, stderr=said
        )
        try:
            while ran.poll() is None:
                taken.look()
                time.sleep(0.02)
        finally:
            if ran.poll() is None:
                ran.terminate()
                ran.wait()
        said.seek(0)
        return taken.best(), said.read().decode(errors="replace"), ran.returncode


def build(top, made):
    """Builds the program, and gives the status."""
    made.mkdir(parents=True, exist_ok=True)
    begun = time.monotonic()
    print("quick: compiling the program before any proof, in 3 to 8 minutes", flush=True)
    if (free_memory() or NEEDED) < NEEDED:
        print("quick: that takes some four gigabytes of memory, and fewer are free: it may be ended for that", flush=True)
    wanted = sum_of_sources(top)
    with tempfile.TemporaryDirectory(prefix="build-", dir=made) as folder:
        program, said, status = tried(top, Path(folder))
        if not program:
            print(said, end="", file=sys.stderr)
            print(f"quick: no program: {why_none(said, status)}", file=sys.stderr)
            return 1
        for line in said.splitlines():
            if line.startswith("rt: a check will refuse this") or "run=" in line and "run=ended status=0" not in line:
                print(line, file=sys.stderr)
        os.replace(program, made / "runtest")
        (made / "runtest").chmod(0o755)
        (made / "sources").write_text(wanted + "\n")
    print(f"quick: {made / 'runtest'} was built in {time.monotonic() - begun:.0f} seconds; {version(made / 'runtest')}")
    return 0


def is_current(top, made):
    kept = made / "sources"
    return kept.is_file() and version(made / "runtest") != "" and kept.read_text().strip() == sum_of_sources(top)


def main(said=None):
    signal.signal(signal.SIGTERM, lambda *_: sys.exit(1))
    top = repository(said)
    if not is_top(top):
        sys.exit(f"quick: {top} is not the top of the repository")
    if not shutil.which(RT[0]):
        sys.exit(f"quick: there is no command {RT[0]}: put a Rattle kit's rt on the path, or name it (make quick RT=..)")
    made = top / "out/quick"
    made.mkdir(parents=True, exist_ok=True)
    with open(made / "lock", "w") as lock:
        fcntl.flock(lock, fcntl.LOCK_EX)
        status = 0 if is_current(top, made) else build(top, made)
    if status == 0:
        print(f"quick: {made / 'runtest'} is NOT PROVED: it is the program before any proof, with run-time checks in their place")
    return status


if __name__ == "__main__":
    sys.exit(main(*sys.argv[1:]))
