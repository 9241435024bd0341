#!/usr/bin/env python3
"""Builds a program and the crates that it stands on, several side by side.

    python3 tools/build.py PROGRAM

A crate is built as soon as those below it are, the one with the longest chain of crates above it first. RT_LANES says how many are
built at a time (else tools/lanes.sh), RT which command `rt` is. The program comes last, by itself.

The longest chain is most of the work, and two jobs on one crate are not twice as fast as one. So the crate that begins it has a job
for each processor, and those beside it have one job each and give way to it. Where crates are built one by one `rt` chooses the
jobs, by the memory that there is.

`rt` keeps every other `rt` away from the crates below the one that it works on. So each crate is built in a copy of the
sources, in a folder beside the repository, over links to the libraries below it. Its out/ then comes back to the repository,
where it holds as well: `rt` goes by what the sources say, and not by where they lie.
"""
import fcntl
import os
import shlex
import shutil
import signal
import subprocess
import sys
import tempfile
import time
from pathlib import Path

TOP = Path(__file__).resolve().parents[1]
CRATES = TOP / "crates"
RT = shlex.split(os.environ.get("RT") or "rt")
PROCESSORS = len(os.sched_getaffinity(0))
SHOWN = 30


def listed():
    """The line of each crate in crates.txt."""
    lines = [line.partition("#")[0] for line in (TOP / "crates.txt").read_text().splitlines()]
    return {line.split(":")[0].split()[0]: line for line in lines if ":" in line}


def crates():
    """The crates of crates.txt, each with those among them that it names."""
    lines = listed()
    return {name: [it for it in line.partition(":")[2].split() if it in lines] for name, line in lines.items()}


def below(name, named):
    """All crates that one stands on."""
    found = set()
    for it in named[name]:
        found |= {it} | below(it, named)
    return found


def lines_in(name):
    files = [it for part in ("src", "specs", "proofs") for it in (CRATES / name / part).rglob("*") if it.is_file()]
    return sum(it.read_bytes().count(b"\n") for it in files)


def chains(names, named):
    """How many lines each crate's longest chain has, with itself, of crates that stand on one another."""
    above = {name: [it for it in names if name in named[it]] for name in names}
    found = {}

    def chain(name):
        if name not in found:
            found[name] = lines_in(name) + max(map(chain, above[name]), default=0)
        return found[name]

    return {name: chain(name) for name in names}


def lanes():
    """How many crates are built at a time."""
    said = os.environ.get("RT_LANES")
    if not said:
        said = subprocess.run(["sh", TOP / "tools/lanes.sh"], stdout=subprocess.PIPE, text=True, check=False).stdout
    return max(1, int(said.strip() or 1))


def link(file, to):
    """Puts a file at a second place, by a copy where that is on another disk."""
    try:
        os.link(file, to)
    except OSError:
        shutil.copy2(file, to)


class Build:
    """A library that is being built in a copy of the sources, with so many jobs, or with those that `rt` chooses."""

    def __init__(self, name, libraries, scratch, jobs):
        self.name, self.libraries, self.jobs, self.begun = name, libraries, jobs, time.time()
        self.copy, self.kept, self.log = scratch / name, CRATES / name / "out", scratch / f"{name}.log"
        self.made, self.process = self.copy / "crates" / name / "out", None

    def start(self):
        for it in [*self.libraries, self.name]:
            shutil.copytree(CRATES / it, self.copy / "crates" / it, ignore=shutil.ignore_patterns("out"))
        for it in self.libraries:
            shutil.copytree(CRATES / it / "out/rlib", self.copy / "crates" / it / "out/rlib", copy_function=link)
        lines = [line for it, line in listed().items() if it == self.name or it in self.libraries]
        (self.copy / "crates.txt").write_text("\n".join(lines) + "\n")
        if self.kept.exists():
            shutil.move(self.kept, self.made)
        words = [*RT, "lib", *(["--jobs", str(self.jobs)] if self.jobs else [])]
        words = ["nice", "-n", "5", *words] if self.jobs == 1 else words
        with open(self.log, "wb") as log:
            self.process = subprocess.Popen(words, cwd=self.made.parent, stdin=subprocess.DEVNULL, stdout=log, stderr=log)

    def has_ended(self):
        return self.process.poll() is not None

    def end(self):
        """Stops it where it still runs, brings its out/ back, and returns whether the library is built."""
        if self.process and not self.has_ended():
            self.process.terminate()
            self.process.wait()
        if self.made.exists():
            shutil.move(self.made, self.kept)
        return self.process and self.process.returncode == 0


def build(program, named, scratch):
    """Builds the libraries below the program, and returns whether all are built."""
    left, built, running = below(program, named), set(), []
    chain, most = chains({*left, program}, named), lanes()
    try:
        while left or running:
            ready = sorted((it for it in left if built.issuperset(named[it])), key=chain.get, reverse=True)
            for name in ready[: most - len(running)]:
                is_first = all(it.jobs == 1 or chain[it.name] < chain[name] for it in running)
                jobs = (PROCESSORS if is_first else 1) if most > 1 else None
                running.append(Build(name, below(name, named), scratch, jobs))
                left.remove(name)
                running[-1].start()
            for it in [it for it in running if it.has_ended()]:
                running.remove(it)
                if not it.end():
                    print(f"{it.name} was not built:", *it.log.read_text(errors="replace").splitlines()[-SHOWN:], sep="\n")
                    return False
                built.add(it.name)
                print(f"{it.name} {time.time() - it.begun:.0f} s", flush=True)
            time.sleep(0.1)
    finally:
        for it in running:
            it.end()
    return True


def held(names):
    """Keeps each other `rt` away from these crates, in the way of `rt`, until what it gives is closed."""
    folders = {it: os.open(CRATES / it, os.O_RDONLY) for it in sorted(names)}
    for name, it in folders.items():
        try:
            fcntl.flock(it, fcntl.LOCK_EX | fcntl.LOCK_NB)
        except BlockingIOError:
            print(f"waiting for another rt to finish in {name}", flush=True)
            fcntl.flock(it, fcntl.LOCK_EX)
    return folders.values()


def main(program):
    for it in (signal.SIGTERM, signal.SIGHUP):
        signal.signal(it, lambda *_: sys.exit(1))
    if not shutil.which(RT[0]):
        print(f"there is no command {RT[0]}: put a Rattle kit's rt on the path, or name it (make RT=..)")
        return 1
    named = crates()
    folders = held({program} | below(program, named))
    beside = TOP.parent if os.access(TOP.parent, os.W_OK) else None
    with tempfile.TemporaryDirectory(prefix=f"{TOP.name}-build-", dir=beside) as scratch:
        if not build(program, named, Path(scratch)):
            return 1
    for it in folders:
        os.close(it)
    begun = time.time()
    ran = subprocess.run([*RT, "run", "--", "--session"], cwd=CRATES / program, stdin=subprocess.DEVNULL, check=False)
    if ran.returncode == 0:
        print(f"{program} {time.time() - begun:.0f} s")
    return ran.returncode


if __name__ == "__main__":
    sys.exit(main(*sys.argv[1:]))
