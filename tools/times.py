#!/usr/bin/env python3
"""Runs the gate and writes docs/TIMES.md anew up to its first heading of the second level: how many processor seconds each crate
took for its proof, its tests and its wrong bodies.

    python3 tools/times.py              runs tools/check.py at the top of the repository
    python3 tools/times.py WORD ..      runs another command in its place, as `rt must-fail dg_glob`, and prints the table

Every quarter of a second it adds up what the prover's processes below the command have taken (their own time, and that of the children
that they have waited for). Whose time it is says the command line: `--crate-name`, and `--test` for tests; wrong bodies are
checked in folders of their own, `rt-edit-..` by `rt ci` and `wrong-bodies...` behind it.
"""
import os
import resource
import subprocess
import sys
import time
from collections import defaultdict
from pathlib import Path

TOP = Path(__file__).resolve().parents[1]
TICKS = os.sysconf("SC_CLK_TCK")
KINDS = ("proof", "tests", "wrong bodies")


class Process:
    """A process as it stands now."""

    def __init__(self, folder):
        fields = (folder / "stat").read_text().rpartition(")")[2].split()
        self.number = int(folder.name)
        self.parent = int(fields[1])
        # its own time and that of the children that it has waited for
        self.seconds = sum(int(it) for it in fields[11:15]) / TICKS
        self.words = (folder / "cmdline").read_bytes().decode(errors="replace").split("\0")
        self.begun = fields[19]
        try:
            self.folder = os.readlink(folder / "cwd")
        except OSError:
            self.folder = ""

    def crate(self):
        """The crate that it proves, or nothing."""
        if "--crate-name" not in self.words[:-1]:
            return None
        return self.words[self.words.index("--crate-name") + 1]

    def kind(self):
        if "/rt-edit-" in self.folder or "/wrong-bodies." in self.folder:
            return "wrong bodies"
        return "tests" if "--test" in self.words else "proof"


def processes():
    found = {}
    for folder in Path("/proc").iterdir():
        if folder.name.isdigit():
            try:
                it = Process(folder)
            except (OSError, IndexError, ValueError):
                continue
            found[it.number] = it
    return found


class Times:
    """What was taken so far, by check: the topmost process that names a crate."""

    def __init__(self):
        self.checks = {}

    def look(self, root):
        """Notes what the processes below a root have taken."""
        found = processes()
        taken = defaultdict(float)
        for it in found.values():
            top, at, seen = None, it, set()
            while at and at.number != root and at.number not in seen:
                seen.add(at.number)
                top = at if at.crate() else top
                at = found.get(at.parent)
            if at and at.number == root and top:
                taken[top.number, top.begun, top.crate(), top.kind()] += it.seconds
        for check, seconds in taken.items():
            self.checks[check] = max(seconds, self.checks.get(check, 0))

    def by_crate(self):
        seconds = defaultdict(lambda: dict.fromkeys(KINDS, 0.0))
        for (_, _, crate, kind), taken in self.checks.items():
            seconds[crate][kind] += taken
        return seconds


def named(file):
    """What the lines of a file name, each with the words behind its colon."""
    lines = (line.partition(":") for line in (TOP / file).read_text().splitlines() if not line.startswith("#"))
    return {name.split()[0]: words.split() for name, _, words in lines if name.strip()}


def crates():
    """The crates in the order of crates.txt, each with how many of its wrong bodies the gate tries."""
    behind = named("tests/wrong-bodies/gate.txt")
    of_rt = {name: list((TOP / "crates" / name / "must-fail").glob("*.edit")) for name in named("crates.txt")}
    return {name: len(edits) + len(behind.get(name, [])) for name, edits in of_rt.items()}


def table(seconds, total):
    counts = crates()
    rows = ["| crate | proof | tests | wrong bodies | how many | all |", "|---|---:|---:|---:|---:|---:|"]
    sums = dict.fromkeys(KINDS, 0.0)
    for name, count in counts.items():
        taken = seconds.get(name)
        if not taken:
            continue
        for kind in KINDS:
            sums[kind] += taken[kind]
        cells = [f"{taken[kind]:.0f}" if taken[kind] else "" for kind in KINDS]
        rows.append(f"| `{name}` | {' | '.join(cells)} | {count or ''} | {sum(taken.values()):.0f} |")
    cells = [f"{sums[kind]:.0f}" for kind in KINDS]
    rows.append(f"| all crates | {' | '.join(cells)} | {sum(counts.values())} | {sum(sums.values()):.0f} |")
    rows.append("")
    rows.append(f"In all {total / 60:.0f} processor minutes, with the builds and runs of programs.")
    return "\n".join(rows)


def page(rows, minutes):
    kit = subprocess.run(["rt", "version"], capture_output=True, text=True, check=False).stdout.split("\n")[0]
    commit = subprocess.run(["git", "rev-parse", "--short", "HEAD"], cwd=TOP, capture_output=True, text=True, check=False).stdout.strip()
    return f"""# Times of the gate

Processor seconds of one run of the gate ({os.cpu_count()} processors, {minutes:.0f} minutes; commit {commit}; {kit}), as `make times` measures and writes them.

{rows}
"""


def main(words):
    begun = time.time()
    gate = subprocess.Popen(words or [sys.executable, TOP / "tools/check.py"], cwd=None if words else TOP)
    times = Times()
    while gate.poll() is None:
        times.look(gate.pid)
        time.sleep(0.25)
    used = resource.getrusage(resource.RUSAGE_CHILDREN)
    rows = table(times.by_crate(), used.ru_utime + used.ru_stime)
    if words:
        print(rows)
    else:
        file = TOP / "docs" / "TIMES.md"
        _, heading, rest = file.read_text().partition("\n## ")
        file.write_text(page(rows, (time.time() - begun) / 60) + heading + rest)
    return gate.returncode


if __name__ == "__main__":
    sys.exit(main(sys.argv[1:]))
