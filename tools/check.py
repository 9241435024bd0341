#!/usr/bin/env python3
"""The merge gate.

    python3 tools/check.py        at the top of the repository; RT_JOBS says how many checks run side by side

First come the tests of the tools and of the documents' links, in seconds: where one fails, all else waits for its mending. Then `rt ci`
proves every crate from nothing, tries the wrong bodies of crates/*/must-fail and runs the programs. Where all of it passed, two
things follow side by side, over what it left: the wrong bodies that tests/wrong-bodies/gate.txt names, each by its
function alone, and the tests of the program (tools/tests.py), over the program that was proved. A test that fails beside the wrong
bodies is tried once more behind them, and only that counts. One that wants a program which is not on the path says so, and counts
neither way.

The last line is `N passed, M failed`, of all these.
"""
import os
import re
import subprocess
import sys
from concurrent.futures import ThreadPoolExecutor
from contextlib import contextmanager
from pathlib import Path

TOP = Path(__file__).resolve().parents[1]
sys.path.insert(0, str(TOP / "tests/wrong-bodies"))
import tests
from batch import bodies, tried

PROGRAM = TOP / "crates/runtest/out/runtest"
COUNTS = re.compile(r"(\d+) passed, (\d+) failed\n?")


@contextmanager
def own_libraries_aside():
    """Has `rt ci` leave the libraries that it proves: those that earlier checks of one's own have kept, which it would put back in their
    place, stand aside meanwhile."""
    moved = []
    for crate in (TOP / "crates").iterdir():
        made, aside = crate / "out/rlib", crate / "out/own-rlib"
        if made.exists() and not aside.exists():
            made.rename(aside)
        if aside.exists():
            moved.append((made, aside))
    try:
        yield
    finally:
        for made, aside in moved:
            subprocess.run(["rm", "-rf", made], check=True)
            aside.rename(made)


def proved():
    """Runs `rt ci`, and gives how many things passed and failed; nothing where it did not come to its end. What it says is passed on, but
    for its last line."""
    counts = None
    words = [os.environ.get("RT", "rt"), "ci"]
    with subprocess.Popen(words, cwd=TOP, stdout=subprocess.PIPE, stderr=subprocess.STDOUT, text=True, errors="replace") as ran:
        for line in ran.stdout:
            found = COUNTS.fullmatch(line)
            if found:
                counts = int(found.group(1)), int(found.group(2))
            else:
                print(line, end="", flush=True)
    return counts if ran.returncode == 0 or counts and counts[1] else None


def listed():
    """The crates whose wrong bodies are tried here, each with their names."""
    lines = (TOP / "tests/wrong-bodies/gate.txt").read_text().splitlines()
    pairs = (line.partition(":") for line in lines if not line.startswith("#"))
    return {crate: names.split() for crate, _, names in pairs if crate.strip()}


def refused(crate, names):
    """How many of these wrong bodies the prover refuses, and how many it doesn't."""
    passed = failed = 0
    for edit, told in tried(crate, bodies(crate, names)):
        print(f"wrong body {crate}/{edit.name}: {told}", flush=True)
        passed, failed = passed + (told == "refused"), failed + (told != "refused")
    return passed, failed


def in_advance():
    """Runs the tests that want no program, and gives how many passed and failed."""
    found = tests.told(PROGRAM, [it for it in tests.there() if it in tests.WITHOUT_A_PROGRAM])
    return len(found["passed"]), len(found["failed"])


def of_the_program():
    """The names of the tests of the program that are run here: none where `rt ci` has left no program, which is said."""
    if not os.access(PROGRAM, os.X_OK):
        print(f"the tests of the program are left out: rt ci has left no {PROGRAM}", flush=True)
        return []
    return [it for it in tests.there() if it not in (*tests.WITHOUT_A_PROGRAM, *tests.OUTSIDE_THE_GATE)]


def behind(lanes):
    """Tries what comes behind `rt ci`, so many checks side by side, and gives how many things passed and failed. A test of the program that
    waits may fail beside these checks, where the machine is slow: it is tried once more behind them, and only that counts."""
    with ThreadPoolExecutor(lanes) as checks, ThreadPoolExecutor(1) as beside:
        first = beside.submit(tests.told, PROGRAM, of_the_program())
        counts = [sum(it) for it in zip((0, 0), *checks.map(lambda it: refused(*it), listed().items()))]
        first = first.result()
    again = tests.told(PROGRAM, first["failed"])
    return counts[0] + len(first["passed"] + again["passed"]), counts[1] + len(again["failed"])


def ended(counts):
    print(f"{counts[0]} passed, {counts[1]} failed")
    sys.exit(1 if counts[1] else 0)


def main():
    first = in_advance()
    if first[1]:
        ended(first)
    with own_libraries_aside():
        counts = proved()
        if counts is None:
            sys.exit("rt ci did not come to its end")
        if not counts[1]:
            counts = [sum(it) for it in zip(counts, behind(int(os.environ.get("RT_JOBS") or 1)))]
    ended([sum(it) for it in zip(first, counts)])


if __name__ == "__main__":
    main()
