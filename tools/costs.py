#!/usr/bin/env python3
"""Tells on which functions the last check from nothing of a crate spent its time.

    cd crates/NAME; rm -rf out/incremental; rt check --jobs 1
    python3 ../../tools/costs.py [NUMBER]       the dearest functions, and what the phases of the check took

A check writes a file for each part of a function's proof as soon as it is done with it, so with one job the time between two files
is what the later one took. The parts: `Lts` is the borrow checker's, `Proof` the contract's, `Tie`, `Kinds` and `Layout` those of types
and of what lets their values go. The borrow checker's part grows with each `?`, and with each value that is
let go on several paths.
"""
import sys
from collections import Counter
from pathlib import Path

SUFFIX = ".oantt"


def written(crate):
    """When each part of a crate's proof was written, the first first."""
    files = (crate / "out/incremental").glob(f"*/*{SUFFIX}")
    return sorted((it.stat().st_mtime, it.name.removesuffix(SUFFIX)) for it in files)


def spent(parts):
    """The seconds of each part but the first."""
    return [(then - before, name) for (before, _), (then, name) in zip(parts, parts[1:])]


def told(seconds, count):
    for name, much in Counter(seconds).most_common(count):
        print(f"{much:8.1f}  {name}")


def main():
    count = int(sys.argv[1]) if len(sys.argv) > 1 else 20
    crate = Path.cwd()
    parts = written(crate)
    if not parts:
        sys.exit(f"{crate.name} has no kept check: run rt check --jobs 1 first")
    functions, phases = Counter(), Counter()
    for seconds, name in spent(parts):
        function, _, phase = name.rpartition(".")
        functions[function.removeprefix(f"Rattle-{crate.name}-proofs.")] += seconds
        phases[phase] += seconds
    print(f"{parts[-1][0] - parts[0][0]:8.1f}  {crate.name}, {len(parts)} parts\n")
    told(phases, 8)
    print()
    told(functions, count)


if __name__ == "__main__":
    main()
