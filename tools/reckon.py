#!/usr/bin/env python3
"""Reckons how long the gate takes by the clock, from the processor seconds in docs/TIMES.md.

    python3 tools/reckon.py [--lanes N] [--table FILE] [--tests SECONDS] [CRATE=SECONDS ..]

N checks run side by side, two if unsaid. A crate's proof begins as soon as those of all crates below it have ended, the one with
the longest chain of proofs behind it first; its wrong bodies in must-fail begin where a lane is free of proofs. Those that
tests/wrong-bodies/gate.txt names begin when all that has ended, a crate's in one lane, and so do the tests of the program.
`CRATE=SECONDS` puts another time in the place of a proof's. A check is taken to have one processor for itself.
"""
import heapq
import re
import sys
from argparse import ArgumentParser
from pathlib import Path

TOP = Path(__file__).resolve().parents[1]
ROW = re.compile(r"\| `(\w+)` \| *(\d*) *\| *(\d*) *\| *(\d*) *\| *(\d*) *\|")


def table(text):
    """Of each crate in a table of times the seconds of its proof with its tests, and of its wrong bodies."""
    rows = [ROW.match(line) for line in text.splitlines()]
    return {it[1]: (int(it[2] or 0) + int(it[3] or 0), int(it[4] or 0)) for it in rows if it}


def named(text):
    """What the lines of a text name, each with the words behind its colon."""
    lines = (line.partition(":") for line in text.splitlines() if not line.startswith("#"))
    return {name.split()[0]: words.split() for name, _, words in lines if name.strip()}


def chains(seconds, below):
    """How long the longest chain of proofs is that begins with each crate's own."""
    above = {name: [it for it in below if name in below[it]] for name in below}
    found = {}

    def chain(name):
        if name not in found:
            found[name] = seconds[name] + max(map(chain, above[name]), default=0)
        return found[name]

    return {name: chain(name) for name in below}


def proofs(seconds, bodies, below, lanes):
    """When the last proof and the last wrong body over a whole crate have ended."""
    first = chains(seconds, below)
    waiting, proved, running, now = set(below), set(), [], 0.0
    left = []  # the wrong bodies of crates that are proved, the longest first
    while waiting or left or running:
        ready = sorted((it for it in waiting if proved.issuperset(below[it])), key=first.get, reverse=True)
        while len(running) < lanes and (ready or left):
            if ready:
                name = ready.pop(0)
                waiting.remove(name)
                heapq.heappush(running, (now + seconds[name], name))
            else:
                heapq.heappush(running, (now - heapq.heappop(left), ""))
        now, name = heapq.heappop(running)
        if name:
            proved.add(name)
            if bodies.get(name):
                heapq.heappush(left, -bodies[name])
    return now


def packed(lengths, lanes):
    """How long tasks that wait for nothing take, the longest first."""
    ends = [0.0] * lanes
    for it in sorted(lengths, reverse=True):
        heapq.heapreplace(ends, ends[0] + it)
    return max(ends)


def split(bodies, whole, alone):
    """The seconds of wrong bodies over whole crates, and of those by their functions, where a table has both together: by how many there
    are of each."""
    share = {name: whole.get(name, 0) / max(1, whole.get(name, 0) + alone.get(name, 0)) for name in bodies}
    return {name: it * share[name] for name, it in bodies.items()}, {name: it * (1 - share[name]) for name, it in bodies.items()}


def reckoned(times, below, whole, alone, lanes, tests):
    """The seconds of the longest chain of proofs, of `rt ci`, and of the whole gate."""
    seconds = {name: times.get(name, (0, 0))[0] for name in below}
    over_crates, by_functions = split({name: times.get(name, (0, 0))[1] for name in below}, whole, alone)
    ends = proofs(seconds, over_crates, below, lanes)
    return max(chains(seconds, below).values()), ends, ends + packed([*by_functions.values(), tests], lanes)


def main():
    asked = ArgumentParser(description=__doc__.split("\n")[0])
    asked.add_argument("--lanes", type=int, default=2)
    asked.add_argument("--table", type=Path, default=TOP / "docs/TIMES.md")
    asked.add_argument("--tests", type=float, default=180)
    asked.add_argument("changed", nargs="*", metavar="CRATE=SECONDS")
    words = asked.parse_args()
    times = table(words.table.read_text())
    crates = named((TOP / "crates.txt").read_text())
    below = {name: [it for it in words if it in crates] for name, words in crates.items()}
    for name, _, number in (it.partition("=") for it in words.changed):
        if name not in below or not number.isdigit():
            sys.exit(f"{name}={number}: a crate of crates.txt, and seconds")
        times[name] = int(number), times.get(name, (0, 0))[1]
    lacking = [it for it in below if it not in times]
    if lacking:
        print(f"not in the table, and taken for nothing: {' '.join(lacking)}")
    whole = {name: len(list((TOP / "crates" / name / "must-fail").glob("*.edit"))) for name in below}
    alone = {name: len(names) for name, names in named((TOP / "tests/wrong-bodies/gate.txt").read_text()).items()}
    chain, of_rt, gate = reckoned(times, below, whole, alone, words.lanes, words.tests)
    print(f"{gate / 60:.0f} minutes by the clock in {words.lanes} lanes: rt ci {of_rt / 60:.0f}, behind it {(gate - of_rt) / 60:.0f}")
    print(f"the longest chain of proofs {chain / 60:.0f} minutes, all together {sum(map(sum, times.values())) / 60:.0f} processor minutes")
    return 0


if __name__ == "__main__":
    sys.exit(main())
