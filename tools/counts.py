#!/usr/bin/env python3
"""Prints how large this repository is, as it stands now, so that no document has to say it by hand.

    python3 tools/counts.py        crates, lines, functions, wrong bodies, and the rows that tests are made of
"""
import re
import sys
from pathlib import Path

TOP = Path(__file__).resolve().parents[1]
FUNCTION = re.compile(rb"(?m)^[ ]*(?:pub(?:\([a-z]+\))? )?(?:const )?fn \w+")


def listed(file):
    """How many names a file of lines `NAME: WORD ..` has, and how many words these have."""
    lines = [line.partition(":") for line in file.read_text().splitlines() if ":" in line and not line.startswith("#")]
    return len(lines), sum(len(words.split()) for _, _, words in lines)


def sources(top, part, ending):
    return [it for it in top.glob(f"crates/*/{part}/**/*{ending}") if it.is_file()]


def lines_of(files):
    return sum(it.read_bytes().count(b"\n") for it in files)


def beginning(file, words):
    """How many lines of a file begin with these words."""
    return sum(line.startswith(words) for line in file.read_text(errors="replace").splitlines())


def rows_of(file):
    """How many lines of a file are neither empty nor a comment."""
    return sum(line != "" and not line.startswith("#") for line in file.read_text(errors="replace").splitlines())


def counts(top):
    """Each count with what it is of."""
    crates, _ = listed(top / "crates.txt")
    code, specs, proofs = sources(top, "src", ".rt"), sources(top, "specs", ".antt"), sources(top, "proofs", ".antt")
    yield "crates", crates
    yield "lines of code", lines_of(code)
    yield "lines of definitions", lines_of(specs)
    yield "lines of proofs", lines_of(proofs)
    yield "functions", sum(len(FUNCTION.findall(it.read_bytes())) for it in code)
    whole, alone = (len(list(top.glob(f"crates/*/{it}/*.edit"))) for it in ("must-fail", "wrong-bodies"))
    _, tried = listed(top / "tests/wrong-bodies/gate.txt")
    yield "wrong bodies", whole + alone
    yield "wrong bodies that the gate tries over their whole crate", whole
    yield "wrong bodies that the gate tries by their function", tried
    cases = {it.name: beginning(it, "=== ") for it in sorted(top.glob("tests/tcl/*.cases"))}
    yield "scripts of the program's session", sum(cases.values())
    yield from ((f"  tests/tcl/{name}", count) for name, count in cases.items())
    yield "  tests/tcl/requests.rows (requests)", rows_of(top / "tests/tcl/requests.rows")
    yield "lines of the program's session", lines_of([top / "crates/runtest/stdin"])
    program = {it.name: beginning(it, "=== ") for it in sorted(top.glob("tests/program/*.cases"))}
    yield "cases of the program's words, runs, faults and sessions", sum(program.values())
    data = top / "crates/dg_trials/data"
    yield "cases of cores and jobs", beginning(data / "cores.rows", "case ")
    yield "calls of children", rows_of(data / "pipes.rows")


def main():
    told = list(counts(TOP))
    width = max(len(what) for what, _ in told)
    for what, count in told:
        print(f"{what:<{width}}  {count:>7,}")


if __name__ == "__main__":
    sys.exit(main())
