#!/usr/bin/env python3
"""Tries a session at its limits: files, names, selections, and scripts as long as a file may be.

    python3 limits.py PROGRAM

What each request is answered was written out by hand (docs/SESSION.md, docs/LANGUAGE.md).
"""
import subprocess
import sys

from common import LONGEST, Tries, settings

MOST = 1_048_576


def put(name, text):
    return f"put {name} {text.encode().hex() or '-'}"


def files():
    """The lowest refusal that applies: a name, a file's length, how many files there are."""
    yield put("a", "x" * (MOST + 1)), "refused 2"
    yield put("../x", "x" * (MOST + 1)), "refused 1"
    yield put("a", "x" * MOST), "ok"
    yield "remove a", "ok"
    for number in range(1, 4097):
        yield put(number, ""), "ok"
    yield put(4097, ""), "refused 3"
    yield put(4097, "x" * (MOST + 1)), "refused 2"
    yield put("../x", ""), "refused 1"
    yield put(4096, "x"), "ok"
    yield "remove 1", "ok"
    yield put(4097, ""), "ok"
    for number in range(2, 4098):
        yield f"remove {number}", "ok"


def selections():
    """A line sets 64 variables at most, each to 65,536 bytes at most."""
    for count, answer in (64, "ok"), (65, "refused 6"):
        yield "select " + " ".join(f"_{number}=" for number in range(count)), answer
    yield "select CC=" + "c" * 65_536 + " cc=", "ok"
    yield "select CC= D=" + "c" * 65_537, "refused 6"
    yield "select", "ok"


def scripts():
    """Scripts that nest as deep as they can, or not at all, each with its lines."""
    parens = 500_000
    yield "set x " + "$a(" * 349_000, error("missing )")
    yield '"' * MOST, error("extra characters after close-quote")
    yield "pass [expr {" + "(" * parens + "1" + ")" * parens + "}]", ["PASS: 1"]
    yield "set x [list " + "a " * parens + "]\npass [llength $x]", [f"PASS: {parens}"]


def error(message):
    return ["ERROR: tcl error sourcing t/a.exp.", f"ERROR: {message}", "UNRESOLVED: testcase 't/a.exp' aborted due to Tcl error"]


def session(program, requests):
    ran = subprocess.run(
        [program, "--session"], input="\n".join(requests), capture_output=True, text=True, timeout=LONGEST, env=settings()
    )
    return ran.stdout.splitlines()


def main(program):
    tries = Tries("limits")
    rows = [*files(), *selections()]
    for (request, answer), given in zip(rows, session(program, [it[0] for it in rows])):
        tries.begin(request[:60])
        tries.same("answer", answer, given)
    for text, lines in scripts():
        tries.begin(text[:30])
        told = session(program, [put("t/a.exp", text), "report"])
        begin = told.index("Running t/a.exp ...") + 1
        tries.same("lines", lines, told[begin:told.index("", begin)])
    tries.end()


if __name__ == "__main__":
    main(sys.argv[1])
