"""Tries what a transcript tells of the time that passed: waits.py PROGRAM."""
import os
import subprocess
import sys
import time

from common import LONGEST, Suite, Tries, settings

PROGRAM = os.path.abspath(sys.argv[1])
tries = Tries("waits.py")

# A line that comes after half a second, and then one that comes in the second of two expects of a second each.
SCRIPT = """spawn sh -c {sleep 0.5; echo late; sleep 1.5; echo later}
expect "late\\n" {pass late}
set timeout 1
expect "later\\n" {fail later} timeout {pass silence}
expect "later\\n" {pass later}
"""


def waits(text):
    """The entries of a transcript that tell a wait, each with it."""
    rows = [line.split() for line in text.splitlines()]
    return [(row[0], int(row[1])) for row in rows if row[0] in ("chunk", "silence", "end")]


def run(suite, *words):
    """The status of a run over the suite."""
    return subprocess.run(
        [PROGRAM, "--tool", "t", *words], cwd=suite.here, env=settings(), stdin=subprocess.DEVNULL, capture_output=True,
        timeout=LONGEST, check=False,
    ).returncode


def main():
    with Suite({"t/a.exp": SCRIPT}) as suite:
        tries.begin("a line after half a second, and one after two")
        begun = time.monotonic()
        tries.same("the status", 0, run(suite))
        passed = 1000 * (time.monotonic() - begun)
        told = waits(suite.read("transcripts/unix/t/a.exp.tr") or "")
        tries.same("what came", ["chunk", "silence", "chunk"], [kind for kind, _ in told])
        # the child may have begun before the script reads, and the machine may be busy
        tries.check("the first wait", told and 400 <= told[0][1] <= passed, told)
        tries.check("all waits", 1900 <= sum(wait for _, wait in told) <= passed, (told, passed))
        tries.check("whole tens", all(wait % 10 == 0 for _, wait in told), told)
        tries.same("the limit of a second", [1000], [wait for kind, wait in told if kind == "silence"])
        report = suite.read("t.sum")
        tries.same("the status of judging it again", 0, run(suite, "--rejudge"))
        tries.same("the report of judging it again", report, suite.read("t.sum"))
    tries.end()


main()
