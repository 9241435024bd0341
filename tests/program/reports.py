"""Tries what becomes of a report that stands there already: reports.py PROGRAM.

One that is the same stays in its place and takes the time of the run; whatever else stands there is replaced by a new file.
"""
import os
import subprocess
import sys
import time

from common import LONGEST, Suite, Tries, settings

PROGRAM = os.path.abspath(sys.argv[1])
tries = Tries("reports.py")

# A time long ago, in seconds since 1970, which a file has until it is written.
PAST = 1_000_000_000


def run(suite, *words):
    """The status of a run and what it wrote to standard output."""
    ran = subprocess.run(
        [PROGRAM, *words], cwd=suite.here, env=settings(), stdin=subprocess.DEVNULL, capture_output=True, timeout=LONGEST
    )
    tries.same("the errors", b"", ran.stderr)
    return ran.returncode, ran.stdout.decode()


def is_now(path, begun):
    """Whether a file's time is of this run; file systems may round it to a second."""
    return path.stat().st_mtime >= begun - 1


def try_one(suite, what, prepare, stays, *words):
    """Runs with t.sum as `prepare` leaves it: a file with the report, of long ago, that it may change."""
    tries.begin(" ".join([what, *words]))
    path = suite.here / "t.sum"
    report = run(suite, *words)[1]
    os.utime(path, (PAST, PAST))
    prepare(path, report)
    before, begun = os.lstat(path).st_ino, time.time()
    tries.same("what is told", (0, report), run(suite, *words))
    tries.same("the file", report, suite.read("t.sum"))
    tries.same("whether it is in its place", stays, os.lstat(path).st_ino == before)
    tries.same("whether it is a link", False, path.is_symlink())
    tries.check("its time is not that of the run", is_now(path, begun), path.stat().st_mtime)
    tries.same("the files", [], [name for name in suite.names() if name.endswith(".new")])


def leave(path, report):
    """The report, as it stands."""


def change(path, report):
    """A file of the same size."""
    path.write_text(report[:-2] + "7\n")


def cut(path, report):
    """A file that is cut short."""
    path.write_text(report[:-1])


def link(path, report):
    """A link to a file that is the report."""
    other = path.with_name("other")
    path.replace(other)
    path.symlink_to("other")


def pipe(path, report):
    """A pipe, which nobody writes to."""
    path.unlink()
    os.mkfifo(path)


with Suite({"t/a.exp": "pass one\npass two\n"}) as suite:
    for words in ["--tool", "t"], ["--rejudge"]:
        try_one(suite, "the same report", leave, True, *words)
        try_one(suite, "another one of that size", change, False, *words)
        try_one(suite, "one that is cut short", cut, False, *words)
        try_one(suite, "a link to the same report", link, False, *words)
        tries.same("the time of what was linked to", PAST, (suite.here / "other").stat().st_mtime)
        try_one(suite, "a pipe", pipe, False, *words)
    tries.begin("another report")
    suite.put("t/a.exp", "pass one\nfail two\n")
    status, report = run(suite, "--tool", "t")
    tries.same("the status", 1, status)
    tries.same("the file", report, suite.read("t.sum"))
tries.end()
