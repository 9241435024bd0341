#!/usr/bin/env python3
"""Tries the program, and these tools, by the scripts tests/NAME/run.sh.

    python3 tools/tests.py PROGRAM [NAME ..]      all of them, or these: as program kills

Each script gets the program in RUNTEST. It ends with status 0 where all is as it has to be, with 77 where a program that it wants is
not on the path; then it says which. tests/program is left out for a quick program (make quick), which is too slow for it and takes
memory otherwise. The last line is `N passed, M failed`, with how many were skipped, if any.
"""
import os
import subprocess
import sys
import time
from pathlib import Path

TOP = Path(__file__).resolve().parents[1]
# the tests in their order, each with its words
TESTS = {"tools": [], "examples": ["live"], "sum": [], "contrib": [], "program": [], "kills": ["20"]}
WITHOUT_A_PROGRAM = ("tools",)
FOR_THE_PROVED = ("program",)
# those that want a quiet machine: `make examples` runs them, the gate does not
OUTSIDE_THE_GATE = ("program",)
SKIPPED = 77
LONGEST = 1200  # how many seconds a test may take


def there():
    """The names of the tests that this repository has."""
    return [it for it in TESTS if (TOP / "tests" / it / "run.sh").is_file()]


def outcome(status):
    """What the status of a test says."""
    return {0: "passed", SKIPPED: "skipped"}.get(status, "failed")


def is_quick(program):
    """Whether a program was built before any proof: such a one has checks of memory built in."""
    return b"AddressSanitizer" in Path(program).read_bytes()


def tried(program, name):
    """Runs a test, and gives what came of it and what it wrote."""
    if name not in WITHOUT_A_PROGRAM and not os.access(program, os.X_OK):
        return "failed", f"there is no program {program}\n"
    if name in FOR_THE_PROVED and is_quick(program):
        return "skipped", f"skipped: {program} was built before any proof; this wants the proved one\n"
    words = ["sh", TOP / "tests" / name / "run.sh", *TESTS[name]]
    how = {"stdin": subprocess.DEVNULL, "stdout": subprocess.PIPE, "stderr": subprocess.STDOUT}
    try:
        ran = subprocess.run(words, cwd=TOP, env={**os.environ, "RUNTEST": str(program)}, timeout=LONGEST, check=False, **how)
    except subprocess.TimeoutExpired as late:
        return "failed", (late.stdout or b"").decode(errors="replace") + f"tests/{name} had not ended after {LONGEST} seconds\n"
    return outcome(ran.returncode), ran.stdout.decode(errors="replace")


def told(program, names):
    """Runs tests, says what each came to, and gives the names by this."""
    found = {"passed": [], "failed": [], "skipped": []}
    for name in names:
        begun = time.monotonic()
        what, said = tried(program, name)
        print(f"== tests/{name}: {what} in {time.monotonic() - begun:.0f} s\n{said}", end="", flush=True)
        found[what].append(name)
    return found


def main(given):
    if not given:
        sys.exit(__doc__)
    program, names = Path(given[0]).resolve(), given[1:] or there()
    unknown = [it for it in names if it not in there()]
    if unknown:
        sys.exit(f"there is no tests/{unknown[0]}/run.sh among {' '.join(there())}")
    if not os.access(program, os.X_OK):
        sys.exit(f"there is no program {program}: make builds it, and make quick one that is not proved")
    found = told(program, names)
    skipped = f", {len(found['skipped'])} skipped" * bool(found["skipped"])
    print(f"{len(found['passed'])} passed, {len(found['failed'])} failed{skipped}")
    return 1 if found["failed"] else 0


if __name__ == "__main__":
    sys.exit(main(sys.argv[1:]))
