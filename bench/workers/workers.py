#!/usr/bin/env python3
"""Times workers that judge scripts again: workers.py PROGRAM SCRIPTS

Each script counts to 1,666 in a loop of three steps, some 5,000 in all, and passes. A row is how many workers, the seconds of the whole
run, the least of three, and how many times faster that is than one worker.
"""
import subprocess
import sys
import tempfile
import time
from pathlib import Path

RUNS = 3
SCRIPT = "set n 0\nwhile {$n < 1666} {\n    incr n\n    set m $n\n}\npass counted\n"


def seconds(program, folder, jobs):
    words = [program, "--tool", "t", "--srcdir", folder / "src", "--outdir", folder / "out", "--rejudge", "--jobs", str(jobs)]
    begun = time.perf_counter()
    subprocess.run(words, check=True, stdout=subprocess.DEVNULL, stderr=subprocess.DEVNULL)
    return time.perf_counter() - begun


def main(program, count):
    with tempfile.TemporaryDirectory() as name:
        folder = Path(name)
        suite = folder / "src" / "t.all"
        suite.mkdir(parents=True)
        (folder / "out").mkdir()
        for it in range(int(count)):
            (suite / f"{it:04}.exp").write_text(SCRIPT)
        times = {jobs: min(seconds(program, folder, jobs) for _ in range(RUNS)) for jobs in (1, 2, 4)}
    print(f"{count} scripts: workers, seconds, times faster than one:")
    for jobs, taken in times.items():
        print(f"{jobs} {taken:.2f} {times[1] / taken:.2f}")


if __name__ == "__main__":
    main(*sys.argv[1:])
