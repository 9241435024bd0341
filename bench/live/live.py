"""Times a suite of scripts that talk with cat, live and rejudged, beside a C program that does the same over pipes, in turn.

    python3 live.py RUNTEST LOOP [RUNS]

LOOP is loop.c, built. Shown are the least and the median of RUNS (15) whole runs, in milliseconds. A live run writes the transcripts
into a folder that isn't there yet, or over those of an earlier run; how many of these it wrote anew is shown too, of the median and
the worst of the runs. Beside four jobs stand four processes of LOOP, which share the children, and beside a rejudging run `tclsh`,
where that is there, which evaluates the same scripts with no child: each `expect` takes its first action, and nothing else is done."""
import os
import pathlib
import shutil
import statistics
import subprocess
import sys
import tempfile
import time

SCRIPTS = 100
ROUNDS = 20
JOBS = 4
SCRIPT = """set timeout 10
spawn cat
set n 0
for {set i 0} {$i < %d} {incr i} {
    send "line $i\\n"
    expect {
        "line $i\\n" {incr n}
        timeout {fail "line $i"}
        eof {fail "line $i (eof)"}
    }
}
close
pass "$n lines"
""" % ROUNDS

SILENT = """foreach it {spawn send close pass fail} {proc $it args {}}
proc expect list {uplevel 1 [lindex $list 1]}
foreach it [lsort [glob [lindex $argv 0]/*.exp]] {source $it}
"""


def timed(words, processes=1):
    """The milliseconds of a run, or of so many at once, which have to end well."""
    begun = time.perf_counter()
    runs = [subprocess.Popen(words, stdout=subprocess.DEVNULL) for _ in range(processes)]
    if any([it.wait() for it in runs]):
        sys.exit(f"{words[0]} failed")
    return 1000 * (time.perf_counter() - begun)


def checked(room):
    """Every script of the run that wrote to this folder passed."""
    with open(f"{room}/t.sum") as report:
        if report.read().count(f"PASS: {ROUNDS} lines\n") != SCRIPTS:
            sys.exit("not every script passed")


def transcripts(room):
    """The files of a run's transcripts, each by its number in the file system."""
    return {path: path.stat().st_ino for path in pathlib.Path(room).rglob("*.tr")}


def main(program, loop, runs=15):
    with tempfile.TemporaryDirectory() as room:
        os.makedirs(f"{room}/suite/t")
        for number in range(SCRIPTS):
            with open(f"{room}/suite/t/s{number:03}.exp", "w") as script:
                script.write(SCRIPT)
        run = [program, "--tool", "t", "--srcdir", f"{room}/suite", "--outdir"]
        new, old = f"{room}/new", f"{room}/old"
        rows = {
            "the C program": [loop, str(SCRIPTS), str(ROUNDS)],
            f"the C program, {JOBS} at once": [loop, str(SCRIPTS // JOBS), str(ROUNDS)],
            "live": run + [new],
            f"live, {JOBS} jobs": run + [new, "--jobs", str(JOBS)],
            "live, over transcripts": run + [old],
            f"live, {JOBS} jobs, over transcripts": run + [old, "--jobs", str(JOBS)],
            "rejudged": run + [old, "--rejudge"],
        }
        if shutil.which("tclsh"):
            with open(f"{room}/silent.tcl", "w") as script:
                script.write(SILENT)
            rows["tclsh, with no child"] = ["tclsh", f"{room}/silent.tcl", f"{room}/suite/t"]
        timed(run + [old])
        taken = {name: [] for name in rows}
        anew = {name: [] for name in rows if "over" in name}
        for _ in range(int(runs)):
            for name, words in rows.items():
                shutil.rmtree(new, ignore_errors=True)
                before = transcripts(old)
                taken[name].append(timed(words, JOBS if "at once" in name else 1))
                if name in anew:
                    anew[name].append(len(transcripts(old).items() - before.items()))
                if new in words:
                    checked(new)
        checked(old)
        print(f"{SCRIPTS} scripts of {ROUNDS} rounds with cat         least   median")
        for name, times in taken.items():
            print(f"{name:40} {min(times):8.1f} {statistics.median(times):8.1f}")
        print(f"of the {SCRIPTS} transcripts written anew     median    worst")
        for name, counts in anew.items():
            print(f"{name:40} {statistics.median(counts):8} {max(counts):8}")


if __name__ == "__main__":
    main(*sys.argv[1:])
