"""Times scripts whose child writes much and is waited for by a pattern that never comes.

    python3 floods.py DRAIN RUNTEST [DEJAGNU]

Milliseconds, the least of so many runs: of DRAIN, which reads the same child's output to its end and does nothing else, of RUNTEST,
and of DEJAGNU, where it is given."""
import subprocess
import sys
import tempfile
import time
from pathlib import Path

RUNS = 7
CHILD = '$| = 1; $s = "y" x %d; for (1..%d) {syswrite(STDOUT, $s)}'
SCRIPT = """set stty_init {raw -echo}
set timeout 120
match_max -d %d
spawn perl -e {%s}
expect {
    %s {fail never}
    timeout {fail timeout}
    eof {pass "eof with [string length $expect_out(buffer)]"}
}
"""
FLOODS = [
    ("10 MiB in pieces of 512, a literal, `match_max` 65536", 512, 20480, 65536, "-ex NEVER"),
    ("the same, a glob", 512, 20480, 65536, "-gl NEVER"),
    ("the same, a literal, `match_max` 2000", 512, 20480, 2000, "-ex NEVER"),
    ("the same, a glob", 512, 20480, 2000, "-gl NEVER"),
    ("2 MiB in pieces of 64, a literal, `match_max` 65536", 64, 32768, 65536, "-ex NEVER"),
    ("the same, a glob", 64, 32768, 65536, "-gl NEVER"),
    ("2 MiB in pieces of 512, `-re`, `match_max` 65536", 512, 4096, 65536, "-re {NEV(E)R}"),
]


def least(words, folder):
    """The least milliseconds that the command takes, once it has passed."""
    taken = []
    for _ in range(RUNS):
        begun = time.perf_counter()
        ran = subprocess.run(words, cwd=folder, stdin=subprocess.DEVNULL, stdout=subprocess.DEVNULL, stderr=subprocess.DEVNULL, check=False)
        taken.append(1000 * (time.perf_counter() - begun))
        if ran.returncode:
            sys.exit(f"{words[0]} ended with {ran.returncode}")
    return min(taken)


def main(drain, *runners):
    print("| | drain | runtest | DejaGnu | DejaGnu / runtest | DejaGnu / drain |\n|---|---:|---:|---:|---:|---:|")
    for name, piece, count, most, pattern in FLOODS:
        with tempfile.TemporaryDirectory() as room:
            child = CHILD % (piece, count)
            suite = Path(room) / "testsuite/t"
            suite.mkdir(parents=True)
            (suite / "a.exp").write_text(SCRIPT % (most, child, pattern))
            words = ["--tool", "t", "--srcdir", "testsuite", "--outdir", "."]
            times = [least([drain, "perl", "-e", child], room), *(least([it, *words], room) for it in runners)]
            ratios = [f"{times[-1] / it:.1f}" for it in reversed(times[:-1])] if len(times) == 3 else []
            print("|", " | ".join([name, *(f"{it:.0f}" for it in times), *ratios]), "|", flush=True)


if __name__ == "__main__":
    main(*sys.argv[1:])
