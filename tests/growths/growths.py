"""Counts the growths of evaluations in sessions of the program, by valgrind.

    python3 growths.py RUNTEST

A child writes 10,000 pieces of one byte, and its script hears each in a round of its own. The report that judges it has to
take fewer growths than 4,000,000: an evaluation that began again at each of its questions would take more. The report after
it, which has nothing to judge, has to take fewer than 1,000. So each of them gives its sum where that growth is refused."""
import re
import subprocess
import sys
import tempfile

PIECES = 10_000
MOST, MOST_AGAIN = 4_000_000, 1_000
SCRIPT = b"spawn cat\nexpect x exp_continue eof {pass p}\n"


def transcript():
    lines = ["dejagnu-transcript 1", "session 1", "started 636174", *["chunk 0 78"] * PIECES, "end 0", "done"]
    return ("\n".join(lines) + "\n").encode()


def growths(program, lines):
    """How many growths a session of these lines takes, and how often it reported that the script passed."""
    with tempfile.TemporaryFile() as session:
        session.write(b"".join(lines))
        session.seek(0)
        ran = subprocess.run(["valgrind", program, "--session"], stdin=session, capture_output=True, check=False)
    found = re.search(rb"total heap usage: ([\d,]+) allocs", ran.stderr)
    if ran.returncode or not found:
        sys.exit(f"valgrind ended with {ran.returncode}: {ran.stderr[-400:]!r}")
    return int(found[1].replace(b",", b"")), ran.stdout.count(b"PASS: p\n")


def main(program):
    placed = [b"put t/a.exp %s\n" % SCRIPT.hex().encode(), b"transcript unix t/a.exp %s\n" % transcript().hex().encode()]
    counts = [growths(program, placed + [b"report\n"] * reports) for reports in range(3)]
    if [passes for _, passes in counts] != [0, 1, 2]:
        sys.exit(f"the reports passed {[passes for _, passes in counts]} times")
    first, again = counts[1][0] - counts[0][0], counts[2][0] - counts[1][0]
    print(f"{first} growths to judge {PIECES} pieces, {again} for the report after it")
    if first >= MOST or again >= MOST_AGAIN:
        sys.exit(f"that is not fewer than {MOST} and {MOST_AGAIN}")


if __name__ == "__main__":
    main(sys.argv[1])
