"""Times evaluations over transcripts in one session of the program, and Expect over a child that writes the same bytes.

    python3 replay.py RUNTEST

Each time is that of a `report` that evaluates every script anew: the scripts are edited first, so that no record holds,
and nothing is started. The least of three reports is shown."""
import os
import shutil
import subprocess
import sys
import tempfile
import time


class Session:
    """A session of the program, which answers each line before the next one is sent."""

    def __init__(self, program):
        self.child = subprocess.Popen([program, "--session"], stdin=subprocess.PIPE, stdout=subprocess.PIPE)

    def ask(self, line):
        self.child.stdin.write(line + b"\n")
        self.child.stdin.flush()
        return self.child.stdout.readline()

    def well(self, line):
        answer = self.ask(line)
        if answer != b"ok\n":
            sys.exit(f"{line[:60]!r} was answered {answer!r}")

    def put(self, name, text):
        self.well(b"put %s %s" % (name, text.hex().encode()))

    def record(self, script, text):
        self.well(b"transcript unix %s %s" % (script, text.hex().encode()))

    def report(self):
        """The seconds that a report takes, how many scripts it evaluated, and its text."""
        begun = time.perf_counter()
        words = self.ask(b"report").split()
        if words[0] != b"sum":
            sys.exit(f"report was answered {words!r}")
        text = self.child.stdout.read(int(words[2]))
        return time.perf_counter() - begun, int(words[3]), text

    def end(self):
        self.child.stdin.close()
        self.child.wait()


def transcript(chunks):
    """The text of a child's run that wrote these pieces at once, and ended well."""
    lines = ["dejagnu-transcript 1", "session 1", "started 636174"]
    lines += [f"chunk 0 {it.hex()}" for it in chunks]
    return ("\n".join(lines + ["end 0", "exited 0", "done"]) + "\n").encode()


def evaluated(program, scripts, wanted):
    """The least seconds of three reports on these scripts, each a name, its text and the pieces that its child wrote."""
    session = Session(program)
    for name, _, chunks in scripts:
        session.record(name, transcript(chunks))
    taken = []
    for turn in range(3):
        for name, text, _ in scripts:
            session.put(name, text + b"# %d\n" % turn)
        seconds, count, report = session.report()
        if count != len(scripts) or report.count(wanted) != len(scripts):
            sys.exit(f"{count} of {len(scripts)} were evaluated, {report.count(wanted)} gave {wanted!r}")
        taken.append(seconds)
    session.end()
    return min(taken)


def expected(chunks, pattern, limit):
    """The seconds that Expect takes over a child that writes these pieces, without its own start and that of the child."""
    with tempfile.TemporaryDirectory() as room:
        with open(f"{room}/output", "wb") as output:
            output.write(b"".join(chunks))
        text = f"""log_user 0
match_max {limit}
set timeout -1
spawn -noecho sh -c {{stty raw -echo; cat output}}
expect {{ -ex {{{pattern}}} {{}} eof {{}} }}
"""
        with open(f"{room}/it.exp", "w") as script:
            script.write(text)
        begun = time.perf_counter()
        subprocess.run(["expect", "it.exp"], cwd=room, check=False, stdout=subprocess.DEVNULL)
        return time.perf_counter() - begun


LAST = b"spawn cat\nmatch_max 65536\nexpect -ex Z {pass last} default {fail last}\n"
NEVER = b"spawn cat\nmatch_max 65536\nexpect -ex never {fail never} eof {pass never}\n"
AGAIN = b"spawn cat\nexpect x exp_continue eof {pass p}\n"


def row(name, seconds, beside=""):
    print(f"{name:56} {1000 * seconds:10.1f} {beside}", flush=True)


def ones(program):
    """Pieces of one byte, and a literal that comes last: the time is linear in the pieces."""
    has_expect = shutil.which("expect")
    for count in (5_000, 10_000, 20_000, 40_000):
        chunks = [b"x"] * (count - 1) + [b"Z"]
        seconds = evaluated(program, [(b"t/a.exp", LAST, chunks)], b"PASS: last\n")
        beside = f"Expect {1000 * expected(chunks, 'Z', 65536):.1f}" if has_expect else ""
        row(f"{count} pieces of one byte, a literal comes last", seconds, beside)
    many = [(b"t/%d.exp" % it, LAST, [b"x"] * 64_999 + [b"Z"]) for it in range(16)]
    row("16 scripts of 65,000 such pieces each", evaluated(program, many, b"PASS: last\n"))


def floods(program):
    """Pieces of 4,096 bytes and a literal that never comes."""
    for count in (16_000, 32_000):
        chunks = [bytes(97 + (it * 7 + at) % 20 for at in range(4096)) for it in range(16)] * (count // 16)
        seconds = evaluated(program, [(b"t/a.exp", NEVER, chunks)], b"PASS: never\n")
        row(f"{count} pieces of 4,096 bytes, a literal never comes", seconds, f"{count * 4096 / seconds / 1e6:.0f} MB/s")


def again(program):
    """A round of `expect` for each piece."""
    row("10,000 rounds by exp_continue", evaluated(program, [(b"t/a.exp", AGAIN, [b"x"] * 10_000)], b"PASS: p\n"))


def suite(program):
    """Many scripts of ten entries: put, recorded and judged."""
    text = b"spawn cat\nexpect -ex g {pass g}\nclose\nwait\n"
    lines = ["dejagnu-transcript 1", "session 1", "started 636174"]
    lines += [f"chunk 0 {it.encode().hex()}" for it in "abcdefg"] + ["closed", "exited 0", "done"]
    record = ("\n".join(lines) + "\n").encode().hex().encode()
    session, begun = Session(program), time.perf_counter()
    sent = [b"put t/%d.exp %s\ntranscript unix t/%d.exp %s\n" % (it, text.hex().encode(), it, record) for it in range(4_000)]
    session.child.stdin.write(b"".join(sent[:2_000]))
    session.child.stdin.flush()
    for _ in range(4_000):
        assert session.child.stdout.readline() == b"ok\n"
    session.child.stdin.write(b"".join(sent[2_000:]))
    session.child.stdin.flush()
    for _ in range(4_000):
        assert session.child.stdout.readline() == b"ok\n"
    placed = time.perf_counter() - begun
    seconds, count, report = session.report()
    session.end()
    if count != 4_000 or report.count(b"PASS: g\n") != 4_000:
        sys.exit("not every script passed")
    row("4,000 scripts and transcripts of ten entries, put", placed)
    row("the same, judged", seconds)


def main(program):
    if not os.access(program, os.X_OK):
        sys.exit(f"{program} is not built: run make")
    print(f"{'':56} {'ms':>10}")
    ones(program)
    floods(program)
    again(program)
    suite(program)


if __name__ == "__main__":
    main(sys.argv[1])
