#!/usr/bin/env python3
"""Times edits and reports in one session: edits.py PROGRAM

For suites of 400 and of 4,000 scripts of ten commands each, milliseconds for each: the first report; an edit of one script and the
report behind it; a report of nothing new; an edit of a file that no script read. Then the bytes of the report. The least of three runs,
the mean of a hundred rounds in each. Then, for 400 scripts that load one library of 1 MiB, the least of ten edits of the library, which
change its last byte, and of a file as long that no script read, and the most memory that the program held.
"""
import subprocess
import sys
import time

ROUNDS = 100
RUNS = 3


class Session:
    def __init__(self, program):
        self.process = subprocess.Popen([program, "--session"], stdin=subprocess.PIPE, stdout=subprocess.PIPE, bufsize=1 << 20)

    def ask(self, line):
        """Sends a line, and gives the words of the first line of its answer and the bytes of its report."""
        self.process.stdin.write(line + b"\n")
        self.process.stdin.flush()
        words = self.process.stdout.readline().split()
        report = self.process.stdout.read(int(words[2])) if words[0] == b"sum" else b""
        return words, report

    def put(self, name, text):
        words, _ = self.ask(b"put %s %s" % (name.encode(), text.encode().hex().encode()))
        assert words == [b"ok"], words

    def report(self, evaluated):
        words, report = self.ask(b"report")
        assert words[0] == b"sum" and int(words[3]) == evaluated, (words, evaluated)
        return report

    def end(self):
        self.process.stdin.close()
        self.process.wait()


def script(number):
    """A script of ten commands."""
    return "\n".join([f"set n {number}"] + [f"pass {it}" for it in range(9)]) + "\n"


def timed(rounds, call):
    """Milliseconds for a round, on the average."""
    begun = time.perf_counter()
    for it in range(rounds):
        call(it)
    return 1000 * (time.perf_counter() - begun) / rounds


def run(program, count):
    session = Session(program)
    for it in range(count):
        session.put(f"t/{it:04}.exp", script(it))
    first = timed(1, lambda _: session.report(count))

    def edited(it):
        session.put(f"t/{it:04}.exp", script(count + it))
        session.report(1)

    one = timed(ROUNDS, edited)
    none = timed(ROUNDS, lambda _: session.report(0))
    unread = timed(ROUNDS, lambda it: session.put("d/x", f"text {it}"))
    size = len(session.report(0))
    session.end()
    return first, one, none, unread, size


LENGTH = 1 << 20
LOADERS = 400


def library(program):
    text = ("proc helper {} {return it}\n#" + "x" * LENGTH)[: LENGTH - 1]
    session = Session(program)
    session.put("lib/util.exp", text + "0")
    for it in range(LOADERS):
        session.put(f"t/{it}.exp", "load_lib util.exp\npass [helper]\n")
    session.report(LOADERS)
    edited = [timed(1, lambda _: session.put("lib/util.exp", text + str(it % 10))) for it in range(1, 11)]
    unread = [timed(1, lambda _: session.put("d/x", text + str(it % 10))) for it in range(1, 11)]
    with open(f"/proc/{session.process.pid}/status") as status:
        memory = next(int(line.split()[1]) / 1024 for line in status if line.startswith("VmHWM"))
    session.end()
    return min(edited), min(unread), memory


def main(program):
    print("scripts, ms for the first report, ms for an edit and its report, ms for a report alone, ms for an edit of an unread file, bytes of the report:")
    for count in (400, 4000):
        runs = [run(program, count) for _ in range(RUNS)]
        first, one, none, unread, size = (min(column) for column in zip(*runs))
        print(f"{count} {first:.2f} {one:.3f} {none:.3f} {unread:.3f} {size}")
    edited, unread, memory = library(program)
    print(f"ms for an edit of a library of 1 MiB that {LOADERS} scripts read, and of an unread file as long, and MB: {edited:.2f} {unread:.2f} {memory:.1f}")


if __name__ == "__main__":
    main(*sys.argv[1:])
