"""Tries what a run tells on a terminal: terminal.py PROGRAM."""
import os
import re
import subprocess
import sys

from common import OnTerminal, Screen, Suite, Tries, settings

PROGRAM = os.path.abspath(sys.argv[1])
LAST = re.compile(r"(\d+) unexpected of (\d+), (\d+) seconds, (\d+) evaluated, (\d+) from transcripts")
BEGUN = re.compile(r"(\d+) of (\d+) tests, (\d+) unexpected: (.*)")
tries = Tries("terminal.py")

TWO = {
    "t/a.exp": 'spawn cat\nsend "x\\n"\nexpect "x\\n" {fail "one"} default {pass "one"}\npass "two"\n',
    "t/b.exp": 'pass "three"\nnote "no result"\n',
}
TWO_REPORT = """\t\t=== t tests ===

Schedule of variations:
    unix

Running target unix
Running t/a.exp ...
FAIL: one
PASS: two
Running t/b.exp ...
PASS: three
NOTE: no result

\t\t=== t Summary ===

# of expected passes\t\t2
# of unexpected failures\t1
"""


def run(suite, *words, term="xterm"):
    """The screen, the status and the seconds of a run whose report goes to a file."""
    with open(suite.here / "said", "wb") as out:
        text, status, seconds = OnTerminal([PROGRAM, *words], suite.here, term, out=out).finish()
    return Screen(text), status, seconds, text


def look_at_last(line, seconds, unexpected, results, evaluated, read):
    """The last line has these numbers, and no more seconds than there were."""
    last = LAST.fullmatch(line)
    tries.check("the last line is none", last, line)
    if last:
        numbers = [int(last[place]) for place in (1, 2, 4, 5)]
        tries.same("the last line's numbers", [unexpected, results, evaluated, read], numbers)
        tries.check("its seconds are too many", int(last[3]) <= seconds, line)


def try_two():
    """A line for each test that begins, in the place of the one before it, and a last line."""
    begun = ["0 of 2 tests, 0 unexpected: unix t/a.exp", "1 of 2 tests, 1 unexpected: unix t/b.exp"]
    with Suite(TWO) as suite:
        for words, read in ([], 0), (["--rejudge"], 2):
            tries.begin(" ".join(["a run", *words]))
            screen, status, seconds, _ = run(suite, "--tool", "t", *words)
            tries.same("the status", 1, status)
            tries.same("the report", TWO_REPORT, suite.read("said"))
            tries.same("the lines of the tests", begun, screen.past[:-1])
            tries.same("what is left on the screen", screen.past[-1:], screen.lines())
            look_at_last(screen.lines()[-1], seconds, 1, 3, 2, read)
        for words in [], ["--rejudge"]:
            tries.begin(" ".join(["a report on the terminal", *words]))
            text, _, _ = OnTerminal([PROGRAM, "--tool", "t", *words], suite.here).finish()
            screen = Screen(text)
            wanted = TWO_REPORT.expandtabs(8).rstrip("\n").split("\n")
            tries.same("what is left on the screen", wanted, screen.lines()[:-1])
            tries.check("the last line is none", LAST.fullmatch(screen.lines()[-1]), screen.lines()[-1])


def try_none():
    """Nothing is told where no line can be written over, or where nobody looks."""
    with Suite(TWO) as suite:
        for words in [], ["--rejudge"]:
            for term in "dumb", "", None:
                tries.begin(" ".join(["a run", *words, f"with TERM {term}"]))
                _, status, _, text = run(suite, "--tool", "t", *words, term=term)
                tries.same("the status", 1, status)
                tries.same("what comes to the terminal", "", text)
                tries.same("the report", TWO_REPORT, suite.read("said"))
            tries.begin(" ".join(["a run", *words, "whose standard error is a file"]))
            with open(suite.here / "errors", "wb") as err:
                text, status, _ = OnTerminal([PROGRAM, "--tool", "t", *words], suite.here, err=err).finish()
            tries.same("the file", "", suite.read("errors"))
            tries.same("what comes to the terminal", TWO_REPORT.replace("\n", "\r\n"), text)
            tries.begin(" ".join(["a run", *words, "whose standard error is a pipe"]))
            ended = subprocess.run(
                [PROGRAM, "--tool", "t", *words], cwd=suite.here, env=settings("xterm"), capture_output=True, check=False
            )
            tries.same("standard error", b"", ended.stderr)
        tries.begin("a session")
        suite.put("lines", "report\n")
        with open(suite.here / "lines", "rb") as source, open(suite.here / "said", "wb") as out:
            text, status, _ = OnTerminal([PROGRAM, "--session"], suite.here, out=out, source=source).finish()
        tries.same("the status", 0, status)
        tries.same("what comes to the terminal", "", text)


def try_counts():
    """The counts are those of results, over all boards; messages are none."""
    all_classes = """pass 1; fail 2; setup_xfail *-*-*; pass 3; setup_xfail *-*-*; fail 4; setup_kfail *-*-*; pass 5
setup_kfail *-*-*; fail 6; unresolved 7; untested 8; unsupported 9; note 10; warning 11; perror 12
"""
    files = {"t/a.exp": all_classes, "t/b.exp": "nothing of this name\n", "t/c.exp": "spawn true\n"}
    boards = ["--target_board", "sim,unix"]
    with Suite(files) as suite:
        tries.begin("every class of results, on two boards")
        screen, status, seconds, _ = run(suite, *boards)
        tries.same("the status", 1, status)
        wanted = ["0 of 6 tests, 0 unexpected: sim t/a.exp", "1 of 6 tests, 4 unexpected: sim t/b.exp"]
        wanted += ["2 of 6 tests, 5 unexpected: sim t/c.exp", "3 of 6 tests, 5 unexpected: unix t/a.exp"]
        wanted += ["4 of 6 tests, 9 unexpected: unix t/b.exp", "5 of 6 tests, 10 unexpected: unix t/c.exp"]
        tries.same("the lines of the tests", wanted, screen.past[:-1])
        look_at_last(screen.lines()[-1], seconds, 10, 20, 6, 0)
        tries.begin("a transcript that is missing")
        os.remove(suite.here / "transcripts/sim/t/c.exp.tr")
        screen, _, seconds, _ = run(suite, "--rejudge", *boards)
        look_at_last(screen.lines()[-1], seconds, 11, 21, 6, 5)
        tries.begin("some of the scripts")
        screen, status, seconds, _ = run(suite, "--rejudge", "c.exp")
        tries.same("the lines of the tests", ["0 of 1 tests, 0 unexpected: unix t/c.exp"], screen.past[:-1])
        look_at_last(screen.lines()[-1], seconds, 0, 0, 1, 1)
        for words in [], ["--rejudge"]:
            tries.begin(" ".join(["no script", *words]))
            screen, status, seconds, _ = run(suite, "none.exp", *words)
            tries.same("what is left on the screen", screen.past, screen.lines())
            look_at_last(screen.lines()[-1], seconds, 0, 0, 0, 0)


def try_many():
    """Several workers tell of each test once."""
    names = [f"t/{number:02}.exp" for number in range(12)]
    with Suite({name: "spawn cat\nsend x\nexpect x {pass x}\n" for name in names}) as suite:
        for words in ["--jobs", "4"], ["--jobs", "4", "--rejudge"]:
            tries.begin(" ".join(["twelve tests", *words]))
            screen, _, seconds, _ = run(suite, *words)
            begun = [BEGUN.fullmatch(line) for line in screen.past[:-1]]
            tries.check("a line of a test is none", all(begun), screen.past)
            begun = [it for it in begun if it]
            tries.same("the tests", [f"unix {name}" for name in names], sorted(it[4] for it in begun))
            are_right = all(int(it[1]) < 12 and it[2] == "12" and it[3] == "0" for it in begun)
            tries.check("a number is not right", are_right, screen.past)
            tries.same("what is left on the screen", screen.past[-1:], screen.lines())
            look_at_last(screen.lines()[-1], seconds, 0, 12, 12, 12 if "--rejudge" in words else 0)


def try_long():
    """A name that is longer than the terminal is wide leaves nothing on it."""
    name = "t/" + 120 * "n" + ".exp"
    with Suite({name: "pass x\n", "t/z.exp": "pass z\n"}) as suite:
        for words in ["--tool", "t"], ["--rejudge"]:
            tries.begin(" ".join(["a long name", *words]))
            screen, _, seconds, _ = run(suite, *words)
            tries.same("what is left on the screen", screen.past[-1:], screen.lines())
            look_at_last(screen.lines()[0], seconds, 0, 2, 2, 2 if "--rejudge" in words else 0)


def try_seconds():
    """The seconds are those that the run took, without a fraction."""
    with Suite({"t/a.exp": "spawn sleep 1.2\nexpect eof {pass slept}\n"}) as suite:
        tries.begin("a child that sleeps")
        screen, _, seconds, _ = run(suite, "--tool", "t")
        look_at_last(screen.lines()[-1], seconds, 0, 1, 1, 0)
        last = LAST.fullmatch(screen.lines()[-1])
        tries.check("no second has passed", last and int(last[3]) >= 1, screen.lines())
        tries.begin("the same by what it did")
        screen, _, seconds, _ = run(suite, "--rejudge")
        look_at_last(screen.lines()[-1], seconds, 0, 1, 1, 1)


def try_faults():
    """A fault stands alone, where the lines of the tests stood."""
    with Suite(TWO) as suite:
        (suite.here / "t.sum").mkdir()
        for words in [], ["--rejudge"]:
            tries.begin(" ".join(["a report that can't be written", *words]))
            screen, status, _, _ = run(suite, "--tool", "t", *words)
            tries.same("the status", 2, status)
            tries.same("what is left on the screen", ["runtest: can't write ./t.sum"], screen.lines())
            tries.check("no test was told of", len(screen.past) > 1, screen.past)
        for words, fault in (["x"], "bad word 1"), (["--srcdir", "absent"], "can't read absent"):
            tries.begin(" ".join(words))
            screen, status, _, _ = run(suite, *words)
            tries.same("what is left on the screen", [f"runtest: {fault}"], screen.lines())


def try_broken():
    """A terminal that goes away during the run changes nothing of it."""
    slow = 'spawn sh -c {sleep 0.5; echo x}\nexpect x {pass "slow"}\n'
    with Suite({"t/0.exp": slow, **TWO}) as suite:
        tries.begin("a terminal that goes away")
        with open(suite.here / "said", "wb") as out:
            terminal = OnTerminal([PROGRAM, "--tool", "t"], suite.here, out=out)
            first = terminal.read()
            terminal.close()
            status = terminal.process.wait(60)
        tries.check("no line was told before that", b"0 of 3 tests" in first, first)
        tries.same("the status", 1, status)
        report = TWO_REPORT.replace("Running t/a", "Running t/0.exp ...\nPASS: slow\nRunning t/a").replace("\t2\n", "\t3\n")
        tries.same("the report", report, suite.read("said"))
        tries.same("the report's file", report, suite.read("t.sum"))


for it in try_two, try_none, try_counts, try_many, try_long, try_seconds, try_faults, try_broken:
    it()
tries.end()
