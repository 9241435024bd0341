"""Tries two runs at once into one folder: together.py PROGRAM [ROUNDS], 30 rounds if unsaid.

Both end with their own report and status, and each file is whole at each moment: that of the one or of the other.
"""
import os
import subprocess
import sys
import threading

from common import LONGEST, Suite, Tries, settings

PROGRAM = os.path.abspath(sys.argv[1])
ROUNDS = int(sys.argv[2]) if len(sys.argv) > 2 else 30
tries = Tries("together.py")

# The two runs talk of other words, of which one is unexpected, and their reports and transcripts have some length.
SCRIPT = """spawn cat
set timeout 60
for {set i 0} {$i < 40} {incr i} {
    send "$WORD $i\\n"
    expect "$WORD $i\\n" {} default {fail "$WORD $i"}
}
for {set i 0} {$i < 400} {incr i} {pass "$WORD $i"}
if {$WORD eq "odd"} {fail "odd"}
"""
SCRIPTS = [f"t/{number}.exp" for number in range(6)]
WORDS = {"even": 0, "odd": 1}


def start(suite, word, *words):
    with open(suite.here / f"{word}.said", "wb") as out, open(suite.here / f"{word}.errors", "wb") as err:
        return subprocess.Popen(
            [PROGRAM, "--tool", "t", "--outdir", "out", f"WORD={word}", *words], cwd=suite.here, env=settings(),
            stdin=subprocess.DEVNULL, stdout=out, stderr=err,
        )


def report_of(suite, word, *words):
    """The report of a run that is alone."""
    tries.same(f"the status of {word} alone", WORDS[word], start(suite, word, *words).wait(LONGEST))
    return suite.read(f"{word}.said")


def talk_in(text):
    """What a transcript says of a talk, but for times and how the output was cut."""
    lines = text.split("\n")
    sent = "".join(line.split(" ")[1] for line in lines if line.startswith("sent "))
    read = "".join(line.split(" ")[2] for line in lines if line.startswith("chunk "))
    return lines[:3], bytes.fromhex(sent), bytes.fromhex(read), lines[-2:]


def watch(suite, reports, is_over, torn):
    """Reads the report until both runs are over, and notes one that is neither of the two."""
    while not is_over.is_set():
        text = suite.read("out/t.sum")
        if text is not None and text not in reports:
            torn.append(text)


def try_rounds(*words):
    with Suite({name: SCRIPT for name in SCRIPTS}) as suite:
        tries.begin(" ".join(["before all rounds", *words]))
        reports = {word: report_of(suite, word, *words) for word in WORDS}
        names = suite.names("out")
        talks = {word: ["".join(f"{word} {i}\n" for i in range(40)).encode()] * 2 for word in WORDS}
        for number in range(1, ROUNDS + 1):
            tries.begin(" ".join([f"round {number}", *words]))
            torn, is_over = [], threading.Event()
            watcher = threading.Thread(target=watch, args=(suite, reports.values(), is_over, torn))
            watcher.start()
            runs = {word: start(suite, word, *words) for word in WORDS}
            for word, run in runs.items():
                tries.same(f"the status of {word}", WORDS[word], run.wait(LONGEST))
                tries.same(f"the errors of {word}", "", suite.read(f"{word}.errors"))
            is_over.set()
            watcher.join()
            for word in WORDS:
                said = suite.read(f"{word}.said")
                tries.check(f"the report of {word} is another one", said == reports[word], said[-300:])
            tries.check("t.sum was torn", not torn, [text[-300:] for text in torn[:1]])
            last = suite.read("out/t.sum")
            tries.check("t.sum is none of the two reports", last in reports.values(), last and last[-300:])
            tries.same("the files", names, suite.names("out"))
            for name in SCRIPTS:
                text = suite.read(f"out/transcripts/unix/{name}.tr") or ""
                head, sent, read, end = talk_in(text)
                is_whole = [sent, read] in talks.values() and end == ["done", ""] and head[1:] == ["session 1", "started 636174"]
                tries.check(f"the transcript of {name} is none of the two", is_whole, text[-300:])


try_rounds()
try_rounds("--jobs", "3")
tries.end()
