"""Tries that a session has answered each line before it waits for more: talk.py PROGRAM."""
import os
import select
import subprocess
import sys
import time

from common import LONGEST, Tries, settings

PROGRAM = os.path.abspath(sys.argv[1])
tries = Tries("talk.py")

EMPTY = """\t\t=== u tests ===

Schedule of variations:
    unix

Running target unix

\t\t=== u Summary ===

"""
# What is written, and what has then to be answered.
TALK = [
    ("put u/a.exp 70617373206f6e650a\n", "ok\n"),
    ("select --tool u b.exp\n", "ok\n"),
    ("rep", ""),
    ("ort\n", f"sum 0 {len(EMPTY)} 0\n{EMPTY}"),
    ("remove u/a.exp\nremove u/a.exp\n", "ok\nrefused 4\n"),
    ("remove u/a.exp\nremove u/", "refused 4\n"),
    ("a.exp\n", "refused 4\n"),
    ("", ""),
    ("\n", "unknown\n"),
    ("report ", ""),
]


def hear(process, length, seconds):
    """What the session writes: so many bytes, or what comes within that time."""
    heard, end = b"", time.monotonic() + seconds
    while len(heard) < length and time.monotonic() < end:
        if select.select([process.stdout], [], [], 0.1)[0]:
            piece = os.read(process.stdout.fileno(), length - len(heard))
            if not piece:
                break
            heard += piece
    return heard.decode()


process = subprocess.Popen([PROGRAM, "--session"], env=settings(), stdin=subprocess.PIPE, stdout=subprocess.PIPE)
for line, answer in TALK:
    tries.begin(repr(line))
    process.stdin.write(line.encode())
    process.stdin.flush()
    tries.same("the answer", answer, hear(process, len(answer), 20))
    tries.check("more is answered", not select.select([process.stdout], [], [], 0.05)[0], line)
process.stdin.close()
tries.begin("the end of the input")
tries.same("the last answer", "unknown\n", process.stdout.read().decode())
tries.same("the status", 0, process.wait(LONGEST))
tries.end()
