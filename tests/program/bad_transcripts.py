#!/usr/bin/env python3
"""Tries texts of transcripts in a session: good ones cut after each byte, and with other bytes in the place of each, and some at limits.

    python3 bad_transcripts.py PROGRAM

What each text gives is told by the small reader below, which follows docs/TRANSCRIPTS.md and shares nothing with the program.
"""
import re
import subprocess
import sys

from common import LONGEST, Tries, settings

# The kinds of an entry, by the first word of its line: what its fields are, and where in a session it may stand.
ENTRIES = {
    "started": (["words"], "start"),
    "nostart": (["code", "words"], "start"),
    "sent": (["sent"], "middle"),
    "nosend": (["code", "sent"], "middle"),
    "chunk": (["time", "chunk"], "middle"),
    "silence": (["time"], "middle"),
    "end": (["time"], "end"),
    "noread": (["code"], "end"),
    "closed": ([], "end"),
    "noclose": (["code"], "end"),
    "exited": (["status"], "wait"),
    "killed": (["signal"], "wait"),
    "nowait": (["code"], "wait"),
}

# The fields that are a number: the least and the greatest.
NUMBERS = {"code": (1, 4), "time": (0, 3_600_000), "status": (0, 255), "signal": (1, 127)}

# The fields that are bytes: the most.
BYTES = {"sent": 1_048_576, "chunk": 4_096}

# Where a session stands once it has an entry, and what may come then.
NEXT = {
    "empty": ["start"],
    "running": ["middle", "end"],
    "ended": ["wait"],
    "over": [],
}


def is_number(text, least, greatest):
    return re.fullmatch(r"0|[1-9][0-9]*", text) is not None and least <= int(text) <= greatest


def is_bytes(text, most):
    return re.fullmatch(r"([0-9a-f]{2})+", text) is not None and len(text) // 2 <= most


def is_word(text):
    return text == "-" or is_bytes(text, sys.maxsize)


def are_fields(kinds, fields):
    """Whether the fields are just those of a kind."""
    for kind in kinds:
        if kind == "words":
            return 1 <= len(fields) <= 64 and all(is_word(field) for field in fields)
        if not fields:
            return False
        field, fields = fields[0], fields[1:]
        if kind in NUMBERS and not is_number(field, *NUMBERS[kind]):
            return False
        if kind in BYTES and not is_bytes(field, BYTES[kind]):
            return False
    return not fields


class Reader:
    """How far a transcript is read."""

    def __init__(self):
        self.sessions = 0
        self.entries = 0
        # A session that isn't there is over; one that has only begun is empty.
        self.session = "over"
        self.done = False

    def fault(self, line):
        """The first cause for which a line behind the header is bad, or None; then the line is taken."""
        word, *fields = line.split(" ")
        if self.done or word not in ENTRIES and word not in ("session", "done"):
            return "Kind"
        if word == "done":
            return self.end(fields)
        if word == "session":
            return self.begin(fields)
        return self.take(word, fields)

    def end(self, fields):
        if fields:
            return "Field"
        if self.session == "empty":
            return "SessionOrder"
        self.done = True
        return None

    def begin(self, fields):
        if len(fields) != 1 or not is_number(fields[0], 0, sys.maxsize ** 9):
            return "Field"
        if self.session == "empty" or int(fields[0]) != self.sessions + 1:
            return "SessionOrder"
        if self.sessions == 64:
            return "TooMany"
        self.sessions += 1
        self.session = "empty"
        return None

    def take(self, word, fields):
        kinds, place = ENTRIES[word]
        if not are_fields(kinds, fields):
            return "Field"
        if place not in NEXT[self.session]:
            return "SessionOrder"
        if self.entries == 65_536:
            return "TooMany"
        self.entries += 1
        if word == "started":
            self.session = "running"
        elif place == "end":
            self.session = "ended"
        elif word == "nostart" or place == "wait":
            self.session = "over"
        return None


def read(text):
    """How many sessions a text tells of, or its first bad line and why."""
    *lines, rest = text.split("\n")
    reader = Reader()
    for number, line in enumerate(lines, 1):
        if number == 1:
            fault = None if line == "dejagnu-transcript 1" else "Header"
        else:
            fault = reader.fault(line)
        if fault:
            return f"{number} {fault}"
    if rest or not reader.done:
        return f"{len(lines) + 1} Truncated"
    return str(reader.sessions)


# Good transcripts: of one session, and with each kind of entry.
ONE = """dejagnu-transcript 1
session 1
started 636174
sent 61
chunk 0 78
closed
exited 0
done
"""
KINDS = """dejagnu-transcript 1
session 1
started 636174 - 2d
sent 610a
chunk 3000 78
nosend 3 00
silence 10000
end 0
exited 255
session 2
nostart 1 6e6f6e65
session 3
started 63
noread 4
killed 12
session 4
started 63
closed
nowait 2
session 5
started 63
noclose 4
done
"""

# What is put in the place of each byte: letters, digits, and what separates fields and lines.
OTHERS = "zaA019- \n\r\0\xff"

def whole(*lines):
    return "".join(f"{line}\n" for line in ("dejagnu-transcript 1", *lines, "done"))


def limits():
    """Texts at each limit, and past it by one: of sessions, entries, words, the bytes of a chunk, and those that are sent."""
    for more in 0, 1:
        yield whole(*(f"session {number}\nnostart 1 61" for number in range(1, 65 + more)))
        yield whole("session 1", "started 61", *["silence 0"] * (65_535 + more))
        yield whole("session 1", "started" + " -" * (64 + more))
        yield whole("session 1", "started 61", "chunk 0 " + "00" * (4_096 + more))
        yield whole("session 1", "started 61", "sent " + "00" * (1_048_576 + more))


# The causes of a session's answer, in their order.
CAUSES = ["Header", "Kind", "Field", "SessionOrder", "TooMany", "Truncated"]


def texts():
    """The fronts of each, from the empty one to the whole, and each with another byte in the place of one; and those at limits."""
    for text in ONE, KINDS:
        yield from (text[:end] for end in range(len(text) + 1))
        for other in OTHERS:
            yield from (text[:at] + other + text[at + 1 :] for at in range(len(text)))
    yield from limits()


def answer(text):
    """What a session answers to a text."""
    line, _, why = read(text).partition(" ")
    return f"refused 7 {line} {CAUSES.index(why) + 1}" if why else "ok"


def main(program):
    tries = Tries("bad_transcripts")
    tried = list(texts())
    requests = "".join(f"transcript unix t/a.exp {text.encode('latin-1').hex() or '-'}\n" for text in tried)
    ran = subprocess.run([program, "--session"], input=requests, capture_output=True, text=True, timeout=LONGEST, env=settings())
    given = ran.stdout.splitlines()
    for text, told in zip(tried, given):
        tries.begin(repr(text[:600]))
        tries.same("answer", answer(text), told)
    tries.begin("all of them")
    tries.same("count", (len(tried), 0), (len(given), ran.returncode))
    tries.end()


if __name__ == "__main__":
    main(sys.argv[1])
