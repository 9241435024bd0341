"""Transcripts, as docs/TRANSCRIPTS.md says them: read entry by entry in bounded memory, and written.

Version 2 has one entry more than version 1: `errchunk MS H` is a `chunk` of the child's error stream.
"""
import os
import re
from binascii import Error, unhexlify
from typing import NamedTuple

from . import Fault, unread

FIRST_LINE = re.compile(rb"dejagnu-transcript ([12])\n")
NUMERAL = re.compile(rb"0|[1-9][0-9]*")
MOST_ENTRIES, MOST_SESSIONS, MOST_WORDS = 65536, 64, 64
MOST_WAIT, MOST_SENT, MOST_CHUNK = 3600000, 1048576, 4096
# a line of 64 words, each as long as a value of a script may be
LONGEST_LINE = 2 * MOST_WORDS * 1048577 + 100

START, TALK, END, WAIT = range(4)
OUTPUT = ("chunk", "errchunk")
# each kind of entry: where it stands in its session, and its fields
KINDS = {
    "started": (START, ("words",)),
    "nostart": (START, ("code", "words")),
    "sent": (TALK, ("sent",)),
    "nosend": (TALK, ("code", "sent")),
    "chunk": (TALK, ("wait", "piece")),
    "errchunk": (TALK, ("wait", "piece")),
    "silence": (TALK, ("wait",)),
    "end": (END, ("wait",)),
    "noread": (END, ("code",)),
    "closed": (END, ()),
    "noclose": (END, ("code",)),
    "exited": (WAIT, ("status",)),
    "killed": (WAIT, ("signal",)),
    "nowait": (WAIT, ("code",)),
}
NUMBERS = {"code": (1, 4), "wait": (0, MOST_WAIT), "status": (0, 255), "signal": (1, 127)}
BYTES = {"sent": MOST_SENT, "piece": MOST_CHUNK}
CAUSES = {
    "Truncated": "it has no newline, or the text ends before `done`",
    "Header": "the first line is not `dejagnu-transcript 1` or `dejagnu-transcript 2`",
    "Kind": "it begins with no word of a transcript, or stands behind `done`",
    "Field": "a field is missing, badly written or past its limit, or there is one too many",
    "SessionOrder": "it may not stand there",
    "TooMany": "there are over 64 sessions or 65,536 entries",
}
WHY = {1: "not found", 2: "not permitted", 3: "broken pipe", 4: "another cause"}


class Entry(NamedTuple):
    """What happened in a session: the n-th session, from 1, and what its kind has of the fields behind."""

    session: int
    kind: str
    wait: int = 0
    data: bytes = b""
    words: tuple = ()
    number: int = 0


class Bad(Exception):
    """A line that can't be read, by its cause."""


def entries(path):
    """The entries of a transcript's file, one after the other; a Fault names the first bad line."""
    try:
        with open(path, "rb") as file:
            yield from read(file, path)
    except OSError as error:
        raise unread(path, error) from None


def version(path):
    """The number in a transcript's first line."""
    try:
        with open(path, "rb") as file:
            found = FIRST_LINE.fullmatch(file.readline(64))
    except OSError as error:
        raise unread(path, error) from None
    return int(found[1]) if found else 1


def read(file, name):
    """The entries that stand in an open file."""
    reader, number = Reader(), 0
    try:
        for number, line in enumerate(iter(lambda: file.readline(LONGEST_LINE), b""), 1):
            entry = reader.take(line)
            if entry:
                yield entry
        if not reader.over:
            number += 1
            raise Bad("Truncated")
    except Bad as why:
        raise Fault(f"bad transcript {name} line {number}: {CAUSES[str(why)]}") from None


class Reader:
    """How far a transcript has been read, and so which line may come."""

    def __init__(self):
        self.version, self.over = None, False
        self.session, self.count = 0, 0
        # what the last line was: the first one (None), "session", "done", or a part of a session
        self.last = None

    def take(self, line):
        """The entry of a line, or nothing where it begins or ends something."""
        if not line.endswith(b"\n"):
            raise Bad("Truncated")
        if self.version is None:
            found = FIRST_LINE.fullmatch(line)
            if not found:
                raise Bad("Header")
            self.version = int(found[1])
            return None
        if self.over:
            raise Bad("Kind")
        word, *fields = line[:-1].split(b" ")
        kind = word.decode("latin-1")
        if kind in KINDS and (kind != "errchunk" or self.version == 2):
            return self.entry(kind, fields)
        if kind not in ("session", "done"):
            raise Bad("Kind")
        self.border(kind, fields)
        return None

    def border(self, kind, fields):
        """Takes the first line of a session, or the last line."""
        if len(fields) != (kind == "session"):
            raise Bad("Field")
        number = numeral(fields[0]) if fields else None
        if self.last in ("session", "done") or fields and number != self.session + 1:
            raise Bad("SessionOrder")
        if fields and self.session == MOST_SESSIONS:
            raise Bad("TooMany")
        self.over, self.session, self.last = kind == "done", self.session + len(fields), kind

    def entry(self, kind, fields):
        """Takes an entry of a session."""
        part, shape = KINDS[kind]
        entry = Entry(self.session, kind, **values(shape, fields))
        due = (START,) if self.last == "session" else {TALK: (TALK, END), END: (WAIT,)}.get(self.last, ())
        if part not in due:
            raise Bad("SessionOrder")
        if self.count == MOST_ENTRIES:
            raise Bad("TooMany")
        self.count += 1
        # behind `started` anything may be said; behind `nostart` only another session comes
        self.last = {"started": TALK, "nostart": WAIT}.get(kind, part)
        return entry


def values(shape, fields):
    """What the fields of an entry say."""
    found = {}
    for name in shape:
        if name == "words":
            found["words"], fields = words_of(fields), []
        elif not fields:
            raise Bad("Field")
        elif name in BYTES:
            found["data"], fields = bytes_of(fields[0], BYTES[name]), fields[1:]
        else:
            low, high = NUMBERS[name]
            found["wait" if name == "wait" else "number"], fields = numeral(fields[0], low, high), fields[1:]
    if fields:
        raise Bad("Field")
    return found


def numeral(field, low=0, high=10000000):
    """The number that a field says, within limits. One that is past all limits counts as ten millions."""
    number = int(field[:8]) if NUMERAL.fullmatch(field) else -1
    if not low <= number <= high:
        raise Bad("Field")
    return number


def bytes_of(field, most):
    """The bytes that a field says in small hexadecimal digits."""
    if not field or len(field) > 2 * most or not (field.isdigit() or field.islower()):
        raise Bad("Field")
    try:
        return unhexlify(field)
    except Error:
        raise Bad("Field") from None


def words_of(fields):
    """The words of a command; `-` is the empty one."""
    if not 1 <= len(fields) <= MOST_WORDS:
        raise Bad("Field")
    return tuple(b"" if it == b"-" else bytes_of(it, len(it)) for it in fields)


def line_of(entry):
    """The line of an entry, without its newline."""
    fields = [entry.kind]
    for name in KINDS[entry.kind][1]:
        if name == "words":
            fields += [it.hex() or "-" for it in entry.words]
        elif name in BYTES:
            fields.append(entry.data.hex())
        else:
            fields.append(str(entry.wait if name == "wait" else entry.number))
    return " ".join(fields)


def text_of(number, listed):
    """The text of a transcript of this version."""
    lines, session = [f"dejagnu-transcript {number}"], 0
    for entry in listed:
        if entry.session != session:
            session = entry.session
            lines.append(f"session {session}")
        lines.append(line_of(entry))
    return "\n".join([*lines, "done", ""]).encode()


def path_of(outdir, board, script):
    """Where the transcript of a test stands."""
    return os.path.join(outdir, "transcripts", board, script + ".tr")


def recorded(outdir):
    """The tests that have a transcript, as pairs of board and script, in byte order."""
    top = os.path.join(outdir, "transcripts")
    if not os.path.isdir(top):
        raise Fault(f"no folder {top}: a run with `--outdir {outdir}` makes it")

    def refuse(error):
        raise unread(error.filename, error)

    found = []
    for folder, _, names in os.walk(top, onerror=refuse, followlinks=True):
        for name in names:
            board, _, script = os.path.relpath(os.path.join(folder, name), top).partition(os.sep)
            if script.endswith(".exp.tr"):
                found.append((board, script[:-3]))
    return sorted(found)


def waited(path):
    """The milliseconds that the children of a test took, by its transcript."""
    return sum(it.wait for it in entries(path))
