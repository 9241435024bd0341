"""What the programs beside this one share: suites in folders, terminals, and what differs is printed."""
import fcntl
import os
import pathlib
import pty
import re
import struct
import subprocess
import sys
import tempfile
import termios
import time

# how long a run may take, in seconds
LONGEST = 120


class Tries:
    """What is tried, counted, and told where it is not as it has to be."""

    def __init__(self, name):
        self.name, self.count, self.wrong, self.what = name, 0, 0, ""

    def begin(self, what):
        self.what = what

    def check(self, what, is_right, given):
        self.count += 1
        if not is_right:
            self.wrong += 1
            print(f"{self.name}: {self.what}: {what}: {given!r}", flush=True)

    def same(self, what, wanted, given):
        self.count += 1
        if wanted != given:
            self.wrong += 1
            print(f"{self.name}: {self.what}: {what} is not as it has to be")
            print(f"  wanted: {wanted!r}\n  given:  {given!r}", flush=True)

    def end(self):
        print(f"{self.name}: {self.count} looks, {self.wrong} wrong")
        sys.exit(1 if self.wrong else 0)


class Suite:
    """A folder with the files of a suite, which goes with it."""

    def __init__(self, files):
        self.folder = tempfile.TemporaryDirectory()
        self.here = pathlib.Path(self.folder.name)
        for name, text in files.items():
            self.put(name, text)

    def put(self, name, text):
        path = self.here / name
        path.parent.mkdir(parents=True, exist_ok=True)
        path.write_text(text)

    def read(self, name):
        path = self.here / name
        return path.read_text() if path.is_file() else None

    def names(self, folder="."):
        top = self.here / folder
        return sorted(str(it.relative_to(top)) for it in top.rglob("*") if it.is_file())

    def __enter__(self):
        return self

    def __exit__(self, *_):
        self.folder.cleanup()


def settings(term=None):
    """The variables that the program is run with."""
    return {"PATH": os.environ["PATH"], "LC_ALL": "C", **({} if term is None else {"TERM": term})}


class OnTerminal:
    """The program on a terminal of 24 rows and 80 columns, which is its standard error and output, but for those with a file."""

    def __init__(self, words, here, term="xterm", out=None, err=None, is_session=False, source=subprocess.DEVNULL):
        self.master, slave = pty.openpty()
        fcntl.ioctl(slave, termios.TIOCSWINSZ, struct.pack("HHHH", 24, 80, 0, 0))
        # the program's terminal is one that keys reach, where it is a session of its own
        lead = (lambda: (os.setsid(), fcntl.ioctl(slave, termios.TIOCSCTTY, 0))) if is_session else None
        self.begun = time.monotonic()
        self.process = subprocess.Popen(
            words, cwd=here, env=settings(term), preexec_fn=lead, stdin=slave if is_session else source,
            stdout=out or slave, stderr=err or slave,
        )
        os.close(slave)

    def read(self):
        """What comes next, or nothing at the end."""
        try:
            return os.read(self.master, 65536)
        except OSError:
            return b""

    def press(self, keys):
        os.write(self.master, keys)

    def close(self):
        os.close(self.master)

    def finish(self):
        """All that comes up to the end, as a text; the status, and how many seconds it took."""
        pieces = []
        while piece := self.read():
            pieces.append(piece)
        status = self.process.wait(LONGEST)
        self.close()
        return b"".join(pieces).decode("latin-1"), status, time.monotonic() - self.begun


class Screen:
    """What stands on a terminal of 80 columns and many rows, and the lines that stood there for a time.

    It knows text, the line feed, the return, the tab, and `ESC [ K`, which clears a line from the place on; `ESC [ 2 K` clears all.
    """

    WIDTH = 80
    ESCAPE = re.compile("\x1b\\[([0-9;]*)([A-Za-z])")

    def __init__(self, text):
        self.rows, self.row, self.column, self.past = [[]], 0, 0, []
        at = 0
        while at < len(text):
            escape = self.ESCAPE.match(text, at)
            if escape:
                self.obey(escape[2], escape[1])
                at = escape.end()
            else:
                self.take(text[at])
                at += 1

    def remember(self):
        line = "".join(self.rows[self.row]).rstrip()
        if line and self.past[-1:] != [line]:
            self.past.append(line)

    def take(self, char):
        if char == "\r":
            self.remember()
            self.column = 0
        elif char == "\n":
            self.remember()
            self.go_down()
        elif char == "\t":
            self.column = min(self.column // 8 * 8 + 8, self.WIDTH - 1)
        elif char >= " ":
            if self.column == self.WIDTH:
                self.go_down()
                self.column = 0
            row = self.rows[self.row]
            row.extend(" " * (self.column + 1 - len(row)))
            row[self.column] = char
            self.column += 1
        else:
            raise ValueError(f"the terminal doesn't know {char!r}")

    def go_down(self):
        self.row += 1
        if self.row == len(self.rows):
            self.rows.append([])

    def obey(self, letter, numbers):
        if letter == "K" and numbers in ("", "0"):
            del self.rows[self.row][self.column :]
        elif letter == "K" and numbers == "2":
            self.remember()
            self.rows[self.row] = []
        else:
            raise ValueError(f"the terminal doesn't know ESC [ {numbers} {letter}")

    def lines(self):
        """The rows that stand there at the end, up to the last that is not empty."""
        return "\n".join("".join(row).rstrip() for row in self.rows).rstrip("\n").split("\n")
