"""What the programs runtest-show, runtest-compare, runtest-junit, runtest-merge, runtest-list and runtest-racy share.

Each program is `main(words)` under `start`: a file that can't be used gives one line on standard error and the status 2.
"""
import argparse
import os
import re
import sys


class Fault(Exception):
    """Why a program can't go on, in one line."""


def unread(path, error):
    """The fault of a file or folder that could not be read."""
    return Fault(f"can't read {path}: {error.strerror or error}")


def shown(text):
    """A text for one line of a terminal: bytes that it can't show, and control characters, are written as in C."""
    if isinstance(text, str):
        text = os.fsencode(text)
    return text.decode("utf-8", "backslashreplace").translate(CONTROLS)


ESCAPES = {7: r"\a", 8: r"\b", 9: r"\t", 10: r"\n", 11: r"\v", 12: r"\f", 13: r"\r"}
CONTROLS = {code: ESCAPES.get(code, f"\\x{code:02x}") for code in [*range(32), *range(127, 160)]}
SPECIAL = re.compile(rb'[^ !#-\[\]-~]')
QUOTED = [(ESCAPES.get(it) or {34: r"\"", 92: r"\\"}.get(it) or f"\\x{it:02x}").encode() for it in range(256)]


def quoted(data):
    """Bytes as a text of C: printable ASCII between quotes, everything else escaped."""
    return f'"{SPECIAL.sub(lambda it: QUOTED[it[0][0]], data).decode()}"'


def parser(description, **more):
    """A parser of a command line whose help is the text at the head of the program."""
    return argparse.ArgumentParser(description=description, formatter_class=argparse.RawDescriptionHelpFormatter, **more)


def start(main):
    """Runs a program and ends it with its status: 2, and one line on standard error, where it meets a fault."""
    name = os.path.basename(sys.argv[0])
    try:
        sys.stdout.reconfigure(encoding="utf-8", errors="surrogateescape", newline="\n")
        status = main(sys.argv[1:])
        sys.stdout.flush()
    except Fault as fault:
        leave(f"{name}: {fault}", 2)
    except BrokenPipeError:
        # whoever read the output has seen enough, as `| head` has
        os.dup2(os.open(os.devnull, os.O_WRONLY), 1)
        sys.exit(0)
    except OSError as error:
        leave(f"{name}: {error.filename or 'stdout'}: {error.strerror or error}", 2)
    except KeyboardInterrupt:
        leave(f"{name}: interrupted", 130)
    sys.exit(status)


def leave(line, status):
    """Ends the program with a line on standard error."""
    try:
        sys.stdout.flush()
    except OSError:
        os.dup2(os.open(os.devnull, os.O_WRONLY), 1)
    print(shown(line), file=sys.stderr)
    sys.exit(status)
