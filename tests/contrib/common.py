"""What the tests of contrib share: the programs are run, and what is wrong is counted and printed."""
import os
import pathlib
import resource
import subprocess
import sys
import tempfile

TOP = pathlib.Path(__file__).resolve().parents[2]
DATA = TOP / "tests/contrib/data"
PROGRAM = os.path.abspath(sys.argv[1])
# how long a program may take, in seconds: a program that was built before any proof is slow
LONGEST = 1000


class Looks:
    """What was looked at, counted, and printed where it is wrong."""

    def __init__(self, name):
        self.name, self.count, self.wrong = name, 0, 0

    def right(self, what, is_right, given=""):
        self.count += 1
        if not is_right:
            self.wrong += 1
            print(f"{self.name}: {what}: {given}", flush=True)

    def same(self, what, wanted, given):
        self.right(what, wanted == given, f"\n  wanted: {wanted!r}\n  given:  {given!r}")

    def left_out(self, why):
        print(f"{self.name}: left out: {why}")

    def end(self):
        print(f"{self.name}: {self.count} looks, {self.wrong} wrong")
        sys.exit(1 if self.wrong else 0)


class Ran:
    """How a program ended: its status, and what it wrote."""

    def __init__(self, words, **more):
        environment = {**os.environ, "RUNTEST": PROGRAM, "LC_ALL": "C.UTF-8"}
        ran = subprocess.run([str(it) for it in words], stdin=subprocess.DEVNULL, capture_output=True, timeout=LONGEST, env=environment, **more)
        self.status, self.out, self.err = ran.returncode, ran.stdout.decode("latin-1"), ran.stderr.decode("latin-1")


def contrib(name, *words, **more):
    """Runs one of the programs."""
    return Ran([sys.executable, TOP / "contrib" / f"runtest-{name}", *words], **more)


def runner(*words):
    """Runs the runner."""
    return Ran([PROGRAM, *words])


def is_fault(ran, text):
    """Whether a program ended with a fault: one line that has this text, no traceback, the status 2."""
    return ran.status == 2 and ran.err.count("\n") == 1 and text in ran.err and "Traceback" not in ran.err


def write(path, text):
    """Writes a file, in folders that may not be there yet."""
    path.parent.mkdir(parents=True, exist_ok=True)
    path.write_bytes(text if isinstance(text, bytes) else text.encode("latin-1"))
    return path


def folder():
    """A folder that goes when it is left."""
    return tempfile.TemporaryDirectory(prefix="contrib.")


def memory():
    """The most memory that a program which was run here had, in MB."""
    return resource.getrusage(resource.RUSAGE_CHILDREN).ru_maxrss // 1024
