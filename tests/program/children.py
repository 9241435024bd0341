"""Tries that no child is left after a run, after a fault, and after ^C on a terminal: children.py PROGRAM."""
import os
import resource
import shutil
import signal
import subprocess
import sys
import time

from common import OnTerminal, Suite, Tries, settings

PROGRAM = os.path.abspath(sys.argv[1])
tries = Tries("children.py")

# An idle child reads nothing; a deaf one heeds no signal but the one that no process can refuse; a patient one reads to the end.
# `count` tries whether so many of them are there.
LIBRARY = """proc idle {} {global IDLE spawn_id; spawn $IDLE 1000}
proc deaf {} {global IDLE spawn_id; spawn sh -c "trap '' HUP INT TERM PIPE; exec $IDLE 1000"}
proc patient {} {global CAT spawn_id; spawn $CAT}
proc count {wanted} {
    global COUNT IDLE
    spawn sh $COUNT $IDLE $wanted
    expect -timeout 20 "$wanted children" {pass "$wanted children"} default {fail "$wanted children"}
}
"""
# Says how many processes there are whose name begins with the first word, once there are as many as the second says, or after ten
# seconds.
COUNT = """for i in 1 2 3 4 5 6 7 8 9 10; do
    n=$(ps -A -o args= | grep -c "^$1")
    [ "$n" != "$2" ] || break
    sleep 1
done
echo "$n children"
"""


class Children:
    """A suite whose children have a name that nothing else has."""

    def __init__(self, files):
        self.suite = Suite({"lib/t.exp": LIBRARY, "count": COUNT, **files})
        self.here = self.suite.here
        self.idle = str(self.here / "idle")
        shutil.copy(shutil.which("sleep"), self.idle)
        shutil.copy(shutil.which("cat"), f"{self.idle}_cat")
        self.words = [f"IDLE={self.idle}", f"CAT={self.idle}_cat", f"COUNT={self.here}/count"]

    def number(self):
        """How many children there are."""
        listed = subprocess.run(["ps", "-A", "-o", "args="], stdout=subprocess.PIPE, check=True).stdout
        return sum(line.startswith(self.idle.encode()) for line in listed.split(b"\n"))

    def run(self, *words, room=None):
        narrow = (lambda: resource.setrlimit(resource.RLIMIT_AS, (room, room))) if room else None
        return subprocess.run(
            [PROGRAM, *self.words, *words], cwd=self.here, env=settings(), stdin=subprocess.DEVNULL, capture_output=True,
            preexec_fn=narrow, timeout=120, check=False,
        )

    def wait_for(self, wanted, seconds):
        """Whether there are so many of them within this time."""
        end = time.monotonic() + seconds
        while self.number() != wanted and time.monotonic() < end:
            time.sleep(0.02)
        return self.number() == wanted

    def __enter__(self):
        return self

    def __exit__(self, *_):
        self.suite.__exit__()


def try_runs():
    """What a test leaves is gone before the next one, and after the run."""
    files = {
        "t/a.exp": "idle; deaf; patient; idle; count 4\n",
        "t/b.exp": "count 0\ndeaf; patient; close\ncount 1\n",
        "t/c.exp": "count 0\nidle\nnothing of this name\n",
        "t/d.exp": "count 0\npatient; wait; idle; while 1 {}\n",
        "t/e.exp": "count 0\ndeaf\n",
    }
    with Children(files) as children:
        tries.begin("a run")
        ended = children.run()
        tries.same("the children that are left", 0, children.number())
        tries.same("the status", 1, ended.returncode)
        lines = [line for line in ended.stdout.decode().split("\n") if line.startswith(("PASS", "FAIL"))]
        wanted = [f"PASS: {number} children" for number in (4, 0, 1, 0, 0, 0)]
        tries.same("the results", wanted, lines)
    several = {f"t/{number}.exp": "idle; deaf; patient\npass left\n" for number in range(12)}
    with Children(several) as children:
        tries.begin("a run of four at a time")
        ended = children.run("--jobs", "4")
        tries.same("the children that are left", 0, children.number())
        tries.same("the status", 0, ended.returncode)


def try_faults():
    """None is left where a run ends with a fault, or starts no test at all."""
    slow = {f"t/{number}.exp": "idle; deaf\nexpect -timeout 1 x {}\n" for number in range(6)}
    with Children(slow) as children:
        (children.here / "t.sum").mkdir()
        tries.begin("a report that can't be written")
        ended = children.run("--jobs", "6")
        tries.same("the children that are left", 0, children.number())
        tries.same("the fault", b"runtest: can't write ./t.sum\n", ended.stderr)
        shutil.rmtree(children.here / "transcripts")
        children.suite.put("transcripts", "")
        tries.begin("a transcript that can't be written")
        ended = children.run("--jobs", "6")
        tries.same("the children that are left", 0, children.number())
        tries.same("the fault", b"runtest: can't write ./transcripts/unix/t/0.exp.tr\n", ended.stderr)
    with Children(slow) as children:
        for room in range(20_000_000, 220_000_000, 40_000_000):
            tries.begin(f"a run in {room} bytes of memory")
            ended = children.run("--jobs", "16", room=room)
            tries.same("the children that are left", 0, children.number())
            tries.check("the status is that of no end", ended.returncode in (0, 1, 2), (ended.returncode, ended.stderr))
    with Children({"t/a.exp": "idle\npass a\n"}) as children:
        tries.begin("a run that is judged again")
        children.run()
        children.run("--rejudge")
        tries.same("the children that are left", 0, children.number())


def try_keys():
    """None is left after ^C, nor is a file that an earlier run wrote another one."""
    fast = {f"t/{number}.exp": "idle; patient\npass one\n" for number in range(4)}
    slow = {name: "idle; patient\nexpect -timeout 60 x {}\npass two\n" for name in fast}
    for jobs in "1", "4":
        with Children(fast) as children:
            tries.begin(f"^C with --jobs {jobs}")
            ended = children.run("--jobs", jobs)
            tries.same("the status of the run before", 0, ended.returncode)
            names, report = children.suite.names(), children.suite.read("t.sum")
            for name, text in slow.items():
                children.suite.put(name, text)
            terminal = OnTerminal([PROGRAM, *children.words, "--jobs", jobs], children.here, is_session=True)
            tries.check("the children don't come", children.wait_for(2 * int(jobs), 30), children.number())
            terminal.press(b"\x03")
            _, status, _ = terminal.finish()
            tries.same("the status", -signal.SIGINT, status)
            tries.check("children are left", children.wait_for(0, 2), children.number())
            tries.same("the files", names, children.suite.names())
            tries.same("the report of the run before", report, children.suite.read("t.sum"))
            for name, text in fast.items():
                children.suite.put(name, text)
            ended = children.run("--jobs", jobs)
            tries.same("the status of the next run", 0, ended.returncode)
            tries.same("its report", report, children.suite.read("t.sum"))


for it in try_runs, try_faults, try_keys:
    it()
tries.end()
