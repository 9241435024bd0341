"""Tries runtest-list beside the program: lists.py PROGRAM. What is selected is what stands in the program's report."""
import pathlib
import re

from common import TOP, Looks, contrib, folder, is_fault, runner, write

looks = Looks("lists.py")
FILES = [
    "t/a.exp", "t/b.exp", "t.x/a.exp", "t.x/deep/er/a.exp", "t.x/deep/c.exp", "tt/d.exp", "t.x/no.tcl", "t.x/Z.exp", "t.x/a+b-c_d.exp", "u/a.exp",
    "lib/t.exp", "lib/t/a.exp", "boards/unix.exp", "boards/sim.exp", "transcripts/a.exp", "top.exp", "l/a.exp", "libt/a.exp", "boards2/a.exp",
]
ROWS = [
    [], ["--tool", "t.x"], ["--tool=u"], ["--tool", "l"], ["--tool", "b"], ["--tool", "lib"], ["--tool", "x"], ["a.exp"], ["t.x/a.exp"], ["t.x/a.exp", "c.exp", "V=1"],
    ["--ignore", "a.exp"], ["--ignore", "t/a.exp, c.exp", "a.exp", "c.exp"], ["--target_board", "sim unix"], ["--target_board", "sim,unix", "a.exp", "--ignore", "t/a.exp"],
    ["--target", "arm-none-eabi", "--host=x-y-z", "--build", "a-b-c", "a.exp"], ["none.exp"],
]
BAD = [["x"], ["--tool", "a/b"], ["--tool", "a" * 65], ["--target_board", ","], ["--target_board", "a a"], ["../a.exp"], ["--ignore", "a//b"], ["1=2"], ["x=1", "y"]]


def tests_of(report):
    """The tests of a report."""
    found, board = [], None
    for line in report.split("\n"):
        target, running = re.fullmatch(r"Running target (\S+)", line), re.fullmatch(r"Running (\S+) \.\.\.", line)
        board = target[1] if target else board
        if running and not target:
            found.append(f"{board} {running[1]}\n")
    return "".join(found)


def same_list(suite, out, words):
    """The list is that of the program's report."""
    ours, theirs = contrib("list", suite, *words), runner("--srcdir", suite, "--outdir", out, "--rejudge", *words)
    looks.same(f"list {words}", (0, tests_of(theirs.out)), (ours.status, ours.out))
    listed = runner("--srcdir", suite, "--outdir", out, "--list", *words)
    if "unexpected argument" not in listed.err and listed.status != 2:
        looks.same(f"--list {words}", listed.out, ours.out)


def try_suite(here):
    for name in FILES:
        write(here / "suite" / name, "pass a\n")
    (here / "out").mkdir()
    (here / "suite/t.link").symlink_to("t.x/deep")
    for words in ROWS:
        same_list(here / "suite", here / "out", words)
    for words in BAD:
        ours, theirs = contrib("list", here / "suite", *words), runner("--srcdir", here / "suite", "--outdir", here / "out", "--rejudge", *words)
        looks.right(f"list {words}", is_fault(ours, "bad ") and theirs.status == 2, (ours.status, ours.err, theirs.status))
    looks.right("no such suite", is_fault(contrib("list", here / "absent"), "can't read"))
    ran = contrib("list", here / "suite", "--tool", "x")
    looks.right("nothing selected", ran.status == 0 and "warning: no script" in ran.err, ran.err)
    write(here / "suite/t/bad name.exp", "")
    looks.right("a file's name", is_fault(contrib("list", here / "suite"), "bad file"))


def try_examples(here):
    for tool in ("sh", "sed", "awk"):
        same_list(TOP / "examples" / tool, here, ["--tool", tool, "--target_board", "unix strict" if tool == "sh" else "unix"])
    slow = contrib("list", TOP / "examples/sh", "--tool", "sh", "lines.exp", "unset.exp", "--slow", TOP / "examples/sh")
    looks.same("--slow", "0.000 unix sh.ends/unset.exp\n1.000 unix sh.words/lines.exp\n", slow.out)
    slow = contrib("list", TOP / "examples/sh", "--tool", "sh", "lines.exp", "--slow", here)
    looks.same("--slow without a transcript", "- unix sh.words/lines.exp\n", slow.out)


for it in (try_suite, try_examples):
    with folder() as name:
        it(pathlib.Path(name))
looks.end()
