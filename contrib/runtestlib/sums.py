"""Reports: the `.sum` files of this runner (docs/REPORT.md) and of DejaGnu, read and written again.

A report is read as one character for each byte, whatever its messages hold.
"""
import re

from . import Fault, unread

COUNTED = [
    "DejaGnu errors",
    "expected passes",
    "unexpected failures",
    "unexpected successes",
    "expected failures",
    "unknown successes",
    "known failures",
    "unresolved testcases",
    "untested testcases",
    "unsupported tests",
    "paths in test names",
    "duplicate test names",
]
HEADING = re.compile(r"\t\t=== (\S+) (tests|Summary|Summary for (.+)) ===")
TARGET = re.compile(r"Running target (.+)")
RUNNING = re.compile(r"Running (\S.*) \.\.\.")
COUNT = re.compile(r"# of (.+?)\t+(\d+)")
RESULT = re.compile(r"(PASS|FAIL|XPASS|XFAIL|KPASS|KFAIL|UNRESOLVED|UNTESTED|UNSUPPORTED): ?(.*)")
MESSAGE = re.compile(r"(ERROR|WARNING|NOTE): ?(.*)")
# what DejaGnu writes behind a message with a bug's number
BUG = re.compile(r" \((?:PRMS:?|BUG) [^()]*\)$")


class Board:
    """The part of a report for one board: what stands before the first script, each script's lines, and the counts."""

    def __init__(self):
        self.head, self.scripts, self.counts = [], {}, {}


class Report:
    """A report: its tool, its boards by their names, and what DejaGnu writes before and behind all that."""

    def __init__(self):
        self.tool, self.boards, self.head, self.tail = None, {}, [], []

    def results(self, names=None):
        """Each result and error: board, script, class and message, in order. `names` says what a script is called in the suite."""
        for board, part in self.boards.items():
            for script, lines in part.scripts.items():
                name = names[script] if names else script
                for line in lines:
                    found = RESULT.fullmatch(line) or MESSAGE.fullmatch(line)
                    if found:
                        yield board, name, found[1], found[2].replace(script, name) if script else found[2]

    def scripts(self):
        """The names of all scripts, as they stand behind `Running`."""
        return list(dict.fromkeys(script for part in self.boards.values() for script in part.scripts))

    def add(self, other):
        """Takes another report's lines behind its own, and adds up the counts."""
        self.tool = self.tool or other.tool
        self.head, self.tail = self.head or other.head, self.tail or other.tail
        for board, part in other.boards.items():
            own = self.boards.setdefault(board, Board())
            own.head = own.head or part.head
            for script, lines in part.scripts.items():
                own.scripts.setdefault(script, []).extend(lines)
            for name, number in part.counts.items():
                own.counts[name] = own.counts.get(name, 0) + number

    def text(self):
        """The report as it is written, with the scripts in the order of their names."""
        lines = [*self.head, f"\t\t=== {self.tool} tests ===", "", "Schedule of variations:", *[f"    {it}" for it in self.boards], ""]
        several = len(self.boards) > 1
        for board, part in self.boards.items():
            lines += [f"Running target {board}", *part.head]
            for script in sorted(part.scripts):
                lines += [f"Running {script} ..."] * bool(script) + part.scripts[script]
            if several:
                lines += ["", f"\t\t=== {self.tool} Summary for {board} ===", "", *count_lines(part.counts), ""]
        total = {}
        for part in self.boards.values():
            for name, number in part.counts.items():
                total[name] = total.get(name, 0) + number
        lines += [""] * (not several) + [f"\t\t=== {self.tool} Summary ===", "", *count_lines(total), *self.tail]
        return "".join(f"{it}\n" for it in lines)


def count_lines(counts):
    """The lines of a summary."""
    known = [it for it in COUNTED if counts.get(it)] + [it for it in counts if it not in COUNTED]
    return [f"# of {it}" + ("\t\t" if len(it) < 19 else "\t") + str(counts[it]) for it in known]


def read(path):
    """The report that stands in a file."""
    try:
        with open(path, encoding="latin-1", newline="\n") as file:
            reader = Reader(path)
            for line in file:
                reader.take(line[:-1] if line.endswith("\n") else line)
    except OSError as error:
        raise unread(path, error) from None
    return reader.whole()


class Reader:
    """A report, as far as it was read."""

    def __init__(self, path):
        self.path, self.report = path, Report()
        self.part = self.script = None
        # the counts that stand behind a summary's heading, and whether the last summary was reached
        self.counts, self.last = None, False

    def take(self, line):
        """Takes a line to where it belongs."""
        heading = HEADING.fullmatch(line)
        if heading:
            self.heading(*heading.groups())
        elif self.counts is not None:
            self.below_summary(line)
        elif self.report.tool is None:
            self.report.head.append(line)
        else:
            self.below_target(line)

    def heading(self, tool, what, board):
        """Takes a heading: the tests begin, or the summary of a board or of all."""
        report = self.report
        if what == "tests":
            if tool != (report.tool or tool):
                raise Fault(f"{self.path}: it has reports of two tools, {report.tool} and {tool}")
            report.tool, self.part, self.counts, self.last = tool, None, None, False
            return
        if report.tool is None:
            raise Fault(f"{self.path} is no report: it has a summary, but no line `=== TOOL tests ===` before that")
        trim(self.part, self.script)
        self.last = what == "Summary"
        # the last summary of several boards is the sum of theirs
        named = report.boards.get(board) if board else self.part if len(report.boards) == 1 else None
        self.counts = named.counts if named else {}
        self.script = None

    def below_summary(self, line):
        """Takes a line behind a summary's heading: a count, the next board, or what DejaGnu writes at the end."""
        count, target = COUNT.fullmatch(line), TARGET.fullmatch(line)
        if count:
            self.counts[count[1]] = self.counts.get(count[1], 0) + int(count[2])
        elif target and not self.last:
            self.below_target(line)
        elif self.last and (line or self.report.tail):
            self.report.tail.append(line)

    def below_target(self, line):
        """Takes a line of a board's part."""
        target, running = TARGET.fullmatch(line), RUNNING.fullmatch(line)
        if target:
            self.part, self.script, self.counts = self.report.boards.setdefault(target[1], Board()), None, None
        elif self.part is None:
            return
        elif running:
            self.script = self.part.scripts.setdefault(running[1], [])
        elif self.script is None:
            self.before_scripts(line)
        else:
            self.script.append(line)

    def before_scripts(self, line):
        """Takes a line before the first script: how the board was set up, or a result outside of all scripts."""
        if RESULT.fullmatch(line):
            self.script = self.part.scripts.setdefault("", [])
            self.script.append(line)
        elif line:
            self.part.head.append(line)

    def whole(self):
        """The report, once all of it was read."""
        if self.report.tool is None:
            raise Fault(f"{self.path} is no report: it has no line `=== TOOL tests ===`")
        if not self.last:
            raise Fault(f"{self.path} ends before its last summary: the run was not finished")
        return self.report


def trim(part, script):
    """Takes the empty line before a summary off the last script."""
    for lines in (script, part.head if part else None):
        if lines and lines[-1] == "":
            lines.pop()


def names_in_suite(report, other=None):
    """What each script of a report is called in its suite: `gdb.base/break.exp` for the path `/src/gdb/testsuite/gdb.base/break.exp`.

    A path is cut before the folder of the tool: the last one at which all paths of the report have a folder whose name begins with the
    tool's. Where another report has a name that ends so, that is the name.
    """
    given = report.scripts()
    cut = tool_folder([it for it in given if it.startswith(("/", "./", "../"))], report.tool)
    names = {it: "/".join(it.split("/")[cut:]) if it.startswith(("/", "./", "../")) else it for it in given}
    longer = {}
    for it in other or []:
        longer.setdefault(it.rpartition("/")[2], []).append(it)
    for raw, name in names.items():
        fitting = [it for it in longer.get(name.rpartition("/")[2], []) if it.endswith("/" + name)]
        if len(fitting) == 1:
            names[raw] = fitting[0]
    return names


def tool_folder(paths, tool):
    """At which part all of these paths have a folder of the tool, the last such one; the first part where there is none."""
    parts = [it.split("/")[:-1] for it in paths]
    depth = min(map(len, parts), default=0)
    fitting = [at for at in range(depth) if all(it[at].startswith(tool) for it in parts)]
    return fitting[-1] if fitting else 0
