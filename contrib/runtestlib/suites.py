"""Which tests a command line selects, by the runner's own rules (docs/LINE.md, docs/REPORT.md)."""
import os
import re

from . import Fault, unread

PART = r"(?!\.\.?(?:/|$))[A-Za-z0-9._+-]+"
NAME = re.compile(rf"(?=.{{1,255}}$){PART}(?:/{PART})*", re.ASCII)
ONE_PART = re.compile(rf"(?=.{{1,64}}$){PART}", re.ASCII)
VARIABLE = re.compile(r"[A-Za-z_][A-Za-z0-9_]{0,63}=", re.ASCII)
OTHER_FOLDERS = ("lib", "boards", "transcripts")
TRIPLETS = ("build", "host", "target")
MOST_FILES = 4096


def add_words(parser):
    """Adds the options of the runner that select tests, and its words."""
    parser.add_argument("--tool", default="t", help="the tool: its scripts stand in folders whose names begin with it (t)")
    parser.add_argument("--target_board", default="unix", metavar="BOARDS", help="the boards, in their order (unix)")
    parser.add_argument("--ignore", default="", metavar="SCRIPTS", help="scripts that are left out, by their name or its last part")
    for name in TRIPLETS:
        parser.add_argument(f"--{name}", metavar="TRIPLET", help="as the runner has it")
    parser.add_argument("words", nargs="*", metavar="SCRIPT.exp | VARIABLE=VALUE", help="the scripts; without one, all of the tool")


class Selection:
    """What the options and words of a command line select."""

    def __init__(self, given):
        self.tool, self.variables, self.only = given.tool, [], []
        self.boards, self.ignore = names_in(given.target_board), names_in(given.ignore)
        self.triplets = {it: getattr(given, it) for it in TRIPLETS if getattr(given, it)}
        for number, word in enumerate(given.words, 1):
            if VARIABLE.match(word):
                self.variables.append(word)
            elif word.endswith(".exp") and "=" not in word:
                self.only.append(word)
            else:
                raise Fault(f"bad word {number}: {word} is neither a script, which ends in .exp, nor VARIABLE=VALUE")
        self.check()

    def check(self):
        """Refuses what the runner calls a bad selection."""
        for name in [self.tool, *self.boards]:
            if not ONE_PART.fullmatch(name):
                raise Fault(f"bad selection: {name!r} is no name of a tool or a board")
        if not 1 <= len(self.boards) <= 16 or len(set(self.boards)) < len(self.boards):
            raise Fault("bad selection: there are no boards, over 16, or one of them twice")
        for name in [*self.only, *self.ignore]:
            if not NAME.fullmatch(name):
                raise Fault(f"bad selection: {name!r} is no name of a script")

    def takes(self, script):
        """Whether a script of the tool is selected."""
        names = {script, script.rpartition("/")[2]}
        return (not self.only or not names.isdisjoint(self.only)) and names.isdisjoint(self.ignore)

    def tests(self, srcdir):
        """The selected tests of a suite, as pairs of board and script, in the order of a report."""
        scripts = [it for it in scripts_of(srcdir, self.tool) if self.takes(it)]
        return [(board, script) for board in self.boards for script in scripts]

    def options(self, srcdir):
        """The words that say this selection to the runner, but for boards and scripts."""
        machines = [f"--{name}={value}" for name, value in self.triplets.items()]
        return [f"--tool={self.tool}", f"--srcdir={srcdir}", *machines, *self.variables]


def names_in(text):
    """Several names, separated by spaces or commas."""
    return [it for it in re.split("[ ,]", text) if it]


def scripts_of(srcdir, tool):
    """The scripts of a tool in a suite, by their names in it, in byte order."""
    if not os.path.isdir(srcdir):
        raise Fault(f"can't read {srcdir}: it is no folder")
    folders, files = listed(srcdir, "")
    folders = [it for it in folders if it.startswith(tool) and it not in OTHER_FOLDERS]
    scripts = []
    while folders:
        below, files = listed(srcdir, folders.pop())
        scripts += files
        folders += below
        if len(scripts) > MOST_FILES:
            raise Fault(f"bad file {os.path.join(srcdir, scripts[MOST_FILES])}: a suite has at most {MOST_FILES} files")
    for it in scripts:
        if not NAME.fullmatch(it):
            raise Fault(f"bad file {os.path.join(srcdir, it)}: its name is none of a suite's")
    return sorted(scripts)


def listed(srcdir, folder):
    """The names of the folders in a folder of a suite, and of its files that end in `.exp`. Links are followed."""
    folders, files = [], []
    path = os.path.join(srcdir, folder)
    try:
        with os.scandir(path) as found:
            for it in found:
                name = f"{folder}/{it.name}" if folder else it.name
                if it.is_dir():
                    folders.append(name)
                elif name.endswith(".exp"):
                    files.append(name)
    except OSError as error:
        raise unread(path, error) from None
    return folders, files
