"""Tries rows of data on the program, and prints what differs: cases.py PROGRAM FILE.cases ..

A case begins with a line `=== NAME`. It has an empty folder, in which its lines are done in turn; `#` begins a comment. The text
that a line speaks of stands in the lines behind it, each after a `|`. Everywhere `{N*X}` is N times the text X, `{here}` the
folder, `\\xHH` a byte.

    file PATH             a file has this text
    program PATH          so has a program; those in the folder `bin` are found first by what is run
    fill PATH BYTES       a file has so many bytes, all line feeds
    scripts FOLDER COUNT BYTES
                          there are so many scripts, from 0001.exp on, each of so many bytes, all line feeds
    folder PATH           there is a folder, and those above it
    link PATH TARGET      there is a link
    mode PATH OCTAL       a file or a folder has this mode; for root, who may read all the same, the case is left out
    remove PATH           a file or a folder with all in it is there no more

    run WORD..            the program is run with these words, quoted as in a shell
    in                    its standard input has this text, where `hex(X)` is X and a line feed in hexadecimal; without it none
    from PATH, to PATH    its standard input is this file; its standard output goes to this one
    room BYTES            it has so many bytes of memory, and of addresses for it
    out, err              what it has to write is this text; without it nothing
    out tells, err tells  it has to write each of these texts somewhere
    out lines             these are the lines of its report that name a board or a script, or have a result or a message
    out any               whatever it writes
    out before            the bytes that the run before wrote
    status N              its status; 0 if unsaid
    fault TEXT            the same as the status 2 and the error text `runtest: TEXT`
    misread TEXT          the same as the status 2 and an error text that tells `runtest: bad command line` and this

    left PATH             the file then has this text
    left PATH out         the file then has the bytes that the last run wrote to its standard output
    holds FOLDER          the folder then has these files, at any depth, by their names in the folder and in order, and no others
"""
import os
import pathlib
import re
import resource
import shlex
import shutil
import subprocess
import sys
import tempfile

REPORTED = re.compile(rb"(Running|[A-Z]+:) .*")
# how long a run may take, in seconds
LONGEST = 300


class Wrong(Exception):
    """A line of a case that can't be done."""


class LeftOut(Exception):
    """A case that says nothing where it is tried."""


def bytes_of(text, here):
    """A text of a case, with what stands for other bytes written out."""
    text = re.sub(r"\{(\d+)\*([^}]*)\}", lambda it: int(it[1]) * it[2], text).replace("{here}", here)
    return re.sub(rb"\\x([0-9a-fA-F]{2})", lambda it: bytes.fromhex(it[1].decode()), text.encode("latin-1"))


def input_of(text, here):
    """The lines of a session, with texts written as their digits."""
    digits = lambda it: (bytes_of(it[1], here) + b"\n").hex()
    return bytes_of(re.sub(r"hex\((.*)\)", digits, text), here)


def difference(what, wanted, given):
    """Both texts, told apart line by line."""
    if wanted == given:
        return []
    rows = [f"  {what} is not what it has to be:"]
    pairs = zip(lines_of(wanted), lines_of(given))
    same = 0
    for ours, theirs in pairs:
        if ours != theirs:
            break
        same += 1
    rows += [f"    wanted, from line {same + 1}: {row!r}" for row in lines_of(wanted)[same:][:4]] or ["    wanted: no more"]
    rows += [f"    given, from line {same + 1}:  {row!r}" for row in lines_of(given)[same:][:4]] or ["    given: no more"]
    return rows


def lines_of(text):
    return text.splitlines(keepends=True)


class Case:
    """The lines of a case, each with its words and its text, in a folder."""

    def __init__(self, name, steps, program, here):
        self.name, self.steps, self.program, self.here = name, steps, program, here
        self.faults, self.run, self.written = [], None, b""

    def path(self, name):
        return os.path.join(os.fsencode(self.here), bytes_of(name, self.here))

    def text(self, lines):
        return bytes_of("".join(f"{line}\n" for line in lines), self.here)

    def place(self, name):
        """The path of what is about to stand there, with the folders above it."""
        path = self.path(name)
        os.makedirs(os.path.dirname(path), exist_ok=True)
        return path

    def go(self):
        for word, rest, lines in self.steps:
            if word in RUN_LINES:
                if self.run is None:
                    raise Wrong(f"{word} without a run")
                self.run.append((word, rest, lines))
                continue
            self.end_run()
            if word == "run":
                self.run = [(word, rest, lines)]
            elif word in STEPS:
                STEPS[word](self, rest, lines)
            else:
                raise Wrong(f"no such line: {word}")
        self.end_run()
        return self.faults

    def end_run(self):
        """Runs the program as the lines behind `run` say."""
        if self.run is None:
            return
        said = {word: (rest, lines) for word, rest, lines in self.run}
        self.run = None
        words = [bytes_of(word, self.here) for word in shlex.split(said["run"][0])]
        path = f"{self.here}/bin:/usr/local/bin:/usr/bin:/bin"
        text = input_of("".join(f"{line}\n" for line in said["in"][1]), self.here) if "in" in said else b""
        source = {"stdin": os.open(self.path(said["from"][0]), os.O_RDONLY)} if "from" in said else {"input": text}
        target = open(self.path(said["to"][0]), "wb") if "to" in said else subprocess.PIPE
        room = int(said["room"][0]) if "room" in said else 0
        narrow = lambda: resource.setrlimit(resource.RLIMIT_AS, (room, room))
        try:
            ended = subprocess.run(
                [self.program, *words], cwd=self.here, env={"PATH": path, "LC_ALL": "C"}, timeout=LONGEST, check=False,
                stdout=target, stderr=subprocess.PIPE, preexec_fn=narrow if room else None, **source,
            )
        except subprocess.TimeoutExpired:
            self.faults += [f"runtest {said['run'][0]}", f"  it has not ended after {LONGEST} seconds"]
            return
        found = self.look(said, ended)
        self.written = ended.stdout or b""
        if found:
            self.faults += [f"runtest {said['run'][0]}", *found]

    def look(self, said, ended):
        """What of an ended run is not as it has to be."""
        error, status = said.get("err", ("", [])), 0
        if "fault" in said:
            error, status = ("", [f"runtest: {said['fault'][0]}"]), 2
        if "misread" in said:
            error, status = ("tells", ["runtest: bad command line\\x0a", said["misread"][0]]), 2
        status = int(said["status"][0]) if "status" in said else status
        found = self.compare("standard output", said.get("out", ("", [])), ended.stdout or b"")
        found += self.compare("standard error", error, ended.stderr)
        if ended.returncode != status:
            found.append(f"  the status is {ended.returncode}, not {status}; standard error: {ended.stderr!r}")
        return found

    def compare(self, what, wanted, given):
        kind, lines = wanted
        if kind == "any":
            return []
        if kind == "before":
            return difference(what, self.written, given)
        if kind == "tells":
            missing = [text for text in lines if bytes_of(text, self.here) not in given]
            return [f"  {what} doesn't tell {text!r}: {given!r}" for text in missing]
        if kind == "lines":
            given = b"".join(line for line in lines_of(given) if REPORTED.fullmatch(line.rstrip(b"\n")))
        elif kind:
            raise Wrong(f"{what} {kind}")
        return difference(what, self.text(lines), given)

    def left(self, rest, lines):
        name, _, kind = rest.partition(" ")
        try:
            given = pathlib.Path(os.fsdecode(self.path(name))).read_bytes()
        except OSError as error:
            self.faults.append(f"  {name} can't be read: {error}")
            return
        self.faults += difference(name, self.written if kind == "out" else self.text(lines), given)

    def holds(self, folder, lines):
        top = self.path(folder)
        given = sorted(
            os.path.relpath(os.path.join(place, name), top) for place, _, names in os.walk(top) for name in names
        )
        self.faults += difference(folder, self.text(lines), b"".join(name + b"\n" for name in given))

    def file(self, name, lines, mode=0o644):
        path = self.place(name)
        with open(path, "wb") as file:
            file.write(self.text(lines))
        os.chmod(path, mode)

    def fill(self, rest):
        name, size = rest.split()
        with open(self.place(name), "wb") as file:
            file.write(int(size) * b"\n")

    def scripts(self, rest):
        folder, count, size = rest.split()
        for number in range(1, int(count) + 1):
            self.fill(f"{folder}/{number:04}.exp {size}")

    def link(self, rest):
        name, target = rest.split()
        os.symlink(bytes_of(target, self.here), self.place(name))

    def mode(self, rest):
        if os.geteuid() == 0:
            raise LeftOut
        name, octal = rest.split()
        os.chmod(self.path(name), int(octal, 8))

    def remove(self, name):
        path = self.path(name)
        if os.path.isdir(path):
            shutil.rmtree(path)
        else:
            os.remove(path)


RUN_LINES = {"in", "from", "to", "room", "out", "err", "status", "fault", "misread"}
STEPS = {
    "file": Case.file,
    "program": lambda case, name, lines: case.file(name, lines, 0o755),
    "fill": lambda case, rest, _: case.fill(rest),
    "scripts": lambda case, rest, _: case.scripts(rest),
    "folder": lambda case, name, _: os.makedirs(case.path(name)),
    "link": lambda case, rest, _: case.link(rest),
    "mode": lambda case, rest, _: case.mode(rest),
    "remove": lambda case, name, _: case.remove(name),
    "left": Case.left,
    "holds": Case.holds,
}


def read_cases(path):
    """The cases of a file: each one's name, and its lines with their texts."""
    cases, steps = [], None
    with open(path, encoding="latin-1", newline="\n") as file:
        for number, line in enumerate(file.read().split("\n"), 1):
            word, _, rest = line.partition(" ")
            if line.startswith("=== "):
                steps = []
                cases.append((line[4:], steps))
            elif line.startswith("|") and steps:
                steps[-1][2].append(line[1:])
            elif line and not line.startswith("#"):
                if steps is None or line.startswith("|"):
                    raise SystemExit(f"{path}:{number}: {line!r} stands nowhere")
                steps.append((word, rest, []))
    return cases


def remove_folder(folder):
    """Whatever its modes."""
    for place, _, _ in os.walk(folder):
        os.chmod(place, 0o700)
    shutil.rmtree(folder)


def try_file(program, path):
    """How many of its cases fail."""
    failed = left_out = 0
    cases = read_cases(path)
    for name, steps in cases:
        here = tempfile.mkdtemp()
        try:
            faults = Case(name, steps, program, here).go()
        except LeftOut:
            left_out += 1
            continue
        except Wrong as wrong:
            faults = [f"  {wrong}"]
        finally:
            remove_folder(here)
        if faults:
            failed += 1
            print(f"{os.path.basename(path)}: {name}", *faults, sep="\n")
    said = f", {left_out} left out, for root" if left_out else ""
    print(f"{os.path.basename(path)}: {len(cases)} cases, {failed} wrong{said}")
    return failed


def main():
    program, *paths = sys.argv[1:]
    failed = sum(try_file(os.path.abspath(program), path) for path in paths)
    sys.exit(1 if failed else 0)


if __name__ == "__main__":
    main()
