#!/usr/bin/env python3
"""Tries wrong bodies of crates/CRATE/wrong-bodies, many at a time: the prover has to refuse each edited function. The gate tries
some so (gate.txt).

    python3 tests/wrong-bodies/batch.py CRATE [NAME ..]     all of a crate, or these

It takes minutes where `rt must-fail` takes hours, since it checks the edited functions alone, and what they call, over the
libraries that the last run of the gate here left. Unedited, each of them was proved by that run, so what isn't proved here isn't
for the edit. Edits of one function, and of functions of which one calls the other, are tried in turn, since the prover leaves a
caller alone while what it calls has no proof; what it left for such a reason is tried again by itself. A wrong body that is
refused elsewhere than in the function that it edits (by a law of its type, say) is told as one that was let through, and of one
that edits no function nothing is told: `rt must-fail` tries such ones over the whole crate.

It writes a line for each. The status is 1 where one was not refused.
"""
import re
import shutil
import subprocess
import sys
import tempfile
from dataclasses import dataclass
from pathlib import Path

TOP = Path(__file__).resolve().parents[2]
sys.path.insert(0, str(TOP / "tools"))
from only import command, root_of

FUNCTION = r"(?m)^([ ]*)(?:pub(?:\([a-z]+\))? )?(?:const )?fn (\w+)"


@dataclass
class Edit:
    """A wrong body: the lines of a file that it changes, and the function that it edits."""

    name: str
    file: str
    lines: list
    function: str
    text: str

    def touches(self, other):
        """Whether one of two edited functions is the other or calls it."""
        called = rf"\b{other.short()}\b", rf"\b{self.short()}\b"
        return re.search(called[0], self.text) is not None or re.search(called[1], other.text) is not None

    def short(self):
        return self.function.rpartition("::")[2]


def type_at(text, place):
    """The type whose method stands at a place (`Any` for one of all types), with the trait that it is of, or with what a type with
    parameters is given."""
    found = ""
    for it in re.finditer(r"(?m)^(?:impl|trait)(<[^>]*>)?\s+([^{]*?)(?:\s+where|\s*\{)", text[:place]):
        trait, _, own = it.group(2).rpartition(" for ")
        name, _, given = own.partition("<")
        name = "Any" if name in re.findall(r"[<,]\s*(\w+)", it.group(1) or "") else name
        given = [each for each in given.rstrip(">").split(", ") if each and not each.startswith("'")]
        found = name + trait.partition("<")[0] + (f"+{'+'.join(given)}" if given and not it.group(1) else "")
    return found


def function_at(folder, file, place):
    """The function at a place of a file, by so much of its name as tells it from others, and its text; or nothing."""
    text = (folder / file).read_text()
    above = [it for it in re.finditer(FUNCTION, text) if it.start() <= place]
    if not above:
        return "", ""
    own = above[-1]
    behind = re.search(r"(?m)^[ ]*(?:///|#\[|(?:pub(?:\([a-z]+\))? )?(?:const )?fn )", text[own.end():])
    body = text[own.start():own.end() + behind.start()] if behind else text[own.start():]
    name = own.group(2)
    files = [it.read_text() for it in folder.rglob("src/**/*.rt")]
    if sum(it.group(2) == name for each in files for it in re.finditer(FUNCTION, each)) > 1:
        name = f"{type_at(text, own.start()) if own.group(1) else Path(file).stem}::{name}"
    return name, body


def read(folder, path):
    """A wrong body as its file has it. One that changes several lines is told by the first in a function."""
    file, lines = "", []
    for line in path.read_text().splitlines():
        word, _, rest = line.partition(" ")
        if word == "file:":
            file = rest
        elif word == "old:":
            lines.append([file, rest, ""])
        elif word == "new:":
            lines[-1][2] = rest
    for first, old, _ in (it for it in lines if it[0].endswith(".rt")):
        function, text = function_at(folder, first, (folder / first).read_text().index(old))
        if function:
            return Edit(path.stem, first, lines, function, text + "".join(it[2] for it in lines))
    return Edit(path.stem, file, lines, "", "")


def batches(edits):
    """The edits in as few batches as go by taking each into the first where it touches no other."""
    made = []
    for edit in edits:
        fit = next((it for it in made if not any(edit.touches(other) for other in it)), None)
        if fit is None:
            made.append([edit])
        else:
            fit.append(edit)
    return made


def edited(folder, scratch, batch):
    """Writes the crate with the edits of a batch into a folder."""
    for part in ("src", "specs", "proofs"):
        shutil.rmtree(scratch / part, ignore_errors=True)
        if (folder / part).exists():
            shutil.copytree(folder / part, scratch / part)
    for file in {file for edit in batch for file, _, _ in edit.lines}:
        text = (folder / file).read_text()
        lines = [(text.index(old), old, new) for edit in batch for at, old, new in edit.lines if at == file]
        for place, old, new in sorted(lines, reverse=True):
            text = text[:place] + new + text[place + len(old):]
        (scratch / file).write_text(text)


def verdict(said, function):
    line = next((it for it in said.splitlines() if re.match(rf"fn (\S*::)?{re.escape(function)}: ", it)), "")
    told = line.partition(f"{function}: ")[2]
    if told.startswith("proved"):
        return "LET THROUGH"
    if not told or "could not tell" in told or "it calls" in told and "did not prove" not in told:
        return f"UNDECIDED: {told or said.strip().splitlines()[-1]}"
    return "refused"


def bodies(crate, names):
    """These wrong bodies of a crate, or all that stand in its folder `wrong-bodies`."""
    folder = TOP / "crates" / crate
    kept = folder / "wrong-bodies"
    paths = [kept / f"{it}.edit" for it in names] or sorted(kept.glob("*.edit"))
    return [read(folder, it) for it in paths]


def tried(crate, edits):
    """Tries wrong bodies of a crate, and gives each with what came of it: `refused`, or why not."""
    folder = TOP / "crates" / crate
    for edit in (it for it in edits if not it.function):
        yield edit, "UNDECIDED: it edits no function"
    waiting = batches([it for it in edits if it.function])
    with tempfile.TemporaryDirectory(prefix="wrong-bodies.") as scratch:
        while waiting:
            batch = waiting.pop(0)
            edited(folder, Path(scratch), batch)
            words = command(crate, root_of(folder), [it.function for it in batch])
            said = subprocess.run(words, cwd=scratch, stdout=subprocess.PIPE, stderr=subprocess.STDOUT, text=True, check=False).stdout
            for edit in batch:
                told = verdict(said, edit.function)
                if told.startswith("UNDECIDED") and len(batch) > 1:
                    waiting.append([edit])
                else:
                    yield edit, told


def main():
    if len(sys.argv) < 2:
        sys.exit(__doc__)
    crate, names = sys.argv[1], sys.argv[2:]
    refused = True
    for edit, told in tried(crate, bodies(crate, names)):
        refused = refused and told == "refused"
        print(f"{crate}/{edit.name}: {told}", flush=True)
    sys.exit(0 if refused else 1)


if __name__ == "__main__":
    main()
