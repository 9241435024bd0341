#!/usr/bin/env python3
"""Runs `duplicates` over this repository's sources, which it knows by no ending of their own.

    python3 tools/duplicates.py [PART ..] [OPTION ..]      PART: src, specs or proofs; all three if none is named

`duplicates` lists pairs of places that share six or more lines. It reads .rs and .hs, and neither .rt nor .antt: so the files are
copied to a scratch folder under these endings, and the names in what it says are turned back. Options go to `duplicates`
(`--most 40`, `--min-lines 10`, `--seconds 120`), but for --repo, --change and --base, which would ask git of the scratch folder.
"""
import re
import shutil
import subprocess
import sys
import tempfile
from pathlib import Path

TOP = Path(__file__).resolve().parents[1]
PARTS = ("src", "specs", "proofs")
ENDINGS = {".rt": ".rs", ".antt": ".hs"}


def there(path):
    """The name that a file of the repository has in the scratch folder."""
    return path.with_suffix(ENDINGS[path.suffix])


def back(said):
    """What `duplicates` says, with the names that its files have here."""
    for own, other in ENDINGS.items():
        said = re.sub(rf"(?<=\w){re.escape(other)}(?=:\d)", own, said)
    return said


def sources(top, parts):
    """The sources in these parts of all crates, below the repository's top."""
    files = (it for part in parts for it in top.glob(f"crates/*/{part}/**/*") if it.is_file() and it.suffix in ENDINGS)
    return sorted(it.relative_to(top) for it in files)


def words_of(given):
    """The parts and the options that were given."""
    parts = []
    while given and given[0] in PARTS:
        parts.append(given.pop(0))
    refused = next((it for it in given if it in ("--repo", "--change", "--base")), None)
    if refused or given and not given[0].startswith("--"):
        sys.exit(f"tools/duplicates.py does not take {refused or given[0]}\n\n{__doc__}")
    return parts or PARTS, given


def main(given):
    parts, options = words_of(given)
    if not shutil.which("duplicates"):
        sys.exit("there is no command `duplicates` on the path")
    with tempfile.TemporaryDirectory() as scratch:
        for it in sources(TOP, parts):
            to = Path(scratch) / there(it)
            to.parent.mkdir(parents=True, exist_ok=True)
            shutil.copyfile(TOP / it, to)
        ran = subprocess.run(["duplicates", "--repo", scratch, *options], stdout=subprocess.PIPE, text=True, check=False)
    print(back(ran.stdout), end="")
    return ran.returncode


if __name__ == "__main__":
    sys.exit(main(sys.argv[1:]))
