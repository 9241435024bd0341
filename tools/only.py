#!/usr/bin/env python3
"""Checks some functions of a crate, and what they call in it, over the libraries that the last run of the gate here left, in a
minute to a few. (`rt check` in a clone that has nothing of its own first proves all that lies below.)

    python3 tools/only.py CRATE FUNCTION ..     as: dg_forms dg_forms::names::find_builtin

What is checked is kept in the crate's folder `out/only`. The last line is `only=N proved=M`.
"""
import subprocess
import sys
from pathlib import Path

TOP = Path(__file__).resolve().parents[1]


def kit():
    """Where the toolchain is."""
    return Path(subprocess.run(["rt", "doc"], stdout=subprocess.PIPE, text=True, check=True).stdout.split()[0]).parent


def libraries():
    """The crates, each with the libraries that it stands on."""
    lines = (line.partition(":") for line in (TOP / "crates.txt").read_text().splitlines() if not line.startswith("#"))
    return {name.split()[0]: below.split() for name, _, below in lines if name.strip()}


def rlib(name, home):
    own = TOP / f"crates/{name}/out/rlib/{name}.rlib"
    return own if own.exists() else home / f"rlibs/{name}.rlib"


def command(crate, root, functions):
    """The words that check functions of a crate whose first file is `root`, where they run."""
    home, below = kit(), libraries()
    words = [home / "bin/rattle", "check", "--crate-name", crate, root, "-L", f"dependency={home / 'rlibs'}"]
    for name in ["std", *below[crate]]:
        words += ["--extern", f"{name}={rlib(name, home)}"]
    for name in below:
        words += ["-L", f"dependency={TOP}/crates/{name}/out/rlib"]
    words += ["--antt-project", home / "rattle/logic/antt-project.json", "--logic-built", home / "logic_built"]
    words += ["--incremental", "out/only", "--jobs", "1"]
    for function in functions:
        words += ["--only", function]
    return [str(it) for it in words]


def root_of(folder):
    return "src/lib.rt" if (folder / "src/lib.rt").exists() else "src/main.rt"


def main():
    if len(sys.argv) < 3:
        sys.exit(__doc__)
    folder = TOP / "crates" / sys.argv[1]
    (folder / "out").mkdir(exist_ok=True)
    words = command(sys.argv[1], root_of(folder), sys.argv[2:])
    sys.exit(subprocess.run(words, cwd=folder, check=False).returncode)


if __name__ == "__main__":
    main()
