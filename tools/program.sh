#!/bin/sh
# Prints which program is to be run: the one that RUNTEST names, else the proved one, else the quick one, which is built where there is
# none or a source has changed since. On standard error it says which it is.
set -e
top=$(cd "$(dirname "$0")/.." && pwd)
proved=$top/crates/runtest/out/runtest
if [ -n "$RUNTEST" ]; then
    echo "== the program is $RUNTEST, as RUNTEST says" >&2
    echo "$RUNTEST"
elif [ -x "$proved" ]; then
    newer=""
    [ -z "$(find "$top/crates" -name out -prune -o -name '*.rt' -newer "$proved" -print | head -n 1)" ] || newer=" (sources have changed since: make builds it anew)"
    echo "== the program is the proved one, crates/runtest/out/runtest$newer" >&2
    echo "$proved"
else
    echo "== there is no proved program yet (make, about an hour), so this takes the quick one, which is not proved" >&2
    python3 "$top/tools/quick.py" "$top" >&2
    echo "$top/out/quick/runtest"
fi
