#!/bin/sh
# Times 100 scripts that talk 20 rounds with cat each, live and rejudged, beside a C program that does the same: bench/live/run.sh [RUNS]
# The program has to be built (make); it needs a C compiler and python3.
set -e
top=$(cd "$(dirname "$0")/../.." && pwd)
work=$(mktemp -d)
trap 'rm -rf "$work"' EXIT
"${CC:-cc}" -O2 -o "$work/loop" "$top/bench/live/loop.c"
python3 "$top/bench/live/live.py" "${RUNTEST:-$top/crates/runtest/out/runtest}" "$work/loop" "${1:-15}"
