#!/bin/sh
# Times children that write much, by this program, by DejaGnu where it is installed (DEJAGNU, else /usr/bin/runtest), and by a C
# program that only reads: bench/floods/run.sh. A C compiler, perl and python3 have to be on the path.
set -e
top=$(cd "$(dirname "$0")/../.." && pwd)
program=${PROGRAM:-$top/crates/runtest/out/runtest}
dejagnu=${DEJAGNU:-/usr/bin/runtest}
work=$(mktemp -d)
trap 'rm -rf "$work"' EXIT
"${CC:-cc}" -O2 -o "$work/drain" "$top/bench/floods/drain.c"
if [ -x "$dejagnu" ]; then
    python3 "$top/bench/floods/floods.py" "$work/drain" "$program" "$dejagnu"
else
    python3 "$top/bench/floods/floods.py" "$work/drain" "$program"
fi
