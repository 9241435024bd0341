#!/bin/sh
# Times this repository's globs and those of tclsh in one run: bench/glob/run.sh
# It builds in a folder of its own, which it removes again. The kit's rt and tclsh have to be on the path.
set -e
top=$(cd "$(dirname "$0")/../.." && pwd)
work=$(mktemp -d)
trap 'rm -rf "$work"' EXIT
mkdir -p "$work/crates/glob_times/src" "$work/crates/glob_times/specs" "$work/crates/glob_times/proofs"
cp -r "$top/crates/dg_glob" "$work/crates/dg_glob"
cp "$top/bench/glob/main.rt.in" "$work/crates/glob_times/src/main.rt"
: > "$work/crates/glob_times/specs/Lib.antt"
: > "$work/crates/glob_times/proofs/Lib.antt"
printf 'dg_glob: memchr\nglob_times: dg_glob\n' > "$work/crates.txt"
echo 'name, nanoseconds a call, matches:'
cd "$work/crates/glob_times"
"${RT:-rt}" run 2>/dev/null | grep -E '^[a-z_]+ [0-9]+ [0-9]+$'
echo 'tclsh:'
tclsh "$top/bench/glob/glob.tcl"
