#!/bin/sh
# Times the string and list commands of this repository and of tclsh on long texts in one run: bench/cmds/run.sh
# It builds in a folder of its own, which it removes again. The kit's rt and tclsh have to be on the path.
set -e
top=$(cd "$(dirname "$0")/../.." && pwd)
work=$(mktemp -d)
trap 'rm -rf "$work"' EXIT
mkdir -p "$work/crates/cmds_times/src" "$work/crates/cmds_times/specs" "$work/crates/cmds_times/proofs"
cp -a "$top/crates/dg_bytes" "$top/crates/dg_lists" "$top/crates/dg_words" "$top/crates/dg_expr" "$top/crates/dg_glob" "$top/crates/dg_cmds" "$work/crates"
cp "$top/bench/cmds/main.rt.in" "$work/crates/cmds_times/src/main.rt"
: > "$work/crates/cmds_times/specs/Lib.antt"
: > "$work/crates/cmds_times/proofs/Lib.antt"
grep -E '^dg_(bytes|lists|words|expr|glob|cmds):' "$top/crates.txt" > "$work/crates.txt"
echo 'cmds_times: dg_bytes dg_cmds' >> "$work/crates.txt"
echo 'name, microseconds a call, bytes of the value:'
cd "$work/crates/cmds_times"
"${RT:-rt}" run 2>/dev/null | grep -E '^[a-z_]+ [0-9]+ [0-9]+$'
echo 'tclsh:'
tclsh "$top/bench/cmds/cmds.tcl"
