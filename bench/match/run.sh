#!/bin/sh
# Times this repository's buffer and Expect in one run: bench/match/run.sh
# It builds in a folder of its own, which it removes again. The kit's rt, tclsh and expect have to be on the path.
set -e
top=$(cd "$(dirname "$0")/../.." && pwd)
work=$(mktemp -d)
trap 'rm -rf "$work"' EXIT
mkdir -p "$work/crates/match_times/src" "$work/crates/match_times/specs" "$work/crates/match_times/proofs"
cp -a "$top/crates/dg_bytes" "$top/crates/dg_glob" "$top/crates/dg_match" "$work/crates"
cp "$top/bench/match/main.rt.in" "$work/crates/match_times/src/main.rt"
: > "$work/crates/match_times/specs/Lib.antt"
: > "$work/crates/match_times/proofs/Lib.antt"
grep -E '^dg_(bytes|glob|match):' "$top/crates.txt" > "$work/crates.txt"
echo 'match_times: dg_bytes dg_match' >> "$work/crates.txt"
echo 'name, pieces of 64 bytes at once, match_max, milliseconds for 10 MB, bytes compared, hits:'
cd "$work/crates/match_times"
"${RT:-rt}" run 2>/dev/null | grep -E '^[a-z_]+ [0-9]+ [0-9]+ [0-9]+ [0-9]+ [0-9]+$'
echo 'expect, name, pieces, match_max and milliseconds:'
expect "$top/bench/match/match.exp"
