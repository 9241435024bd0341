#!/bin/sh
# Times the reading of long texts by this repository and by tclsh in one run: bench/words/run.sh
# It builds in a folder of its own, which it removes again. The kit's rt and tclsh have to be on the path.
set -e
top=$(cd "$(dirname "$0")/../.." && pwd)
work=$(mktemp -d)
trap 'rm -rf "$work"' EXIT
mkdir -p "$work/crates/words_times/src" "$work/crates/words_times/specs" "$work/crates/words_times/proofs"
cp -r "$top/crates/dg_bytes" "$top/crates/dg_lists" "$top/crates/dg_words" "$work/crates"
cp "$top/bench/words/main.rt.in" "$work/crates/words_times/src/main.rt"
: > "$work/crates/words_times/specs/Lib.antt"
: > "$work/crates/words_times/proofs/Lib.antt"
grep -E '^dg_(bytes|lists|words):' "$top/crates.txt" > "$work/crates.txt"
echo 'words_times: dg_lists dg_words' >> "$work/crates.txt"
echo 'text, as what, microseconds a call, whether it is read:'
cd "$work/crates/words_times"
"${RT:-rt}" run 2>/dev/null | grep -E '^[a-z_]+ [a-z]+ [0-9]+ (true|false)$'
echo 'tclsh:'
tclsh "$top/bench/words/words.tcl"
