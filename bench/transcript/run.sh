#!/bin/sh
# Times the reading and the writing of a long transcript: bench/transcript/run.sh
# It builds in a folder of its own, which it removes again. The kit's rt has to be on the path.
set -e
top=$(cd "$(dirname "$0")/../.." && pwd)
work=$(mktemp -d)
trap 'rm -rf "$work"' EXIT
mkdir -p "$work/crates/transcript_times/src" "$work/crates/transcript_times/specs" "$work/crates/transcript_times/proofs"
cp -r "$top/crates/dg_bytes" "$top/crates/dg_transcript" "$work/crates"
cp "$top/bench/transcript/main.rt.in" "$work/crates/transcript_times/src/main.rt"
: > "$work/crates/transcript_times/specs/Lib.antt"
: > "$work/crates/transcript_times/proofs/Lib.antt"
grep -E '^dg_(bytes|transcript):' "$top/crates.txt" > "$work/crates.txt"
echo 'transcript_times: dg_transcript' >> "$work/crates.txt"
echo 'name, ms, MB of the chunks a second:'
cd "$work/crates/transcript_times"
"${RT:-rt}" run 2>/dev/null | grep -E '^[a-z]+ [0-9]+ [0-9]+$'
