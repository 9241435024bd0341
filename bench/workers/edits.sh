#!/bin/sh
# Times 100,000 edits of one bench by two threads, 50,000 each: bench/workers/edits.sh
# It builds in a folder of its own, which it removes again: the program of crates/dg_trials with the first case of its benches
# alone, at that size, which takes some half an hour, since the program is proved. The libraries have to be built (make), and the
# kit's rt has to be on the path. The times are of whole runs.
set -e
top=$(cd "$(dirname "$0")/../.." && pwd)
work=$(mktemp -d)
trap 'rm -rf "$work"' EXIT
tar -C "$top" --exclude=out/incremental --exclude=must-fail -cf - crates crates.txt HANDLES | tar -C "$work" -xf -
trials="$work/crates/dg_trials"
sed -i 's/const EDITS: usize = 100;/const EDITS: usize = 50_000;/' "$trials/src/benches/edits.rt"
sed -i -e 's/Case::Edits => 200,/Case::Edits => 100_000,/' -e 's/^const CASES: .* = \[$/const CASES: [(\&str, Case); 1] = [/' \
    -e '/^    ("edits", Case::Edits),$/!{/^    ("[a-z0-9 ]*", Case::[A-Z].*),$/d}' "$trials/src/benches.rt"
cd "$trials"
"${RT:-rt}" run -- . benches > "$work/said" 2> "$work/log" || { cat "$work/log"; exit 1; }
cat "$work/said"
program=$(find out -maxdepth 1 -type f -perm -u+x | head -1)
for turn in 1 2 3; do
    begun=$(date +%s%N)
    "$program" . benches > "$work/said"
    ended=$(date +%s%N)
    echo "100,000 edits by two threads: $(((ended - begun) / 1000000)) ms"
done
