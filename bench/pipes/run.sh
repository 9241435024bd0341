#!/bin/sh
# Times round trips with cat, and a flood, by this repository's gate and by a C program over pipes, in one run: bench/pipes/run.sh [ROUNDS]
# It builds the program dg_trials where that isn't built yet. A C compiler, and for that the kit's rt, have to be on the path.
set -e
top=$(cd "$(dirname "$0")/../.." && pwd)
trials=${TRIALS:-$top/crates/dg_trials/out/dg_trials}
rounds=${1:-20000}
bytes=1073741824
work=$(mktemp -d)
trap 'rm -rf "$work"' EXIT
[ -x "$trials" ] || (cd "$top/crates/dg_trials" && "${RT:-rt}" run -- "$top/crates/dg_trials/data" jobs > /dev/null)
"${CC:-cc}" -O2 -o "$work/loop" "$top/bench/pipes/loop.c"
mkdir "$work/talk" "$work/flood"
printf 'spawn~1~cat\tstarted\ntalk~1~%s\t%s answers\nclose~1\tclosed\nwait~1\texited 0\n' "$rounds" "$rounds" > "$work/talk/pipes.rows"
printf 'spawn~1~head~-c~%s~/dev/zero\tstarted\ndrain~1\t%s bytes, end\nclose~1\tclosed\nwait~1\texited 0\n' "$bytes" "$bytes" > "$work/flood/pipes.rows"

# told FOLDER: what the rows of this folder come to, up to the first one that gives something else.
told() {
    "$trials" "$1" pipes | sed '/gives/q'
}

# timed NAME ANSWER CMD..: the milliseconds that CMD takes, which has to write a line with the answer.
timed() {
    name=$1
    answer=$2
    shift 2
    start=$(date +%s%N)
    "$@" > "$work/out"
    end=$(date +%s%N)
    grep -q "^$answer" "$work/out" || { echo "$name: no $answer" >&2; exit 1; }
    echo "$name $(((end - start) / 1000000)) ms"
}
for _ in 1 2 3; do
    timed "C: $rounds rounds" "$rounds answers" "$work/loop" "$rounds"
    timed "gate: $rounds rounds" "pipes.rows: 4 rows" told "$work/talk"
    timed "head | wc: $bytes bytes" "$bytes" sh -c "head -c $bytes /dev/zero | wc -c"
    timed "gate: $bytes bytes" "pipes.rows: 4 rows" told "$work/flood"
done
