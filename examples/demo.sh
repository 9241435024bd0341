#!/bin/sh
# Runs the suite for sed with children, and judges it again by what these did: examples/demo.sh. It shows both reports, and how
# often each run started sed: the second one never. Nothing here changes by it. The program has to be built (make), or named by
# RUNTEST. No other program is on the path of the runs than a sed that writes down that it was started.
set -e
top=$(cd "$(dirname "$0")/.." && pwd)
program=${RUNTEST:-$top/crates/runtest/out/runtest}
runtest=$(command -v "$program") || { echo "$program is not there: make builds it"; exit 1; }
work=$(mktemp -d)
trap 'rm -rf "$work"' EXIT
cp -r "$top/examples/sed" "$work/suite"
rm -r "$work/suite/transcripts" "$work/suite/sed.sum"
mkdir "$work/bin"
printf '#!/bin/sh\necho sed >> "%s/started"\nexec "%s" "$@"\n' "$work" "$(command -v sed)" > "$work/bin/sed"
chmod +x "$work/bin/sed"

# judge WORDS FILE: the report, which is kept as the file, and how often sed was started.
judge() {
    echo
    echo "== runtest --tool sed --srcdir examples/sed --outdir OUT$1"
    echo
    : > "$work/started"
    # shellcheck disable=SC2086
    PATH=$work/bin "$runtest" --tool sed --srcdir "$work/suite" --outdir "$work/out" $1 > "$work/$2"
    cmp "$work/$2" "$work/out/sed.sum"
    cat "$work/$2"
    echo
    echo "== $(grep -c '^Running .*\.exp' "$work/$2") scripts judged, sed started $(grep -c '' "$work/started") times"
}

judge "" ran.sum
judge " --rejudge" judged.sum
[ ! -s "$work/started" ] || { echo "the second run started sed"; exit 1; }
cmp "$work/ran.sum" "$work/judged.sum"
echo
echo "The second run started nothing: it judged by the $(find "$work/out/transcripts" -name '*.tr' | grep -c '') transcripts that the first one wrote to OUT/transcripts."
echo "Both reports are the same bytes, OUT/sed.sum."
