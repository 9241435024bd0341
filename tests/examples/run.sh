#!/bin/sh
# Judges the example suites by their stored transcripts: tests/examples/run.sh [live]. Each report has to be the stored one, to the
# byte. With `live` each is run with its children before that, and has to give the same report; a suite whose programs are not all
# on the path is not, and that is said. The program has to be built (make, make quick), or named by RUNTEST.
set -e
top=$(cd "$(dirname "$0")/../.." && pwd)
runtest=${RUNTEST:-$top/crates/runtest/out/runtest}
work=$(mktemp -d)
trap 'rm -rf "$work"' EXIT

# judge TOOL BOARDS OPTION..: the report of the stored suite, where it is the stored one.
judge() {
    tool=$1
    boards=$2
    shift 2
    "$runtest" --tool "$tool" --srcdir "$work/$tool" --outdir "$work/$tool" --target_board "$boards" "$@" > "$work/said" ||
        { cat "$work/said"; exit 1; }
    cmp "$work/said" "$top/examples/$tool/$tool.sum"
    cmp "$work/$tool/$tool.sum" "$top/examples/$tool/$tool.sum"
    echo "$tool $*: $(grep -c '^[XK]*\(PASS\|FAIL\)' "$work/said") results, as they are stored"
}

# there PROGRAM..: whether all of these are on the path; else it says which one isn't.
there() {
    for program; do
        command -v "$program" > /dev/null || { echo "$tool: not run with children, since there is no $program here"; return 1; }
    done
}

for tool in sh awk sed terminal; do
    cp -r "$top/examples/$tool" "$work/$tool"
    boards=unix
    programs=$tool
    case $tool in
    sh)
        boards="unix strict"
        programs="sh tr"
        ;;
    terminal) programs="script stty env sh" ;;
    esac
    judge "$tool" "$boards" --rejudge
    # shellcheck disable=SC2086
    if [ "$1" = live ] && there $programs; then
        rm -rf "${work:?}/$tool/transcripts"
        judge "$tool" "$boards"
        judge "$tool" "$boards" --rejudge
    fi
done
