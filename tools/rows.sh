#!/bin/sh
# Writes the session on which the gate runs the program, and the answers that it must give: crates/runtest/stdin and stdout, from the
# cases, rows and sessions of tests/tcl. It wants tclsh, which only puts the files together; no answer comes from it.
#
#     sh tools/rows.sh [STDIN STDOUT]     those of crates/runtest, if unsaid
set -e
top=$(cd "$(dirname "$0")/.." && pwd)
# in this order, so that a new case changes only its own lines of the session
order="words lists variables procedures control choices in_place long drawn profile worked results patterns boards"
command -v tclsh > /dev/null || { echo "make rows wants tclsh (Debian: apt-get install tcl)"; exit 1; }

cd "$top/tests/tcl"
for file in *.cases; do
    case " $order " in
    *" ${file%.cases} "*) ;;
    *)
        echo "tests/tcl/$file has no place in the session: name it in tools/rows.sh"
        exit 1
        ;;
    esac
done
files=""
for name in $order; do
    files="$files $name.cases"
done
# shellcheck disable=SC2086
tclsh session.tcl "${1:-$top/crates/runtest/stdin}" "${2:-$top/crates/runtest/stdout}" $files requests.rows
