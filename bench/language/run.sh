#!/bin/sh
# Times loops and a suite of small scripts by this repository's program and by tclsh in one run: bench/language/run.sh
# The program has to be built (make), and tclsh on the path.
set -e
top=$(cd "$(dirname "$0")/../.." && pwd)
exec tclsh "$top/bench/language/language.tcl" "${RUNTEST:-$top/crates/runtest/out/runtest}"
