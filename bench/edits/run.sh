#!/bin/sh
# Times one edit and the report behind it, in sessions of 400 and of 4,000 scripts: bench/edits/run.sh
# The program has to be built (make).
set -e
top=$(cd "$(dirname "$0")/../.." && pwd)
exec python3 "$top/bench/edits/edits.py" "${RUNTEST:-$top/crates/runtest/out/runtest}"
