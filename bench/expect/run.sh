#!/bin/sh
# Times evaluations over transcripts, and beside them Expect over a child that writes the same bytes: bench/expect/run.sh
# The program has to be built (make), python3 on the path, and for the comparison expect.
set -e
top=$(cd "$(dirname "$0")/../.." && pwd)
exec python3 "$top/bench/expect/replay.py" "${RUNTEST:-$top/crates/runtest/out/runtest}"
