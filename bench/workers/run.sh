#!/bin/sh
# Times 1, 2 and 4 workers that judge 4,000 scripts of 5,000 steps again by their transcripts: bench/workers/run.sh [SCRIPTS]
# The program has to be built (make). The times are of whole runs: the folders are read and the report is written in each.
set -e
top=$(cd "$(dirname "$0")/../.." && pwd)
exec python3 "$top/bench/workers/workers.py" "${RUNTEST:-$top/crates/runtest/out/runtest}" "${1:-4000}"
