#!/bin/sh
# Tries what a user sees of the program: tests/program/run.sh [PROGRAM], that which RUNTEST names or which was built (make) if
# unsaid. It prints what is not as it has to be, and ends with 1 where anything is not.
#
# *.cases: words of the command line, runs, faults and sessions, as rows of data that cases.py reads and its head explains.
# talk.py: a session that is answered line by line. bad_transcripts.py: transcripts that are cut short, or have other bytes.
# limits.py: files, selections and scripts at their limits. terminal.py: what a run tells on a terminal. children.py: that none
# is left. together.py: two runs at once into one folder. waits.py: what a transcript tells of the time that passed. reports.py:
# what becomes of a report that stands there already.
top=$(cd "$(dirname "$0")/../.." && pwd)
program=${1:-${RUNTEST:-$top/crates/runtest/out/runtest}}
here=$top/tests/program
[ -x "$program" ] || { echo "no program: $program"; exit 1; }
status=0
python3 "$here/cases.py" "$program" "$here"/*.cases || status=1
for part in talk bad_transcripts limits terminal children together waits reports; do
    python3 "$here/$part.py" "$program" || status=1
done
exit $status
