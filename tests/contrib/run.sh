#!/bin/sh
# Tries the programs of contrib: tests/contrib/run.sh [PROGRAM], that which RUNTEST names or which was built (make) if unsaid. It
# prints what is wrong, and ends with 1 where anything is. It wants Python 3 and the program. What wants xmllint, or DejaGnu and
# Expect, is left out where these are not there, and it says so.
#
# reports.py: runtest-compare, runtest-merge and runtest-junit, on the reports in data, which were written by hand, as what has to
# come was. lists.py: runtest-list beside the program. show.py: runtest-show, and broken transcripts beside the program. racy.py:
# runtest-racy on races that were planted, and on examples. installed.sh: all of them from a folder that
# they are installed to.
top=$(cd "$(dirname "$0")/../.." && pwd)
program=${1:-${RUNTEST:-$top/crates/runtest/out/runtest}}
here=$top/tests/contrib
[ -x "$program" ] || { echo "no program: $program"; exit 1; }
program=$(cd "$(dirname "$program")" && pwd)/$(basename "$program")
status=0
for part in reports lists show; do
    python3 "$here/$part.py" "$program" || status=1
done
# All parts but the 200 dialogues, which take their time: racy.py PROGRAM dialogues.
python3 "$here/racy.py" "$program" cuts planted errors faults examples || status=1
sh "$here/installed.sh" || status=1
exit $status
