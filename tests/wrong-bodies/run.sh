#!/bin/sh
# Tries the wrong bodies that `rt ci` leaves out (crates/NAME/wrong-bodies), each over its whole crate: the prover has to
# refuse each. Those of `rt ci` stand beside them, in crates/NAME/must-fail. Each is tried over what an earlier check of its
# crate kept, in seconds to a minute, those of runtest in three to five; where nothing is kept, the crate is proved first.
#
#   sh tests/wrong-bodies/run.sh [NAME..]     all crates that have some, or these
set -e
top=$(cd "$(dirname "$0")/../.." && pwd)
rt=${RT:-rt}
scratch=$(mktemp -d "${TMPDIR:-/tmp}/wrong-bodies.XXXXXX")
trap 'rm -rf "$scratch"' EXIT

tar -C "$top" --exclude=out/incremental -cf - crates crates.txt HANDLES | tar -C "$scratch" -xf -
cd "$scratch"
failed=0
for folder in "$top"/crates/*/wrong-bodies; do
    name=$(basename "$(dirname "$folder")")
    case " ${*:-$name} " in
    *" $name "*) ;;
    *) continue ;;
    esac
    if [ -d "$top/crates/$name/out/incremental" ]; then
        cp -R "$top/crates/$name/out/incremental" "crates/$name/out/"
    fi
    rm -rf "crates/$name/must-fail"
    cp -R "$folder" "crates/$name/must-fail"
    # To tell why a wrong body of the program is refused takes up to twelve gigabytes: these are tried one at a time.
    if [ "$name" = runtest ]; then
        RT_JOBS=1 $rt must-fail "$name" || failed=1
    else
        $rt must-fail "$name" || failed=1
    fi
    rm -rf "crates/$name/out/incremental"
done
exit "$failed"
