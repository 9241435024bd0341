#!/bin/sh
# Kills runs of the program at random moments: tests/kills/run.sh [COUNT [SEED]], 100 kills if unsaid. The program has to be
# built (make), or named by RUNTEST. SCRIPTS are the names of the scripts, SIZE is how many lines half of their children write.
#
# The signal goes to the group of the run and its children, of which some read their input and some sleep: none may be left. Each
# third goes to the run alone: those that read their input may not be left. After each kill every file of the run's folder has to be
# whole, of the run before or of this one, and the next run has to work, and to leave just the files that an undisturbed run leaves.
# What the killed one was writing may stand beside its place, as NAME.N.new. Half of the moments are near the time in which files
# are written. A kill that comes when the run has ended is none: another moment is drawn, COUNT times 10 at most.
#
# It wants awk, ps and setsid; where one isn't there it says so and ends with 77.
set -e
for program in awk ps setsid; do
    command -v $program > /dev/null || { echo "skipped: there is no $program here"; exit 77; }
done
top=$(cd "$(dirname "$0")/../.." && pwd)
runtest=${RUNTEST:-$top/crates/runtest/out/runtest}
count=${1:-100}
seed=${2:-$(date +%s)}
scripts=${SCRIPTS:-01 02 03 04 05 06}
work=$(mktemp -d)
trap 'sweep; rm -rf "$work"' EXIT
trap 'exit 1' INT TERM
# The children run under names that nothing else has.
cp "$(command -v cat)" "$work/cat"
cp "$(command -v sleep)" "$work/sleep"
awk -v size="${SIZE:-2000}" 'BEGIN { for (i = 1; i <= size; i++) print "line " i }' > "$work/lines"

# suite VERSION: three children a script, of which two are left open; one of these reads nothing.
suite() {
    mkdir -p "$work/$1/lib" "$work/$1/kill.all"
    cat > "$work/$1/lib/kill.exp" << 'END'
proc idle {} {
    global SLEEP
    spawn $SLEEP 1000
}
proc talk {rounds mark} {
    global CAT
    spawn $CAT
    for {set i 0} {$i < $rounds} {incr i} {
        send "$mark $i\n"
        expect "$mark $i\n" {} default {fail "$mark $i"; return}
    }
    pass "$mark, $rounds rounds"
}
proc flood {mark} {
    global CAT LINES
    spawn $CAT $LINES
    expect eof {pass "$mark, all read"} timeout {fail "$mark, all read"}
    wait
}
END
    for script in $scripts; do
        printf 'idle\ntalk 10 "%s of %s"\nflood "%s of %s"\n' "$script" "$1" "$script" "$1" > "$work/$1/kill.all/$script.exp"
    done
}

# run VERSION FOLDER: in the place of the shell that calls it, with its children in a group of their own.
run() {
    exec setsid "$runtest" --tool kill --srcdir "$work/$1" --outdir "$2" \
        "CAT=$work/cat" "SLEEP=$work/sleep" "LINES=$work/lines" > "$work/said" 2>&1
}

# run_whole VERSION FOLDER: how long it takes.
run_whole() {
    begun=$(date +%s%N)
    (run "$1" "$2") || return 1
    all=$(($(date +%s%N) - begun))
}

# shape FILE: a number for what it says but for its times and where the chunks were cut.
shape() {
    case $1 in
        *.tr) awk '$1 == "chunk" { bytes = bytes $3; next }
                   { if (bytes != "") print "bytes", bytes; bytes = "" }
                   $1 == "end" { print "end"; next }
                   { print }' "$1" | cksum ;;
        *) cksum < "$1" ;;
    esac
}

# shapes FOLDER: a line for each of its files, in order, but for those that were being written.
shapes() {
    (cd "$1" && find . -type f ! -name '*.new' | LC_ALL=C sort | while read -r file; do echo "$file $(shape "$file")"; done)
}

# children NAME: how many there are whose name begins so.
children() {
    ps -A -o args= | grep -c "^$work/$1" || true
}

# Ends what is left of the children, where the test itself ends.
sweep() {
    ps -A -o pid=,args= | while read -r pid args; do
        case $args in "$work/"*) kill -s KILL "$pid" ;; esac
    done
}

fault() {
    echo "kill $turn, draw $draw (seed $seed): $1"
    cp -r "$work/out" "${TMPDIR:-/tmp}/kills-left.$$" && echo "the folder: ${TMPDIR:-/tmp}/kills-left.$$"
    exit 1
}

# childless NAME: no child whose name begins so is left, a second after the runner's death at most.
childless() {
    for _ in 1 2 3 4 5 6 7 8 9 10; do
        [ "$(children "$1")" -eq 0 ] && return
        sleep 0.1
    done
    fault "$(children "$1") children are left: $1"
}

# Each file is whole: its line is one of the two versions'.
whole() {
    shapes "$work/out" > "$work/now"
    while read -r line; do
        grep -qxF "$line" "$work/1.shapes" "$work/2.shapes" || echo "$line"
    done < "$work/now" > "$work/torn"
    [ ! -s "$work/torn" ] || fault "torn: $(cat "$work/torn")"
    if cmp -s "$work/now" "$work/$old.shapes"; then
        unchanged=$((unchanged + 1))
    else
        changed=$((changed + 1))
    fi
}

# next: a run after it works, with what the killed one left beside it.
next() {
    begun_files=$((begun_files + $(find "$work/out" -name '*.new' | wc -l)))
    run_whole $new "$work/out" || fault "the next run doesn't pass: $(cat "$work/said")"
    shapes "$work/out" | cmp -s - "$work/$new.shapes" || fault "the next run left other files than an undisturbed one"
    childless ""
    find "$work/out" -name '*.new' -exec rm {} +
}

turn=0
draw=0
unchanged=0
changed=0
late=0
begun_files=0
for version in 1 2; do
    suite $version
    run_whole $version "$work/$version.out" || { cat "$work/said"; exit 1; }
    shapes "$work/$version.out" > "$work/$version.shapes"
    # from the first file on; a file that has its text already is not written again
    writes=$((begun + all - $(date -r "$work/$version.out/transcripts/unix/kill.all/${scripts%% *}.exp.tr" +%s%N)))
done
echo "a run takes $((all / 1000000)) ms, of which it writes files for $((writes / 1000000)) ms; seed $seed"
cp -r "$work/1.out" "$work/out"
new=1
while [ "$turn" -lt "$count" ]; do
    draw=$((draw + 1))
    [ "$draw" -le $((10 * count)) ] || fault "$late of $((draw - 1)) kills came too late"
    old=$new
    new=$((3 - old))
    moment=$(awk -v seed="$seed" -v draw="$draw" -v all="$all" -v writes="$writes" \
        'BEGIN { srand(seed * 1000 + draw); from = draw % 2 ? 0 : all - 2 * writes; to = draw % 2 ? all : all - writes / 2; if (from < 0) from = 0; print (from + rand() * (to - from)) / 1e9 }')
    (run $new "$work/out") &
    runner=$!
    sleep "$moment"
    # a run that has no group yet has no child
    { [ $((draw % 3)) -ne 0 ] && kill -s KILL -- "-$runner"; } 2> /dev/null || kill -s KILL "$runner" 2> /dev/null || true
    status=0
    wait $runner 2> /dev/null || status=$?
    if [ $((draw % 3)) -eq 0 ]; then
        childless cat
        sweep
    fi
    childless ""
    case $status in
        137)
            turn=$((turn + 1))
            whole
            next
            ;;
        0)
            late=$((late + 1))
            shapes "$work/out" | cmp -s - "$work/$new.shapes" || fault "a run that ended left other files than an undisturbed one"
            ;;
        *) fault "the run ended with $status: $(cat "$work/said")" ;;
    esac
done
echo "$count kills in time: $unchanged before a file was written, $changed after that; $begun_files files were being written"
echo "$late more came too late; nothing torn, no child left, each next run worked"
