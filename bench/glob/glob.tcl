# Times `string match` on the same patterns, in nanoseconds a call.
proc report {name pattern text times} {
    set each [lindex [time {set matched [string match $pattern $text]} $times] 0]
    puts "$name [format %.0f [expr {$each * 1000}]]"
}
set many [string repeat a 65536]
set some [string repeat a 2000]
report triplet {*-*-linux*} x86_64-pc-linux-gnu 200000
report script {*.exp} gcc.dg/special/weak-1.exp 200000
report bracket {[a-z0-9_]*-[0-9]*.exp} gcc.dg/special/weak-1.exp 200000
report far {*b*} $many 200
report stars {a*a*a*a*a*a*a*a*} $many 200
# the failing rows take tclsh far too long, so they are not run there
