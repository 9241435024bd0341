# Times Tcl's reading of the same lists, in microseconds a call, and whether it read them.
proc report {name text} {
    set copy [string range "$text " 0 end-1]
    set taken [lindex [time {set failed [catch {llength $copy}]} 1] 0]
    puts "$name list $taken [expr {!$failed}]"
}
set long 1048576
report braces [string repeat \{ $long]
report brackets [string repeat \[ $long]
report quotes [string repeat \" $long]
report backslashes [string repeat \\ $long]
report words [string repeat "a " [expr {$long / 2}]]
report one_word [string repeat a $long]
