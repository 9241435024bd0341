# Times the same commands in tclsh, in microseconds a call, with the length of the value, or 0 for none. Each call gets a
# text that was not read as a list before, and gives its value as a text.
proc fresh {text} { string range "$text " 0 end-1 }
proc report {title command places args} {
    set taken 0
    for {set i 0} {$i < 5} {incr i} {
        set words $args
        foreach place $places { lset words $place [fresh [lindex $words $place]] }
        set each [time {set length [expr {[catch {string length [$command {*}$words]} n] ? 0 : $n}]} 1]
        incr taken [lindex $each 0]
    }
    puts "$title [expr {$taken / 5}] $length"
}
set long 1048576
proc filled {text} { global long; string repeat $text [expr {$long / [string length $text]}] }
set same [filled a]
set listed [filled "a "]
set braced [filled "{a b} "]
set comma [filled a,]
report first_absent string 2 first aaaaaaab $same
report first_of_many string 2 first "b a b" $listed
report split_commas split 0 [string range $comma 0 end-1] ,
report split_halves split 0 [string range $comma 0 [expr {$long / 2 - 1}]] {}
report join_words join 0 $listed -
report join_braced join 0 $braced -
report lsearch_exact lsearch 1 -exact $listed b
report lsearch_glob lsearch 0 $listed *b*
report lrange_words lrange 0 $listed 1 end-1
report lrange_braced lrange 0 $braced 1 end-1
