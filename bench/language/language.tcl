# Times scripts by runtest and by the Tcl that runs this one: tclsh language.tcl RUNTEST

set program [lindex $argv 0]

# The loops: what each does, and its script.
set loops {
    {a loop at file level} {
        set i 0
        while {$i < 30000} {incr i; set x $i}
        pass $x
    }
    {a loop in a procedure} {
        proc count {} {
            set i 0
            while {$i < 30000} {incr i; set x $i}
            return $x
        }
        pass [count]
    }
    {a loop in a loop} {
        proc count {} {
            set n 0
            for {set i 0} {$i < 3000} {incr i} {for {set j 0} {$j < 5} {incr j} {incr n $j}}
            return $n
        }
        pass [count]
    }
    {expressions} {
        proc sums {} {
            set s 0
            for {set i 0} {$i < 20000} {incr i} {set s [expr {($s * 31 + $i) % 1000003}]}
            return $s
        }
        pass [sums]
    }
    {switch} {
        proc kinds {} {
            set n 0
            for {set i 0} {$i < 15000} {incr i} {switch -- [expr {$i % 3}] {0 {incr n} 1 {incr n 2} default {}}}
            return $n
        }
        pass [kinds]
    }
    {calls} {
        proc add {a b} {return [expr {$a + $b}]}
        proc calls {} {
            set s 0
            for {set i 0} {$i < 10000} {incr i} {set s [add $s $i]}
            return $s
        }
        pass [calls]
    }
    {append, 10,000} {
        set s ""
        for {set i 0} {$i < 10000} {incr i} {append s 0123456789012345678901234567890123456789}
        pass [string length $s]
    }
    {append, 20,000} {
        set s ""
        for {set i 0} {$i < 20000} {incr i} {append s 0123456789012345678901234567890123456789}
        pass [string length $s]
    }
    {lappend, 10,000} {
        proc grow {} {
            for {set i 0} {$i < 10000} {incr i} {lappend l elem$i}
            return [llength $l]
        }
        pass [grow]
    }
    {lappend, 20,000} {
        proc grow {} {
            for {set i 0} {$i < 20000} {incr i} {lappend l elem$i}
            return [llength $l]
        }
        pass [grow]
    }
    {lindex, 5,000 of 5,000} {
        set l {}
        for {set i 0} {$i < 5000} {incr i} {lappend l elem$i}
        proc find {} {
            global l
            set n 0
            for {set i 0} {$i < 5000} {incr i} {if {[lindex $l $i] eq "elem7"} {incr n}}
            return $n
        }
        pass [find]
    }
    {foreach over 15,000} {
        set l {}
        for {set i 0} {$i < 15000} {incr i} {lappend l elem$i}
        proc pairs {} {
            global l
            set n 0
            foreach {a b} $l {if {$a eq $b} {incr n}}
            return $n
        }
        pass [pairs]
    }
    {lists} {
        proc lists {} {
            set l {}
            foreach i {1 2 3 4 5 6 7 8 9 10} {foreach j {1 2 3 4 5 6 7 8 9 10} {lappend l $i$j}}
            set n 0
            foreach e $l {foreach f $l {incr n [string length $e$f]}}
            return $n
        }
        pass [lists]
    }
    {lindex of a long text} {
        proc find {text} {
            set n 0
            for {set i 0} {$i < 3000} {incr i} {if {[lindex $text $i] eq "c1"} {incr n}}
            return $n
        }
        pass [find [string trim [string repeat "ab c1 " 20000]]]
    }
    {calls of a long body} {
        proc add {a b} "[string repeat "# a comment\n" 500]return \[expr {\$a + \$b}\]"
        proc calls {} {
            set s 0
            for {set i 0} {$i < 10000} {incr i} {set s [add $s $i]}
            return $s
        }
        pass [calls]
    }
}


# The least seconds of three runs of a command on an input; one that takes over three isn't run again.
proc seconds {command input} {
    set best 1e9
    foreach run {1 2 3} {
        set begun [clock microseconds]
        exec {*}$command << $input > /dev/null
        set best [expr {min($best, ([clock microseconds] - $begun) / 1e6)}]
        if {$best > 3} break
    }
    return $best
}

set harness {proc pass m {}}
puts [format {%-26s %9s %9s %7s} script runtest tclsh ratio]
foreach {name script} $loops {
    set session "put t/a.exp [binary encode hex $script]\nreport\n"
    set ours [seconds [list $program --session] $session]
    set theirs [seconds [list [info nameofexecutable]] "$harness\n$script"]
    puts [format {%-26s %9.3f %9.3f %7.1f} $name $ours $theirs [expr {$ours / $theirs}]]
}

# The suite: 4,000 scripts of ten commands.
set script {set a 1
set b 2
set c [expr {$a + $b}]
if {$c == 3} {set d ok}
append d " now"
lappend l $a $b
incr a
foreach v $l {set e $v}
set f [string length $d]
pass $f
}
set session {}
for {set i 0} {$i < 4000} {incr i} {
    append session "put t/[format %04d $i].exp [binary encode hex $script]\n"
}
append session "report\n"
puts [format {%-26s %9.3f} {4,000 scripts of ten} [seconds [list $program --session] $session]]
set file [open /tmp/runtest-language-session w]
puts -nonewline $file $session
close $file
if {![catch {exec /usr/bin/time -f %M $program --session < /tmp/runtest-language-session > /dev/null} told]} {
    set told {}
}
file delete /tmp/runtest-language-session
puts "most memory, kilobytes: $told"
