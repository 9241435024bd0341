# Judges the scripts of files of cases by the Tcl that runs this one, and writes the lines that each gives into the files.
#
#     tclsh judge.tcl words.cases ..
source [file join [file dirname [info script]] cases.tcl]

# The commands that record results and messages, as the interpreter of a script knows them.
set commands {
    foreach {name class} {pass PASS fail FAIL unresolved UNRESOLVED untested UNTESTED unsupported UNSUPPORTED note NOTE} {
        proc $name args [string map [list NAME $name CLASS $class] {
            if {[llength $args] != 1} {
                error "wrong # args: NAME"
            }
            record "CLASS: [lindex $args 0]"
            return
        }]
    }
    foreach name {verbose send_user send_log} {
        proc $name args {}
    }
    foreach name [info globals] {
        if {$name ni {errorCode errorInfo}} {
            unset -nocomplain $name
        }
    }
    unset -nocomplain name class
}

# Adds a line to those of the script that is judged.
proc record {line} {
    global lines
    append lines $line \n
}

# The lines of a script, which is judged in an interpreter of its own.
proc lines_of {script} {
    global commands lines
    set lines ""
    set child [interp create]
    $child alias record record
    $child eval $commands
    set code [catch {$child eval $script} value]
    interp delete $child
    switch $code {
        0 - 2 {}
        3 { close_with "invoked \"break\" outside of a loop" }
        4 { close_with "invoked \"continue\" outside of a loop" }
        default { close_with $value }
    }
    return $lines
}

# The lines that close a test after a Tcl error.
proc close_with {message} {
    record "ERROR: tcl error sourcing t/a.exp."
    record "ERROR: $message"
    record "UNRESOLVED: testcase 't/a.exp' aborted due to Tcl error"
}

foreach file $argv {
    set judged {}
    foreach {name script lines_before} [read_cases $file] {
        lappend judged $name $script [lines_of $script]
    }
    write_cases $file $judged
}
