# Writes a session in which each script of files of cases is put and reported, and the answers that it must give.
#
#     tclsh session.tcl STDIN STDOUT words.cases ..       tools/rows.sh names them all (make rows)
#
# Both files begin with what stands in `first.session` and `first.answers`, and end with `last.session` and `last.answers`,
# `suites.session` and `suites.answers`. A script is not put twice in turn. In a script a line `+++ NAME` begins the text of another
# file, which is put before it and removed after its report; `+++ transcript` begins that of its transcript. In a file of rows a row
# is a request and its answer, with a tab between them: `\n`, `\xHH` and such stand for bytes, and what stands in `<` and `>` for its
# digits.
source [file join [file dirname [info script]] cases.tcl]

# The counts of a report in their order: the class, and what the report calls it.
set counts {
    PASS "expected passes" FAIL "unexpected failures" XPASS "unexpected successes" XFAIL "expected failures"
    KPASS "unknown successes" KFAIL "known failures" UNRESOLVED "unresolved testcases"
    UNTESTED "untested testcases" UNSUPPORTED "unsupported tests"
}

# The count lines of a report, and whether all is as expected.
proc summary {lines} {
    global counts
    set text ""
    foreach {class what} $counts {
        set found [regexp -all -line "^$class: " $lines]
        if {$found > 0} {
            set label "# of $what"
            set tabs [expr {[string length $label] < 24 ? "\t\t" : "\t"}]
            append text $label $tabs $found \n
        }
    }
    return $text
}

# The report of the script `t/a.exp` with these lines, as bytes.
proc report {lines} {
    set text "\t\t=== t tests ===\n\nSchedule of variations:\n    unix\n\nRunning target unix\n"
    append text "Running t/a.exp ...\n" $lines "\n\t\t=== t Summary ===\n\n" [summary $lines]
    return [encoding convertto utf-8 $text]
}

# 1 where a report has a result that is not expected.
proc status {lines} {
    return [regexp -line {^(FAIL|XPASS|KPASS|UNRESOLVED): } $lines]
}

# Bytes in hexadecimal digits, `-` where there are none.
proc digits {bytes} {
    return [expr {$bytes eq "" ? "-" : [binary encode hex $bytes]}]
}

# The bytes of a text in hexadecimal digits.
proc hex {text} {
    return [digits [encoding convertto utf-8 $text]]
}

# The script of a case, and the names and texts of the other files that it has.
proc parts {script} {
    set parts {}
    while {[regexp -indices -line {^\+\+\+ ([^\n]*)$} $script line name]} {
        lappend parts [string range $script 0 [lindex $line 0]-1] [string range $script {*}$name]
        set script [string range $script [lindex $line 1]+2 end]
    }
    lappend parts $script
    return [list [lindex $parts 0] [lrange $parts 1 end]]
}

# The request that puts a part of a case, and the one that takes it away again.
proc put {name text} {
    return [expr {$name eq "transcript" ? "transcript unix t/a.exp" : "put $name"}]\ [hex $text]
}

proc remove {name} {
    return [expr {$name eq "transcript" ? "drop unix t/a.exp" : "remove $name"}]
}

# Writes the requests and the answers of a file of cases.
proc write_scripts {input output file} {
    foreach {name script lines} [read_cases $file] {
        lassign [parts $script] script files
        foreach {other text} $files {
            puts $input [put $other $text]
            puts $output ok
        }
        puts $input "put t/a.exp [hex $script]"
        puts $input report
        set bytes [report $lines]
        puts -nonewline $output "ok\nsum [status $lines] [string length $bytes] 1\n$bytes"
        foreach {other text} $files {
            puts $input [remove $other]
            puts $output ok
        }
    }
}

# The bytes of a text with escapes.
proc unescaped {text} {
    return [subst -nocommands -novariables $text]
}

# Writes the requests and the answers of a file of rows.
proc write_rows {input output file} {
    foreach row [split [string trimright [read_bytes $file] \n] \n] {
        if {$row eq "" || [string match "#*" $row]} continue
        lassign [split $row \t] request answer
        if {[regexp {^(.*)<(.*)>$} $request -> words text]} {
            puts $input $words[digits [unescaped $text]]
        } else {
            puts $input [unescaped $request]
        }
        puts $output $answer
    }
}

proc read_bytes {file} {
    set channel [open $file rb]
    set bytes [read $channel]
    close $channel
    return $bytes
}

set here [file dirname [info script]]
set input [open [lindex $argv 0] wb]
set output [open [lindex $argv 1] wb]
puts -nonewline $input [read_bytes [file join $here first.session]]
puts -nonewline $output [read_bytes [file join $here first.answers]]
foreach file [lrange $argv 2 end] {
    if {[file extension $file] eq ".rows"} {
        write_rows $input $output $file
    } else {
        write_scripts $input $output $file
    }
}
foreach part {last suites} {
    puts -nonewline $input [read_bytes [file join $here $part.session]]
    puts -nonewline $output [read_bytes [file join $here $part.answers]]
}
close $input
close $output
