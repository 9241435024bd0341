# Files of cases: a line `=== NAME`, the script, a line `---` and the lines that the script gives.

# The names, scripts and lines of a file of cases. Scripts and lines end with a newline each.
proc read_cases {file} {
    set channel [open $file]
    fconfigure $channel -encoding utf-8 -translation lf
    set text [string trimright [read $channel] \n]\n
    close $channel
    set cases {}
    set starts [regexp -all -inline -indices -line {^=== } $text]
    lappend starts [list [string length $text]]
    foreach start [lrange $starts 0 end-1] next [lrange $starts 1 end] {
        set part [string range $text [lindex $start 0] [lindex $next 0]-1]
        if {![regexp {^=== ([^\n]*)\n(.*?\n)---\n(.*)$} $part -> name script lines]} {
            error "bad case in $file: $part"
        }
        lappend cases $name $script $lines
    }
    return $cases
}

# Writes a file of cases.
proc write_cases {file cases} {
    set channel [open $file w]
    fconfigure $channel -encoding utf-8 -translation lf
    foreach {name script lines} $cases {
        puts -nonewline $channel "=== $name\n$script---\n$lines"
    }
    close $channel
}
