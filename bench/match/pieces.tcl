# Writes 10 MB in pieces of 64 bytes, or of as many times that as is asked, with the first word of the glob once in 2,048 bytes or never.
fconfigure stdout -buffering none -translation binary
lassign $argv pieces first
set plain "0123456789 abcdefghijklmnopqrstuvwxyz ABCDEFGHIJKLMNOPQRSTUVWXY\n"
set foo "0123456789 abcdefghijklmnopqrs foo yz ABCDEFGHIJKLMNOPQRSTUVWXY\n"
set others [string repeat $plain $pieces]
set begins [set $first][string repeat $plain [expr {$pieces - 1}]]
for {set i 0} {$i < 163840 / $pieces} {incr i} {
    puts -nonewline stdout [expr {$i * $pieces % 32 ? $others : $begins}]
}
