#!/bin/sh
# How many checks the gate runs side by side: one on each processor, as long as there are seven gigabytes of memory for each.
# By itself `rt ci` plans with the most memory that a check of this size may take, and leaves processors idle; the checks of
# these crates take about two thirds of that. Where there is room for one alone, it prints nothing, and rt plans.
lanes=$(getconf _NPROCESSORS_ONLN)
room=$(awk '/^MemAvailable:/ { print int($2 / 7000000) }' /proc/meminfo)
[ "$room" -ge "$lanes" ] || lanes=$room
[ "$lanes" -lt 2 ] || echo "$lanes"
