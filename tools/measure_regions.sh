#!/bin/sh
# Prints how long the heights, the boundaries, the rules on regions and the tree of a body take, for bodies of three
# lengths with 1,000 and with 10,000 regions, one behind another.
# Usage: tools/measure_regions.sh MEASURE
# MEASURE is the built program (crates/measure/out/measure). Figures are of the processor's time, the least of three
# runs; the time for making the body is taken off. Boundaries are printed with their heights, and the tree with its
# rules. The number of instructions is near the one that is printed.
measure=$1
figures=$(mktemp)
trap 'rm -f "$figures"' EXIT
seconds_of() {
    for run in 1 2 3; do
        /usr/bin/time -f '%U' -o "$figures" "$measure" regions "$1" "$2" "$3" "$4" >/dev/null
        tail -n 1 "$figures"
    done | sort -n | head -n 1
}
for count in 65536 262144 1048576; do
    times=$((16777216 / count))
    for regions in 1000 10000; do
        none=$(seconds_of $count $regions nothing 0)
        for step in heights boundaries control tree; do
            all=$(seconds_of $count $regions $step "$times")
            awk -v count=$count -v regions=$regions -v step=$step -v times="$times" -v none="$none" -v all="$all" 'BEGIN {
                each = (all - none) / times
                printf "%8d instructions, %6d regions: %-10s %.3f s, %.1f ns an instruction\n", count, regions, step, each, each * 1e9 / count
            }'
        done
    done
done
