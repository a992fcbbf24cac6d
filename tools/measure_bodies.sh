#!/bin/sh
# Prints how long one decoding and one encoding of a body take together, for bodies of three lengths.
# Usage: tools/measure_bodies.sh MEASURE
# MEASURE is the built program (crates/measure/out/measure). The time for making the body is taken off.
measure=$1
figures=$(mktemp)
trap 'rm -f "$figures"' EXIT
seconds_of() {
    for run in 1 2 3; do
        /usr/bin/time -f '%e' -o "$figures" "$measure" body "$1" "$2" >/dev/null
        tail -n 1 "$figures"
    done | sort -n | head -n 1
}
for count in 65537 262145 1048577; do
    none=$(seconds_of $count 0)
    ten=$(seconds_of $count 10)
    awk -v count=$count -v none="$none" -v ten="$ten" 'BEGIN {
        each = (ten - none) / 10
        printf "%8d instructions: %.3f s, %.1f ns an instruction\n", count, each, each * 1e9 / count
    }'
done
