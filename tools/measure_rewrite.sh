#!/bin/sh
# Prints how long `rewrite` takes and how much memory, for each assembly that is named.
# Usage: tools/measure_rewrite.sh PROGRAM ASSEMBLY...
# One line for each: the size in bytes, seconds (the least of five runs), the most memory in KiB,
# and memory as a multiple of the size.
program=$1
shift
work=$(mktemp -d)
trap 'rm -rf "$work"' EXIT
for assembly in "$@"; do
    size=$(stat -c %s "$assembly")
    for run in 1 2 3 4 5; do
        /usr/bin/time -f '%e %M' -o "$work/figures" "$program" rewrite --out "$work/out.dll" "$assembly" >"$work/text"
        tail -n 1 "$work/figures"
    done | sort -n | head -n 1 | while read -r seconds memory; do
        printf '%9d bytes %6s s %8d KiB %4d times the size (%s)\n' "$size" "$seconds" "$memory" $((memory * 1024 / size)) "$(cat "$work/text") $(basename "$assembly")"
    done
done
