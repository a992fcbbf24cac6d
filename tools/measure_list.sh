#!/bin/sh
# Prints how long `list` takes and how much memory, of one set of assemblies.
# Usage: tools/measure_list.sh PROGRAM TARGET REF...
# One line: the size of all files in bytes, seconds (the least of five runs), the most memory in KiB, memory as a
# multiple of the size, and how many types and methods are listed, or the text of a refusal.
program=$1
shift
work=$(mktemp -d)
trap 'rm -rf "$work"' EXIT
size=$(cat "$@" | wc -c)
for run in 1 2 3 4 5; do
    /usr/bin/time -f '%e %M' -o "$work/figures" "$program" list "$@" >"$work/text"
    tail -n 1 "$work/figures"
done | sort -n | head -n 1 | while read -r seconds memory; do
    lines="$(grep -c '^type ' "$work/text") types, $(grep -c '^method ' "$work/text") methods"
    grep -q '^refused: ' "$work/text" && lines=$(head -n 1 "$work/text")
    printf '%9d bytes %6s s %8d KiB %4d times the size: %s (%s)\n' "$size" "$seconds" "$memory" $((memory * 1024 / size)) "$lines" "$(basename "$1")"
done
