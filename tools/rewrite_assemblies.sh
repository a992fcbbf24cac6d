#!/bin/sh
# Rewrites each assembly that is named, and compares what disassemblers say of it before and after.
# Usage: tools/rewrite_assemblies.sh PROGRAM ASSEMBLY...
# PROGRAM is the built program (crates/ccrewrite/out/ccrewrite). It wants monodis and ikdasm
# (Debian: mono-utils, mono-devel). One line for each assembly: its size, the status, the text, and
# whether the two disassemblies are the same. ikdasm prints the CLI header's flags, of which that of a
# strong name is cleared: it is left out of what is compared.
program=$1
shift
work=$(mktemp -d)
trap 'rm -rf "$work"' EXIT
for assembly in "$@"; do
    # Both stand in one folder, since monodis looks beside an assembly for those that it refers to.
    input=$work/input.dll
    out=$work/output.dll
    cp "$assembly" "$input"
    rm -f "$out"
    text=$("$program" rewrite --out "$out" "$input")
    status=$?
    same=-
    if [ "$status" -eq 0 ]; then
        same=same
        for tool in monodis ikdasm; do
            $tool "$input" >"$work/before" 2>/dev/null
            before=$?
            sed -i 's/^\.corflags 0x00000009 /.corflags 0x00000001 /' "$work/before"
            $tool "$out" >"$work/after" 2>/dev/null
            after=$?
            if [ $before -ne $after ] || ! cmp -s "$work/before" "$work/after"; then
                same="$tool differs"
            fi
        done
    fi
    printf '%9d %s %s: %s (%s)\n' "$(stat -c %s "$assembly")" "$status" "$same" "$text" "$(basename "$assembly")"
done
