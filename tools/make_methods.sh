#!/bin/sh
# Compiles a library of N methods, a hundred to a class, each with two parameters and a local.
# Usage: tools/make_methods.sh N OUT.dll
# It wants mcs (Debian: mono-mcs).
count=$1
out=$2
work=$(mktemp -d)
trap 'rm -rf "$work"' EXIT
awk -v count="$count" 'BEGIN {
    for (i = 0; i < count; i++) {
        if (i % 100 == 0) {
            if (i > 0) print "}"
            print "public class Class" i / 100 " { int field" i "; string text" i " = \"text " i "\";"
        }
        print "public static int Method" i "(int first, string second" i % 7 ") { int sum = first + " i "; for (int k = 0; k < first; k++) sum += k; return sum; }"
    }
    print "}"
}' >"$work/methods.cs"
mcs -target:library -out:"$out" "$work/methods.cs"
