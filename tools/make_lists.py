#!/usr/bin/env python3
"""Compiles a library whose tables are large in one way, for figures of `list`.

Usage: tools/make_lists.py KIND N OUT.dll
It wants mcs (Debian: mono-mcs). KIND is what there are N of:
  methods    methods, a hundred to a type
  one-type   methods of one type
  types      types with one method each
  one-name   types of one name, each in a namespace of its own
  overloads  methods of one name in one type, each with other parameters
  nested     types, each within the one before
  references fields whose types are so many nested types of another library, which is OUT.lib.dll
  long-name  methods of one name of 500 letters, one to a type
  requires   Requires of one method
  clause     terms of one Requires
  branches   if statements before an Assert
"""
import os
import subprocess
import sys
import tempfile

KINDS = ["int", "long", "short", "byte", "string", "object", "double", "float", "char", "bool"]


def parameters(number):
    """Parameter types by the digits of a number."""
    return ", ".join(f"{KINDS[int(digit)]} p{place}" for place, digit in enumerate(str(number)))


def methods(count):
    for k in range(0, count, 100):
        inside = " ".join(f"public static int M{m}(int a) {{ return a + {m}; }}" for m in range(k, min(k + 100, count)))
        yield f"public class C{k} {{ {inside} }}"


def one_type(count):
    yield "public class C {"
    for k in range(count):
        yield f"public static int M{k}(int a) {{ return a + {k}; }}"
    yield "}"


def types(count):
    for k in range(count):
        yield f"public class C{k} {{ public static int M(int a) {{ return a + {k}; }} }}"


def one_name(count):
    for k in range(count):
        yield f"namespace N{k} {{ public class C {{ public static int M(int a) {{ return a + {k}; }} }} }}"


def overloads(count):
    yield "public class C {"
    for k in range(count):
        yield f"public static void M({parameters(k)}) {{ }}"
    yield "}"


def nested(count):
    for k in range(count):
        yield f"public class C{k} {{"
    yield "}" * count


def references(count):
    yield "public class D {"
    for k in range(count):
        name = ".".join(f"C{j}" for j in range(k % 100 + 1))
        yield f"public {name} F{k};"
    yield "}"


def long_name(count):
    name = "m" * 500
    for k in range(count):
        yield f"public class C{k} {{ public static void {name}(int a) {{ }} }}"


CONTRACTED = "public class C {{ public static int M(int a, int b) {{ {} return a; }} }}"


def requires(count):
    yield "using System.Diagnostics.Contracts;"
    yield CONTRACTED.format("\n".join(f"Contract.Requires(a > {k});" for k in range(count)))


def clause(count):
    yield "using System.Diagnostics.Contracts;"
    yield CONTRACTED.format("Contract.Requires(a > (" + " ^ ".join(f"(b + {k})" for k in range(count)) + "));")


def branches(count):
    yield "using System.Diagnostics.Contracts;"
    yield CONTRACTED.format("\n".join(f"if (a > {k}) b++;" for k in range(count)) + "Contract.Assert(a > b);")


def compile_library(out, lines, *more):
    with tempfile.NamedTemporaryFile("w", suffix=".cs") as source:
        source.write("\n".join(lines))
        source.flush()
        subprocess.run(["mcs", "-target:library", "-d:CONTRACTS_FULL", "-nowarn:0169,0649", f"-out:{out}", *more, source.name], check=True)


def main():
    kind, count, out = sys.argv[1], int(sys.argv[2]), sys.argv[3]
    made = {
        "methods": methods,
        "one-type": one_type,
        "types": types,
        "one-name": one_name,
        "overloads": overloads,
        "nested": nested,
        "references": references,
        "long-name": long_name,
        "requires": requires,
        "clause": clause,
        "branches": branches,
    }[kind]
    more = []
    if kind == "references":
        library = os.path.splitext(out)[0] + ".lib.dll"
        compile_library(library, nested(100))
        more = [f"-reference:{library}"]
    compile_library(out, made(count), *more)


main()
