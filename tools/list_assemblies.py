#!/usr/bin/env python3
"""Lists each assembly that is named, and compares the lines with what monodis says of its tables.

Usage: tools/list_assemblies.py [--sets] PROGRAM ASSEMBLY...
PROGRAM is the built program (crates/ccrewrite/out/ccrewrite). It wants monodis (Debian: mono-utils).
One line for each assembly that isn't listed or whose lines differ: the status, the first line of the text or
the first difference, and the name; then how many were listed, and how many refused by which rule.
With --sets each is listed with all assemblies that it refers to, directly or through others, as far as they are
among those that are named. Types are compared by row and full name, methods by row, owner and name.
"""
import collections
import os
import re
import subprocess
import sys


def lines_of(*words):
    """The lines that a command prints."""
    done = subprocess.run(words, stdout=subprocess.PIPE, stderr=subprocess.DEVNULL, check=False)
    return done.stdout.decode("utf-8", "surrogateescape").splitlines()


def plain(name):
    """A name as its bytes read, from the text in which some are written \\xHH."""
    raw = re.sub(rb"\\x([0-9A-F]{2})", lambda m: bytes([int(m.group(1), 16)]), name.encode("ascii"))
    return raw.decode("utf-8", "surrogateescape")


def types_told(path):
    """Row by row the full name of each type, and the row of its first method."""
    told = []
    for line in lines_of("monodis", "--typedef", path):
        match = re.match(r"(\d+): (.*) \(flist=\d+, mlist=(\d+), flags=", line)
        if match:
            told.append((match.group(2), int(match.group(3))))
    return told


def methods_told(path):
    """Row by row the line of each method."""
    told = {}
    for line in lines_of("monodis", "--method", path):
        match = re.match(r"(\d+): (.*)$", line)
        if match:
            told[int(match.group(1))] = match.group(2)
    return told


def owner_row(types, method):
    """The row of the type of a method, by the first methods of the types."""
    low, high = 0, len(types)
    while high - low > 1:
        middle = (low + high) // 2
        if types[middle][1] <= method:
            low = middle
        else:
            high = middle
    return low + 1


def has_name(line, name):
    """Whether a method's line has the name before its parameters or type parameters, as far as monodis can tell it."""
    if line.startswith("failed to parse"):
        return True
    quoted = name.replace("\\", "\\\\").replace("'", "\\'")
    return any(spelled + behind in line for spelled in (" " + name, " '" + quoted + "'") for behind in (" (", "<", " <"))


def difference(path, text):
    """The first line that differs from what monodis says, or None."""
    types, methods = types_told(path), methods_told(path)
    seen_types = seen_methods = 0
    owner = None
    for line in text:
        word, token, name = line.split(" ", 2)
        row = int(token[2:], 16)
        if word == "type":
            seen_types, owner = seen_types + 1, row
            if row != seen_types or row > len(types):
                return line
            told = types[row - 1][0]
            if row > 1 and plain(name) != told:
                return f"{line} (monodis: {told})"
        elif word == "method":
            seen_methods += 1
            if row not in methods or owner_row(types, row) != owner:
                return line
            if not has_name(methods[row], plain(name)):
                return f"{line} (monodis: {methods[row]})"
    if (seen_types, seen_methods) != (len(types), len(methods)):
        return f"{seen_types} types of {len(types)}, {seen_methods} methods of {len(methods)}"
    return None


def references(path):
    """The simple names of the assemblies that an assembly refers to."""
    return [line.strip()[5:] for line in lines_of("monodis", "--assemblyref", path) if line.strip().startswith("Name=")]


def with_all(path, by_name):
    """The assembly and those to which it leads."""
    found, waiting = [path], [path]
    names = {os.path.splitext(os.path.basename(path))[0]}
    while waiting:
        for name in references(waiting.pop()):
            if name in by_name and name not in names:
                names.add(name)
                found.append(by_name[name])
                waiting.append(by_name[name])
    return found


def main():
    words = sys.argv[1:]
    sets = words[:1] == ["--sets"]
    program, paths = words[sets], words[sets + 1 :]
    by_name = {os.path.splitext(os.path.basename(path))[0]: path for path in reversed(paths)}
    counts = collections.Counter()
    for path in paths:
        files = with_all(path, by_name) if sets else [path]
        done = subprocess.run([program, "list", *files], stdout=subprocess.PIPE, check=False)
        text = done.stdout.decode("ascii").splitlines()
        if done.returncode != 0:
            counts[f"{done.returncode} {text[0].split(' assembly')[0]}"] += 1
            print(f"{done.returncode} {text[0]} ({len(files)} files, {path})")
            continue
        differs = difference(path, text)
        counts["listed as monodis says" if differs is None else "differs"] += 1
        if differs is not None:
            print(f"differs: {differs} ({path})")
    for answer, number in sorted(counts.items()):
        print(f"{number:6d} {answer}")


main()
