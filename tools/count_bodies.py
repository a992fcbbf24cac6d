#!/usr/bin/env python3
"""Counts the method bodies of each assembly that is named: how many the rules accept, and how many each rule refuses.

Usage: tools/count_bodies.py PROGRAM ASSEMBLY...
PROGRAM is the built program (crates/ccrewrite/out/ccrewrite). Each assembly is listed alone. `list` names the first
body that breaks a rule: that method's RVA is set to 0 in a copy, and the copy is listed, until no body is refused.
Where a type has a name of the core table, as in the core library itself, its namespace loses a letter in the copy.
A line for each body that is refused: the rule, the MethodDef row, the offset, the instruction's code, and the
assembly. A line for each assembly that another rule refuses, whose other bodies aren't counted. Then how many there
are of each.
"""
import collections
import re
import struct
import subprocess
import sys
import tempfile

TYPE_DEF = 2
METHOD_DEF = 6
REFUSED = re.compile(r"refused: (\w+) assembly 0 table ([0-9A-F]{2}) row (\d+) at (\d+)")


def unpack(layout, data, at):
    return struct.unpack_from("<" + layout, data, at)


def file_offset(data, rva):
    """Where an RVA stands in the file (ECMA-335, II.25.3)."""
    (pe,) = unpack("I", data, 0x3C)
    sections, optional = unpack("H", data, pe + 6)[0], unpack("H", data, pe + 20)[0]
    for k in range(sections):
        size, begin, raw_size, raw = unpack("IIII", data, pe + 24 + optional + 40 * k + 8)
        if begin <= rva < begin + max(size, raw_size):
            return raw + rva - begin
    raise ValueError("no section holds the RVA")


def tables_offset(data):
    """Where the stream of the tables begins (II.24.2.1)."""
    (pe,) = unpack("I", data, 0x3C)
    directories = 96 if unpack("H", data, pe + 24)[0] == 0x10B else 112
    cli = file_offset(data, unpack("I", data, pe + 24 + directories + 8 * 14)[0])
    root = file_offset(data, unpack("I", data, cli + 8)[0])
    at = root + 16 + unpack("I", data, root + 12)[0]
    streams = unpack("H", data, at + 2)[0]
    at += 4
    for _ in range(streams):
        offset = unpack("I", data, at)[0]
        name = data[at + 8 : data.index(b"\0", at + 8)]
        if name in (b"#~", b"#-"):
            return root + offset
        at += 8 + (len(name) // 4 + 1) * 4
    raise ValueError("no stream of tables")


def rows_of(data, table):
    """The file offset of each row of a table up to MethodDef (II.22, II.24.2.6), and how long an index of a string is."""
    start = tables_offset(data)
    heaps, valid = data[start + 6], unpack("Q", data, start + 8)[0]
    numbers = [n for n in range(64) if valid >> n & 1]
    counts = collections.Counter(dict(zip(numbers, unpack(f"{len(numbers)}I", data, start + 24))))
    string, guid, blob = (4 if heaps & bit else 2 for bit in (1, 2, 4))

    def index(table):
        return 4 if counts[table] >= 1 << 16 else 2

    def coded(bits, *tables):
        return 4 if max(counts[t] for t in tables) >= 1 << (16 - bits) else 2

    sizes = [
        2 + string + 3 * guid,
        coded(2, 0, 0x1A, 0x23, 1) + 2 * string,
        4 + 2 * string + coded(2, 2, 1, 0x1B) + index(4) + index(METHOD_DEF),
        index(4),
        2 + string + blob,
        index(METHOD_DEF),
        8 + string + blob + index(8),
    ]
    first = start + 24 + 4 * len(numbers) + sum(counts[t] * sizes[t] for t in range(table))
    return [first + k * sizes[table] for k in range(counts[table])], string


def shorten_namespace(data, row):
    """Has the namespace of a type begin at its second letter."""
    rows, string = rows_of(data, TYPE_DEF)
    layout, at = "I" if string == 4 else "H", rows[row - 1] + 4 + string
    struct.pack_into("<" + layout, data, at, unpack(layout, data, at)[0] + 1)


def code_at(data, rva, at):
    """The code of the instruction at an offset of a body's code (II.25.4)."""
    start = file_offset(data, rva)
    start += (1 if data[start] & 3 == 2 else 12) + at
    return data[start : start + (2 if data[start] == 0xFE else 1)].hex().upper()


def refusal_of(program, path):
    """The rule, table, row and offset of the refusal; None where there is none, and the text where it is another status."""
    done = subprocess.run([program, "list", path], stdout=subprocess.PIPE, check=False)
    if done.returncode == 0:
        return None
    text = done.stdout.decode("ascii").splitlines()[0]
    found = REFUSED.match(text)
    return (found.group(1), int(found.group(2), 16), int(found.group(3)), int(found.group(4))) if found else text


def count(program, path, copy, counts):
    """Counts the bodies of one assembly."""
    data = bytearray(open(path, "rb").read())
    rows, _ = rows_of(data, METHOD_DEF)
    left = sum(1 for at in rows if unpack("I", data, at)[0])
    refused = collections.Counter()
    while True:
        with open(copy, "wb") as out:
            out.write(data)
        found = refusal_of(program, copy)
        rule = None if found is None else found if isinstance(found, str) else found[0]
        # C1 to C7 and Z1 are tried when no body breaks a rule.
        if rule is None or re.fullmatch("[CZ][1-9]", rule):
            counts["accepted"] += left
            break
        if rule == "N4" and found[1] == TYPE_DEF:
            shorten_namespace(data, found[2])
            continue
        if not re.fullmatch("[IX][1-9]", rule) or found[1] != METHOD_DEF:
            counts[f"not counted, the assembly is refused: {rule}"] += left
            print(f"{found} ({left} bodies, {path})")
            break
        _, _, row, at = found
        found_code = code_at(data, unpack("I", data, rows[row - 1])[0], at)
        refused[f"{rule} at {found_code}"] += 1
        left -= 1
        print(f"{rule} row {row} at {at} ({found_code}, {path})")
        struct.pack_into("<I", data, rows[row - 1], 0)
    for rule, number in refused.items():
        counts[f"refused by {rule}"] += number


def main():
    program, paths = sys.argv[1], sys.argv[2:]
    counts = collections.Counter()
    with tempfile.NamedTemporaryFile(suffix=".dll") as copy:
        for path in paths:
            try:
                count(program, path, copy.name, counts)
            except (struct.error, ValueError, IndexError):
                print(f"no assembly with tables ({path})")
    for answer, number in sorted(counts.items()):
        print(f"{number:8d} {answer}")


main()
