#!/usr/bin/env python3
"""Rewrites assemblies that pass a limit of what is written, and compares the answers with docs/REFUSALS.md.

Usage: tools/try_limits.py PROGRAM ASSEMBLY [MEASURE]
PROGRAM is the built program (crates/ccrewrite/out/ccrewrite), ASSEMBLY one that it rewrites, of less than 1 MiB. The
program may have 1 GiB of memory. With MEASURE, the built program of crates/measure, a body is encoded that is as long
as one may be, and one that is longer; it may have 4 GiB. Prints a line for each run: whether the answer is as it should
be, the seconds that it took, the text, and what was changed. Ends with status 1 where an answer differs. Needs Python
3.8 on Linux.
"""
import pathlib
import resource
import struct
import subprocess
import sys
import tempfile
import time

MEMORY = 1 << 30


def number(data, at):
    return struct.unpack_from("<I", data, at)[0]


def last_section(data):
    """Where the header of the last section stands."""
    start = number(data, 60)
    count, size = struct.unpack_from("<H", data, start + 6)[0], struct.unpack_from("<H", data, start + 20)[0]
    return start + 24 + size + 40 * (count - 1)


def streams_of(root):
    """The front of the root, and each stream by its name."""
    at = 16 + number(root, 12)
    count = struct.unpack_from("<H", root, at + 2)[0]
    front, streams, at = root[: at + 2], [], at + 4
    for _ in range(count):
        offset, size = number(root, at), number(root, at + 4)
        end = root.index(0, at + 8)
        streams.append((root[at + 8 : end], root[offset : offset + size]))
        at += 8 + (end - at - 8) // 4 * 4 + 4
    return front, streams


def root_of(front, streams, repeated=0):
    """A root of these streams, and of so many that begin where it begins and have 1 MiB each."""
    names = [name + bytes(4 - len(name) % 4) for name, _ in streams] + [b"#A\0\0"] * repeated
    at = len(front) + 2 + sum(8 + len(name) for name in names)
    head, body = front + struct.pack("<H", len(names)), b""
    for name, (_, content) in zip(names, streams):
        head += struct.pack("<II", at + len(body), len(content)) + name
        body += content
    head += b"".join(struct.pack("<II", 0, 1 << 20) + name for name in names[len(streams) :])
    root = head + body
    return root + bytes(max(0, (1 << 20) - len(root))) if repeated else root


def with_root(data, change):
    """The assembly with its metadata changed, behind all that it has."""
    new, section = bytearray(data), last_section(data)
    first = number(data, 60) + 24 + struct.unpack_from("<H", data, number(data, 60) + 20)[0]

    def offset_of(rva):
        for at in range(first, section + 1, 40):
            start = number(data, at + 12)
            if start <= rva < start + number(data, at + 16):
                return rva - start + number(data, at + 20)
        raise ValueError("no section has the RVA")

    cli = offset_of(number(data, first - 16))
    metadata = offset_of(number(data, cli + 8))
    root = change(*streams_of(data[metadata : metadata + number(data, cli + 12)]))
    start, raw = number(data, section + 12), number(data, section + 20)
    new += bytes(-len(new) % 512)
    struct.pack_into("<II", new, cli + 8, start + len(new) - raw, len(root))
    new += root + bytes(-len(root) % 512)
    struct.pack_into("<I", new, section + 8, len(new) - raw)
    struct.pack_into("<I", new, section + 16, len(new) - raw)
    return bytes(new)


def far(data):
    """The last section near the end of all RVAs."""
    new = bytearray(data)
    struct.pack_into("<I", new, last_section(data) + 12, 0xFFFFC000)
    return bytes(new)


def with_user_strings(size):
    """`#US` of so many empty entries, a byte each."""
    return lambda front, streams: root_of(front, [it for it in streams if it[0] != b"#US"] + [(b"#US", bytes(size))])


def with_rows(count):
    """`#~` of one Module, so many StandAloneSig and one Assembly row, all zero, so that each index is 2 bytes."""
    tables = struct.pack("<IBBBBQQIII", 0, 2, 0, 0, 1, 1 << 0x00 | 1 << 0x11 | 1 << 0x20, 0, 1, count, 1)
    tables += bytes(10 + 2 * count + 22)
    tables += bytes(-len(tables) % 4)
    return lambda front, streams: root_of(front, [(name, tables if name == b"#~" else old) for name, old in streams])


def limited(memory=MEMORY):
    resource.setrlimit(resource.RLIMIT_AS, (memory, memory))


def told(what, start, run, status, text, kept=True):
    """Prints a line for a run, and answers whether it is as it should be."""
    took = time.monotonic() - start
    right = run.returncode == status and run.stdout == text + "\n" and kept
    print(f"{'as-told' if right else 'DIFFERS'} {took:5.1f} s {run.returncode} [{run.stdout.strip()}] {what}", flush=True)
    return right


def bodies_are_limited(measure):
    """Whether a body of 2^22 instructions and fewer is encoded, and one of more isn't."""
    right = True
    for asked, status, text in [
        (4194300, 0, "body: 4194300 instructions, 12582913 bytes, 1 times"),
        (4194304, 1, "refused: L4 at 4194305"),
    ]:
        start = time.monotonic()
        words = [measure, "body", str(asked), "1"]
        run = subprocess.run(words, stdout=subprocess.PIPE, text=True, preexec_fn=lambda: limited(4 * MEMORY))
        right &= told(f"a body of {asked + 1} instructions", start, run, status, text)
    return right


def sets_are_limited(program, data, folder):
    """Whether files of 64 MiB are read, those of 256 MiB and more together are not, nor one that is longer."""
    target, large, longer, right = folder / "in.dll", folder / "large.dll", folder / "longer.dll", True
    target.write_bytes(data)
    for file, size in [(large, 64 << 20), (longer, (64 << 20) + 1)]:
        with file.open("wb") as new:
            new.truncate(size)
    for files, text in [
        ([target] + [large] * 3, "refused: P1 assembly 1 table 00 row 0 at 0"),
        ([target] + [large] * 4, "refused: L2 assembly 0 table 00 row 0 at 268435457"),
        ([target, large, longer], "refused: L1 assembly 2 table 00 row 0 at 67108865"),
        ([target, folder / "missing.dll", longer], f"store: {folder / 'missing.dll'}"),
    ]:
        start = time.monotonic()
        words = [program, "rewrite", "--out", folder / "out.dll", *files]
        run = subprocess.run(words, stdout=subprocess.PIPE, text=True, preexec_fn=limited)
        status = 3 if text.startswith("store") else 1
        right &= told(f"a set of {len(files)} files", start, run, status, text, not (folder / "out.dll").exists())
    return right


def main():
    program, assembly, *measure = sys.argv[1:]
    data = pathlib.Path(assembly).read_bytes()
    place = "assembly 0 table 00 row 0 at"
    done = "ok: 1 assemblies, 0 methods, 0 clauses"
    runs = [
        ("the last section near the end of all RVAs", far(data), 1, f"refused: P5 {place} {number(data, 60) + 84}"),
        ("#US of 16 MiB", with_root(data, with_user_strings(1 << 24)), 0, done),
        ("#US of 16 MiB and a byte", with_root(data, with_user_strings((1 << 24) + 1)), 1, f"refused: L5 {place} 16777217"),
        ("2^24 - 1 StandAloneSig rows", with_root(data, with_rows((1 << 24) - 1)), 0, done),
        ("2^24 StandAloneSig rows", with_root(data, with_rows(1 << 24)), 1, "refused: L5 assembly 0 table 11 row 0 at 16777216"),
        ("100 streams over each other", with_root(data, lambda *root: root_of(*root, 100)), 0, done),
        ("4,000 streams over each other", with_root(data, lambda *root: root_of(*root, 4000)), 1, f"refused: L6 {place} 134217729"),
    ]
    differs = False
    with tempfile.TemporaryDirectory() as folder:
        source, out = pathlib.Path(folder, "in.dll"), pathlib.Path(folder, "out.dll")
        for what, content, status, text in runs:
            source.write_bytes(content)
            out.write_bytes(b"old")
            start = time.monotonic()
            run = subprocess.run([program, "rewrite", "--out", out, source], stdout=subprocess.PIPE, text=True, preexec_fn=limited)
            kept = out.read_bytes() == b"old" and source.read_bytes() == content
            differs |= not told(what, start, run, status, text, kept == (status == 1))
        out.unlink()
        differs |= not sets_are_limited(program, data, pathlib.Path(folder))
    for it in measure:
        differs |= not bodies_are_limited(it)
    return differs


if __name__ == "__main__":
    sys.exit(main())
