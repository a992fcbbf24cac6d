#!/usr/bin/env python3
"""Prints the libraries that a crate lists in crates.txt and names in no source, spec, proof or edit of its own.

A library that only the crates below need is found through them. Each one that is listed for nothing multiplies the
ways by which the crates below are reached, and a run of the gate walks those ways before it proves anything.

With --write, crates.txt is written without them.
"""
import pathlib
import re
import sys

TOP = pathlib.Path(__file__).resolve().parent.parent
WORD = re.compile(r"[A-Za-z_][A-Za-z0-9_]*")


def words_of(crate):
    """Returns the words of a crate's own files."""
    found = set()
    for part in ("src", "specs", "proofs", "must-fail"):
        for file in sorted((TOP / "crates" / crate / part).rglob("*")):
            if file.suffix in (".rt", ".antt", ".edit"):
                found.update(WORD.findall(file.read_text()))
    return found


def ways(listed):
    """Returns how many ways lead down from the crates, each library counted as often as it is reached."""
    known = {}

    def of(crate):
        if crate not in known:
            known[crate] = 1 + sum(of(it) for it in listed.get(crate, []))
        return known[crate]

    return sum(of(it) for it in listed)


def main():
    lines, before, after = [], {}, {}
    for line in (TOP / "crates.txt").read_text().splitlines():
        match = re.fullmatch(r"(\w+):(.*)", line)
        if not match:
            lines.append(line)
            continue
        crate, libraries = match.group(1), match.group(2).split()
        named = words_of(crate)
        kept = [it for it in libraries if it in named]
        before[crate], after[crate] = libraries, kept
        if kept != libraries:
            print(f"{crate}: {' '.join(it for it in libraries if it not in named)}")
        lines.append(f"{crate}: {' '.join(kept)}".rstrip() if kept else f"{crate}:")
    print(f"{ways(before)} ways down, {ways(after)} with those that are named")
    if "--write" in sys.argv[1:]:
        (TOP / "crates.txt").write_text("\n".join(lines) + "\n")


if __name__ == "__main__":
    main()
