#!/usr/bin/env python3
"""Checks that docs/DEFINITIONS.md has each file of specs/ and each definition that a public clause cites.

Usage: tools/check_definitions.py
Prints a line for each that is missing and ends with status 1 where there is one. Needs Python 3.8.
"""
import pathlib
import re
import sys

TOP = pathlib.Path(__file__).resolve().parent.parent
PAGE = (TOP / "docs" / "DEFINITIONS.md").read_text()
WORDS = set(re.findall(r"[^\s`|,;:(){}]+", PAGE))
IMPORT = re.compile(r"^\s*ghost use Rattle\.(\w+)\.specs\.([\w.]+?)\.\{(.*?)\};", re.M | re.S)
CLAUSES = re.compile(r"^\s*pub fn .*?\n(?P<clauses>(?:\s*(?:requires|ensures|ghost)\b.*?\n)*)\s*\{", re.M | re.S)


def imported(text, crates):
    """The names that the file's clauses take from specs of this repository, each with its file."""
    names = {}
    for crate, file, inner in IMPORT.findall(text):
        if crate in crates and not file.startswith(("declared", "contracts")):
            for name in re.split(r",\s*", inner.strip()):
                names[name.split(" as ")[0]] = f"{crate}, {file}.antt"
    return names


def signatures(text):
    """The text of each public function from its name to its body."""
    for found in re.finditer(r"^\s*pub fn ", text, re.M):
        rest = text[found.start():]
        end = re.search(r"^\s*\{\s*$|^[^\n]*\{\s*$", rest, re.M)
        yield rest[: end.end() if end else 400]


def main():
    crates = {it.name for it in (TOP / "crates").iterdir() if (it / "src").is_dir()}
    missing = []
    for crate in sorted(crates):
        root = TOP / "crates" / crate
        for spec in sorted(root.glob("specs/**/*.antt")):
            if spec.name != "Lib.antt" and spec.name not in PAGE:
                missing.append(f"{crate}: {spec.name} is not in docs/DEFINITIONS.md")
        for source in sorted(root.glob("src/**/*.rt")):
            text = source.read_text()
            names = imported(text, crates)
            cited = {name for part in signatures(text) for name in names if re.search(rf"(?<![\w.]){re.escape(name)}(?!\w)", part)}
            missing += [f"{crate}: {name} of {names[name]} is not in docs/DEFINITIONS.md" for name in sorted(cited - WORDS)]
    print("\n".join(missing) or "each is there")
    return 1 if missing else 0


if __name__ == "__main__":
    sys.exit(main())
