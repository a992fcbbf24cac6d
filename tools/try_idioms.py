#!/usr/bin/env python3
"""Compiles each contract of idioms.cs with mcs, in a debug and in an optimised build, and holds what `list` says against what is expected.

    tools/try_idioms.py PROGRAM [NAME..]

PROGRAM is the built ccrewrite. A line is printed for each idiom that isn't as expected, and at the end how many are. The status is 1 where
one isn't.
"""
import os
import re
import subprocess
import sys
import tempfile
from concurrent.futures import ThreadPoolExecutor

HERE = os.path.dirname(os.path.abspath(__file__))
HEAD = re.compile(r"^// == (\w+)(?:: (.*))?$")
BUILDS = {"debug": ["-debug", "-optimize-"], "optimised": ["-optimize+"]}


def parts():
    """The support and the idioms: name, what is expected of each build, source."""
    found, name = {}, None
    with open(os.path.join(HERE, "idioms.cs")) as file:
        for line in file:
            head = HEAD.match(line)
            if head:
                name = head.group(1)
                found[name] = (head.group(2), [])
            elif name:
                found[name][1].append(line)
    support = "".join(found.pop("support")[1])
    return support, {n: (expected_of(e), "".join(lines)) for n, (e, lines) in found.items()}


def expected_of(text):
    first, _, second = text.partition("optimised:")
    first = first.strip()
    return {"debug": first, "optimised": second.strip() or first}


def compiled(folder, name, build, support, source):
    path = os.path.join(folder, f"{name}_{build}")
    with open(path + ".cs", "w") as file:
        file.write(f"{support}\npublic partial class Idiom {{\n{source}\n}}\n")
    words = ["mcs", "-nologo", "-warn:0", "-target:library", "-define:CONTRACTS_FULL", *BUILDS[build]]
    done = subprocess.run([*words, f"-out:{path}.dll", path + ".cs"], capture_output=True, text=True)
    return path + ".dll", done.stdout + done.stderr if done.returncode else None


def listed(program, path):
    """What `list` says of the contracts in an assembly, in the words of idioms.cs."""
    done = subprocess.run([program, "list", path], capture_output=True, text=True)
    if done.returncode == 1:
        return "refused " + done.stdout.split()[1], done.stdout.strip()
    if done.returncode:
        return f"status {done.returncode}", done.stdout.strip()
    clauses = [line.split()[1] for line in done.stdout.splitlines() if line.startswith("clause ")]
    return " ".join(label.split("/")[-2] for label in clauses) or "none", "; ".join(clauses)


def tried(program, folder, support, name, expected, source):
    lines = []
    for build in BUILDS:
        path, wrong = compiled(folder, name, build, support, source)
        if wrong:
            lines.append(f"{name} ({build}): {wrong.strip()}")
            continue
        said, detail = listed(program, path)
        if said != expected[build]:
            lines.append(f"{name} ({build}): expected {expected[build]}, is {said}: {detail}")
    return lines


def main():
    program = os.path.abspath(sys.argv[1])
    support, idioms = parts()
    chosen = sys.argv[2:] or list(idioms)
    with tempfile.TemporaryDirectory() as folder, ThreadPoolExecutor(os.cpu_count()) as pool:
        results = list(pool.map(lambda n: tried(program, folder, support, n, *idioms[n]), chosen))
    for lines in results:
        for line in lines:
            print(line)
    right = sum(not lines for lines in results)
    accepted = sum("refused" not in idioms[n][0]["debug"] for n in chosen)
    print(f"{right} of {len(chosen)} idioms as expected ({accepted} accepted, {len(chosen) - accepted} refused)")
    sys.exit(0 if right == len(chosen) else 1)


if __name__ == "__main__":
    main()
