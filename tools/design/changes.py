#!/usr/bin/env python3
"""What the crates promise now and what they promised at a commit, old and new beside one another, as the end of docs/DESIGN-PASS.md has it.

  python3 tools/design/changes.py COMMIT        at the top of the repository

It takes the comparison of the kit (port/contracts.py) and prints the signatures and clauses of public functions, the ghost items and the definitions that
changed or are gone. Private functions, imports and proofs are left out.
"""
import io
import json
import pathlib
import re
import subprocess
import sys
import tarfile
import tempfile

commit = sys.argv[1]
kit = pathlib.Path(subprocess.run(["rt", "doc"], capture_output=True, text=True, check=True).stdout.strip()).parent
with tempfile.TemporaryDirectory() as old:
    archive = subprocess.run(["git", "archive", commit], capture_output=True, check=True).stdout
    tarfile.open(fileobj=io.BytesIO(archive)).extractall(old)
    said = subprocess.run([sys.executable, kit / "port/contracts.py", old, ".", "--json"], capture_output=True, text=True, check=True)
    found = json.loads(said.stdout)
    given = set()
    for source in pathlib.Path(old, "crates").glob("*/src/**/*.rt"):
        path = source.relative_to(pathlib.Path(old, "crates"))
        for name in re.findall(r"pub fn (\w+)", source.read_text()):
            given.add((path.parts[0], "/".join(path.parts[1:]), name))


def short(name):
    """Crate and function without the file, which may be gone."""
    return " ".join(w for w in name.rsplit(" (", 1)[0].split() if "/" not in w)


def text(it):
    return " ".join(" ".join(map(str, it)).split()) if isinstance(it, list) else " ".join(str(it).split())


def beside(title, rows):
    if rows:
        print(f"\n{title}\n\n```diff")
        for name, old, new in rows:
            print(f"  {name}")
            for sign, lines in (("-", old), ("+", new)):
                for line in lines:
                    print(f"{sign} {line}")
        print("```")


def clauses(kind, rows):
    return [f"{kind} {c[0]} {{ {text(c[1])} }}".replace(f"{kind}  {{", f"{kind} {{") for c in rows]


def is_given(name):
    words = name.split()
    return (words[0], words[1], words[-1]) in given


public = [row for row in found["signatures changed"] if is_given(row[0])]
beside("Signatures of public functions:", [(short(row[0]), [text(row[1])], [text(row[2])]) for row in public])
beside("Clauses, of private functions too:", [
    (short(row[0]), clauses("requires", row[1]) + clauses("ensures", row[2]), clauses("requires", row[3]) + clauses("ensures", row[4]))
    for row in found["contracts changed"]])
for label, title in (("ghost items and constants", "Ghost items and constants:"), ("definitions", "Definitions:")):
    rows = [(" ".join(row[:-2]), [text(row[-2])], [text(row[-1])]) for row in found[label]["changed"]]
    beside(title, rows)
    gone = [" ".join(row) for row in found[label]["gone"]]
    if gone:
        print(f"\nGone: {', '.join(f'`{it}`' for it in gone)}.")
print(f"\nFunctions that are not found again: {', '.join(f'`{short(it)}`' for it in found['functions not found again'])}.")
