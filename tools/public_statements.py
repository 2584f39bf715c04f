#!/usr/bin/env python3
"""Prints each public statement of proofs/ (but not of a function's proof) in one line: crate, file, name, statement.

    tools/public_statements.py              of the tree as it stands
    tools/public_statements.py COMMIT       of a commit

Two commits are compared by `diff` of the two lists. A statement's place in a `module _ ..` is not printed, only what stands behind its name.
"""
import re
import subprocess
import sys
from pathlib import Path

ROOT = Path(__file__).resolve().parent.parent


def files(commit):
    if commit is None:
        for path in sorted(ROOT.glob("crates/*/proofs/*.antt")):
            yield str(path.relative_to(ROOT)), path.read_text()
        return
    names = subprocess.run(["git", "ls-tree", "-r", "--name-only", commit, "crates"], cwd=ROOT, capture_output=True, text=True, check=True).stdout
    for name in sorted(names.split("\n")):
        if re.fullmatch(r"crates/\w+/proofs/\w+\.antt", name):
            yield name, subprocess.run(["git", "show", f"{commit}:{name}"], cwd=ROOT, capture_output=True, text=True, check=True).stdout


def statements(text):
    lines = text.split("\n")
    i = 0
    while i < len(lines):
        found = re.match(r"( *)(?:abbrev )?pub (\S+) : (.*)", lines[i])
        if not found or re.match(r" *pub (use|mod|record|data)\b", lines[i]):
            i += 1
            continue
        indent, name, statement = found.groups()
        i += 1
        # What goes on stands further in.
        while i < len(lines) and lines[i].startswith(indent + "    "):
            statement += " " + lines[i].strip()
            i += 1
        yield name, re.sub(r"\s+", " ", statement)


def main():
    commit = sys.argv[1] if len(sys.argv) > 1 else None
    for path, text in files(commit):
        crate, name = path.split("/")[1], path.split("/")[3][:-5]
        for label, statement in statements(text):
            print(f"{crate}\t{name}\t{label}\t{statement}")


main()
