#!/usr/bin/env python3
"""Writes what changed in signatures, clauses, definitions, constants and must-fail edits since a commit, old and new side by side.

Usage: side_by_side.py COMMIT     It puts COMMIT's crates beside those of this checkout, by the toolchain's contracts.py, and
prints the lists that end docs/DESIGN-PASS.md. What is the same is left out.
"""
import io
import json
import os
import subprocess
import sys
import tarfile
import tempfile

ROOT = os.path.dirname(os.path.dirname(os.path.abspath(__file__)))
CONTRACTS = "/opt/rattle/port/contracts.py"


def compared(commit):
    """The comparison of a commit with this checkout."""
    with tempfile.TemporaryDirectory() as old:
        packed = subprocess.run(["git", "-C", ROOT, "archive", commit], check=True, capture_output=True).stdout
        tarfile.open(fileobj=io.BytesIO(packed)).extractall(old)
        told = subprocess.run([sys.executable, CONTRACTS, old, ROOT, "--json"], check=True, capture_output=True, text=True)
    return json.loads(told.stdout)


def clauses(kind, listed):
    return [f"{kind} {name + ' ' if name else ''}{{ {text} }}" for name, text in listed]


def text_of(value):
    return " ".join(value) if isinstance(value, list) else value


def print_list(title, rows):
    """Rows are a name, the old lines and the new ones; lines that both have are left out."""
    print(f"```diff\n@@ {title} @@")
    for name, old, new in rows:
        print(f"  {name}")
        for sign, lines, others in (("-", old, new), ("+", new, old)):
            for line in lines:
                if line not in others:
                    print(f"{sign} {line}")
    print("```\n")


def main(arguments):
    if len(arguments) != 1:
        sys.exit(__doc__)
    found = compared(arguments[0])
    print_list("signatures", [(name, [old], [new]) for name, old, new in found["signatures changed"]])
    print_list(
        "clauses of functions that kept their names",
        [
            (name, clauses("requires", ro) + clauses("ensures", eo), clauses("requires", rn) + clauses("ensures", en))
            for name, ro, eo, rn, en in found["contracts changed"]
        ],
    )
    definitions = found["definitions"]
    print_list(
        "definitions",
        [(f"{crate} {name}", [text_of(old)], [text_of(new)]) for crate, name, old, new in definitions["changed"]],
    )
    ghosts = found["ghost items and constants"]
    print_list(
        "ghost items and constants",
        [(f"{crate} {kind} {name}", [text_of(old)], [text_of(new)]) for crate, kind, name, old, new in ghosts["changed"]],
    )
    edits = found["edits and outputs"]
    print_list("must-fail edits", [(f"{crate} {name}", [old], [new]) for crate, name, old, new in edits["changed"]])
    for title, gone in (
        ("functions not found again", found["functions not found again"]),
        ("definitions gone", definitions["gone"]),
        ("ghost items and constants gone", ghosts["gone"]),
        ("tests gone", found["tests"]["gone"]),
        ("edits and outputs gone", edits["gone"]),
    ):
        print(f"{title}: {len(gone)}", *("  " + text_of(name) for name in gone), sep="\n")


if __name__ == "__main__":
    main(sys.argv[1:])
