#!/usr/bin/env python3
"""Writes the names of goals and steps in proof files as the check makes them today: python3 tools/goal_names.py [ROOT]

An older check wrote the underscores of the source's names as dashes: in-err-next is in_err-next, part-count is part_count.
Only Answers.antt and Invariants.antt are turned, and no name of a lemma.
"""

import os
import re
import sys

TOKEN = re.compile(r"[^\s(){}.,;\[\]\"@:]+")
SNAKE = re.compile(r"\b[a-z][a-z0-9]*(?:_[a-z0-9]+)+\b")
MADE = "in_err in_ok in_default from_residual overflow_add overflow_sub overflow_mul overflow_cast overflow_step overflow_neg overflow_shl overflow_shr nonzero_div nonzero_rem slice_bounds offset_bounds type_inv invariant_of well_formed".split()


def text(path):
    with open(path, encoding="utf-8") as f:
        return f.read()


def walk(root):
    for folder, dirs, names in os.walk(os.path.join(root, "crates")):
        dirs[:] = sorted(d for d in dirs if d != "out")
        for name in sorted(names):
            yield os.path.join(folder, name)


def main(argv):
    root = argv[0] if argv else "."
    names, lemmas = set(MADE), set()
    for path in walk(root):
        if path.endswith(".rt"):
            names.update(SNAKE.findall(re.sub(r"//.*", "", text(path))))
        elif path.endswith(".antt") and not path.endswith(("/Answers.antt", "/Invariants.antt")):
            for line in text(path).split("\n"):
                m = re.match(r"\s*(?:(?:pub|abbrev|unfoldable)\s+)*([^\s:(){},;.=|]+)(?=\s|:)", re.sub(r"--.*", "", line))
                if m:
                    lemmas.add(m[1])
    dashed = sorted(((n.replace("_", "-"), n) for n in names), key=lambda x: -len(x[0]))

    def put(m):
        t = m[0]
        if "-" not in t or t in lemmas:
            return t
        for old, new in dashed:
            t = re.sub(rf"(?<![A-Za-z0-9_]){re.escape(old)}(?![A-Za-z0-9_])", new, t)
        return t

    count = 0
    for path in walk(root):
        if path.endswith(("/Answers.antt", "/Invariants.antt")):
            old = text(path)
            new = "".join(p if p.startswith("--") else TOKEN.sub(put, p) for p in re.split(r"(--.*)", old))
            if new != old:
                count += 1
                with open(path, "w", encoding="utf-8") as f:
                    f.write(new)
    print(f"{count} files turned")


if __name__ == "__main__":
    sys.exit(main(sys.argv[1:]))
