#!/usr/bin/env python3
"""Lists the places in src/ that docs/DESIGN-PASS.md counts.

Usage: places.py POINT [ROOT]     POINT is enums, codes, sentinels, counting, ladders, casts, clauses, parameters, buffers
or switches; ROOT is a checkout (default: the one this file is in). Each place is a line, and the last line is their number.
"""
import collections
import os
import re
import sys


def sources(root):
    for folder, _, names in os.walk(os.path.join(root, "crates")):
        for name in sorted(names):
            if name.endswith(".rt") and os.sep + "out" + os.sep not in folder + os.sep:
                path = os.path.join(folder, name)
                yield os.path.relpath(path, root), open(path, encoding="utf-8").read()


def lines_like(root, pattern):
    """Lines of code, without comments, that a pattern fits."""
    found = []
    for path, text in sources(root):
        for number, line in enumerate(text.split("\n"), 1):
            code = line.split("//")[0]
            if re.search(pattern, code) and not code.lstrip().startswith(("ghost ", "use ")):
                found.append(f"{path}:{number}: {code.strip()}")
    return found


def functions(text):
    """Each function's head, from its `fn` to where its body opens."""
    for match in re.finditer(r"^ *(?:pub(?:\(crate\))? )?(?:unsafe )?(?:extern \"C\" )?fn (\w+)", text, re.M):
        rest = text[match.start():]
        end = re.search(r"\{\}?[ \t]*$|;[ \t]*$", rest, re.M)
        yield match.group(1), rest[: end.start()] if end else rest


def clauses(root):
    """Clauses that stand, to the letter, in the contracts of three or more functions."""
    where = collections.defaultdict(list)
    for path, text in sources(root):
        for name, head in functions(text):
            for clause in re.finditer(r"^\s+(requires|ensures)\*?(?: \w+)? \{", head, re.M):
                depth, at = 1, clause.end()
                while at < len(head) and depth:
                    depth += {"{": 1, "}": -1}.get(head[at], 0)
                    at += 1
                words = " ".join(head[clause.end(): at - 1].split())
                where[clause.group(1) + " " + words].append(f"{path} {name}")
    return [
        f"{len(places)} functions: {clause}"
        for clause, places in sorted(where.items(), key=lambda item: -len(item[1]))
        if len(places) >= 3
    ]


def parameters(root):
    """Pairs of neighbouring parameters, by name and type, that three or more functions of one crate share."""
    where = collections.defaultdict(set)
    for path, text in sources(root):
        crate = path.split(os.sep)[1]
        for name, head in functions(text):
            inside = re.search(r"fn \w+(?:<[^(]*>)?\((.*?)\)\s*(?:->|requires|ensures|$|\n)", head + "\n", re.S)
            if not inside:
                continue
            listed = [" ".join(p.split()) for p in re.split(r",(?![^<\[(]*[>\])])", inside.group(1)) if ":" in p]
            for pair in zip(listed, listed[1:]):
                where[(crate, *pair)].add(f"{path} {name}")
    return [
        f"{len(places)} functions of {pair[0]}: {pair[1]}, {pair[2]}"
        for pair, places in sorted(where.items(), key=lambda item: -len(item[1]))
        if len(places) >= 3
    ]


POINTS = {
    "enums": lambda root: lines_like(root, r"^\s*(pub(\(crate\))? )?enum "),
    "codes": lambda root: lines_like(root, r"-> u8\b"),
    "sentinels": lambda root: lines_like(root, r"\bnone: T\b|Unknown,$"),
    "counting": lambda root: lines_like(root, r"count - 1\b|\bwhile \w+ (>|<)|\bfor \w+ in 0\.\."),
    "ladders": lambda root: lines_like(root, r"Err\(_\) => |Ok\(\w+\) => Ok\(|Ok\(\w+\) => \w+,|else \{ None \}|=> return Err\("),
    "casts": lambda root: lines_like(root, r"\bas (u8|u16|u32|i32|i64|usize|f64)\b"),
    "clauses": clauses,
    "parameters": parameters,
    "buffers": lambda root: lines_like(root, r"^\s*(pub(\(crate\))? )?\w+: (\[\w+; \d+\]|&'a mut \[\w+\]|Vec<\w+>),$"),
    "switches": lambda root: lines_like(root, r"^\s*match "),
}


def main():
    if len(sys.argv) < 2 or sys.argv[1] not in POINTS:
        sys.exit(__doc__)
    here = os.path.dirname(os.path.dirname(os.path.abspath(__file__)))
    found = POINTS[sys.argv[1]](sys.argv[2] if len(sys.argv) > 2 else here)
    print("\n".join(found))
    print(len(found))


main()
