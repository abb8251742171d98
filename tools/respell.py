#!/usr/bin/env python3
"""Brings the repository's own definitions and lemmas to today's spelling, in place: python3 tools/respell.py [ROOT] [--look]

Run once, at the top, after the toolchain's port.py. It goes by text:
  a definition, field, lemma or parameter in lowerCamel      is written in snake case: endBay is end_bay
  a lemma's name keeps the dashes between its parts          bindNames-append is bind_names-append
  a field of a record, and a definition that is no lemma,    has underscores for its dashes: end-bay-need is end_bay_need
  a type or a fact with dashes                               is written in one word: Literal-laws is LiteralLaws
Names that src/ declares, names of goals, strings, inputs and outputs keep their spelling. --look writes nothing and lists
what would change, and which new names stand in the repository already.
"""

import collections
import os
import re
import sys

TOKEN = re.compile(r"[^\s(){}.,;\[\]\"@:]+")
DECLARED = re.compile(
    r"(\s*)(?:(?:pub|abbrev|unfoldable|opaque|instance)\s+)*(?:(record|data)\s+)?([^\s:(){},;.=|]+)(?=\s|:)[^=]*?:(?:\s|$)"
)
GOAL = re.compile(r":\s*goal\.")
WORDS = {"use", "mod", "module", "let", "in", "where", "infixl", "infixr", "infix", "unfolding", "mutual", "open"}
# names that would fall together with another one, or with a field of src/
BY_HAND = {
    "ofVariable": "of_a_variable",
    "ofFunction": "of_a_function",
    "threeBaysMarked": "three_marked_bays",
    "with-words": "words_alike",
    "with-bays": "bays_alike",
    "with-fuel": "fuel_alike",
    "returnTo": "return_into",
    "getD-above": "get_or-above",
}
CAMEL = re.compile(r"(?<=[a-z0-9'])(?=[A-Z])")


def files(root, ending):
    for folder, dirs, names in os.walk(os.path.join(root, "crates")):
        dirs[:] = sorted(d for d in dirs if d != "out")
        for name in sorted(names):
            if name.endswith(ending):
                yield os.path.join(folder, name)


def text(path):
    with open(path, encoding="utf-8") as f:
        return f.read()


def declared(root):
    """Names that specs/ and proofs/ declare: whether it is ever a field, a type, or a definition of specs/."""
    kinds = collections.defaultdict(set)
    for path in files(root, ".antt"):
        in_specs = "/specs/" in path
        record = None
        for line in text(path).split("\n"):
            line = re.sub(r"--.*", "", line)
            m = DECLARED.match(line)
            if not m or m[3] in WORDS or GOAL.search(line):
                continue
            indent = len(m[1])
            if record is not None and indent <= record:
                record = None
            name = m[3]
            if m[2]:
                kinds[name].add("type")
                record = indent if m[2] == "record" else None
            elif record is not None:
                kinds[name].add("field")
            else:
                kinds[name].add("specs" if in_specs else "lemma")
    return kinds


def snake(segment):
    return CAMEL.sub("_", segment).lower() if segment[:1].islower() and CAMEL.search(segment) else segment


def respelled(name, kinds):
    if name in BY_HAND:
        return BY_HAND[name]
    if not re.match(r"[A-Za-z]", name):
        return name
    if name[0].isupper():
        parts = name.split("-")
        if len(parts) > 1 and len(parts[0]) > 1 and kinds & {"type", "specs"}:
            return "".join(p[:1].upper() + p[1:] for p in parts)
        return name
    new = "-".join(snake(p) for p in name.split("-"))
    return new.replace("-", "_") if kinds & {"field", "specs"} else new


def mapping(root):
    kinds = declared(root)
    found = collections.Counter()
    for path in files(root, ".antt"):
        found.update(TOKEN.findall(text(path)))
    # parameters and variables are turned as well: a lowerCamel token that nobody declares
    names = {n: kinds.get(n, set()) for n in found}
    turned = {n: respelled(n, k) for n, k in names.items() if k or CAMEL.search(n)}
    return {n: to for n, to in turned.items() if n != to}, found, kinds


def look(turned, found):
    back = collections.defaultdict(list)
    for n, to in sorted(turned.items()):
        print(f"{n} -> {to}")
        back[to].append(n)
    for to, olds in sorted(back.items()):
        if len(olds) > 1:
            print(f"fall together: {' '.join(olds)} -> {to}")
        if to in found:
            print(f"stands already: {' '.join(olds)} -> {to} ({found[to]} times)")


def turn(root, turned):
    def put(m):
        return turned.get(m[0], m[0])

    for path in [*files(root, ".antt"), *files(root, ".rt")]:
        old = text(path)
        # a string of the program stays as it is
        new = "".join(p if p.startswith('"') else TOKEN.sub(put, p) for p in re.split(r'("(?:[^"\\\n]|\\.)*")', old))
        if new != old:
            with open(path, "w", encoding="utf-8") as f:
                f.write(new)


def main(argv):
    root = next((a for a in argv if not a.startswith("-")), ".")
    turned, found, _ = mapping(root)
    if "--look" in argv:
        look(turned, found)
        return 0
    turn(root, turned)
    print(f"{len(turned)} names respelled")
    return 0


if __name__ == "__main__":
    sys.exit(main(sys.argv[1:]))
