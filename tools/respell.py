#!/usr/bin/env python3
"""Brings the definitions and lemmas of this repository to today's spelling, after the kit's own script.

usage: python3 tools/respell.py [--list]    at the top of the repository, once

Facts, types and records are in upper camel case (Tests-turn becomes TestsTurn); everything else is in snake case
(most-frames becomes most_frames, firstOn becomes first_on). Names of goals, steps and invariants, which the check makes,
stay; so do comments, strings and Rust code, and the few names in OTHER, which would fall together with another name.
"""
import glob
import re
import sys

# names that the plain rule would make equal to another name, or to a name of std
OTHER = {
    "bit-and": "bit_of_and",
    "bit-or": "bit_of_or",
    "first-unlawful": "first_unlawful_head",
    "firstPlacing": "first_placing_of",
    "isShort": "is_short_set",
    "tests-in": "tests_in_entries",
}

DECLARED = re.compile(
    r"^\s*(?:(?:abbrev|unfoldable|pub)\s+)*(?:(data|record|ruleset)\s+)?([^\s(){}:;.,]+)\s*((?:[({][^:]*:.*?[)}]\s*)*):\s(.*)$")
LOCAL = re.compile(r"\b(?:let|λ|in let) ([^\s:=(.]+)")
TOKEN = re.compile(r"[^\s(){}\[\].,;:«»⟦⟧⌜⌝|&\"]+")
CLAUSE = re.compile(r"^\s*(ghost |requires|ensures|invariant)")


def files(kind):
    found = []
    for part in ("specs", "proofs", "src"):
        found += glob.glob(f"crates/*/{part}/**/*.{kind}", recursive=True)
    return sorted(found)


def is_comment(line):
    return line.lstrip().startswith("--")


def words(name):
    """The parts of a name, between dashes and at inner capitals."""
    return [w for w in re.split(r"-|(?<=[a-zℤ0-9])(?=[A-Z])", name) if w]


def is_made(name, rest):
    """Whether the check makes this name: a goal's, a step's, an invariant's, a measure's or a pick's."""
    return rest.startswith(("goal.", "need.", "given."))


def respelled(name, is_type):
    if name in OTHER:
        return OTHER[name]
    if is_type:
        return "".join(w[0].upper() + w[1:] for w in words(name))
    return "_".join(w[0].lower() + w[1:] for w in words(name))


def wants(name, is_type):
    if name.startswith(("+", "«")) or not re.match(r"^[^\W\d]", name):
        return False
    if name in OTHER:
        return True
    return "-" in name or (not is_type and re.search(r"[a-z][A-Z]", name) is not None)


def table():
    found, made = {}, set()
    for path in files("antt"):
        for line in open(path, encoding="utf-8"):
            if is_comment(line):
                continue
            m = DECLARED.match(line)
            if m and m[2] not in ("module", "use"):
                if is_made(m[2], m[4].strip()):
                    made.add(m[2])
                else:
                    is_type = m[1] in ("data", "record") or re.search(r"Type( \d+)?( where)?\s*$", m[4].strip()) is not None
                    if wants(m[2], is_type):
                        found[m[2]] = respelled(m[2], is_type)
            for m in LOCAL.finditer(line):
                if wants(m[1], False):
                    found.setdefault(m[1], respelled(m[1], False))
    return {a: b for a, b in found.items() if a not in made}


def turn_line(line, names):
    def turn(m):
        return names.get(m[0], m[0])
    return TOKEN.sub(turn, line)


def turn_rt(text, names):
    """Clauses and ghost lines only: braces that a clause opens are followed to their end."""
    out, depth = [], 0
    for line in text.splitlines(keepends=True):
        if depth > 0 or (CLAUSE.match(line) and not line.lstrip().startswith("//")):
            new = turn_line(line, names)
            depth = max(0, depth + line.count("{") - line.count("}"))
            out.append(new)
        else:
            out.append(line)
    return "".join(out)


def main():
    names = table()
    if "--list" in sys.argv:
        for a, b in sorted(names.items()):
            print(a, b)
        return
    for path in files("antt"):
        text = open(path, encoding="utf-8").read()
        new = "".join(l if is_comment(l) else turn_line(l, names) for l in text.splitlines(keepends=True))
        if new != text:
            open(path, "w", encoding="utf-8").write(new)
    for path in files("rt"):
        text = open(path, encoding="utf-8").read()
        new = turn_rt(text, names)
        if new != text:
            open(path, "w", encoding="utf-8").write(new)


if __name__ == "__main__":
    main()
