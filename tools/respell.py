#!/usr/bin/env python3
"""Brings the repository's own definitions and lemmas to today's spelling: words in snake case, types and facts in camel case.

usage: python3 tools/respell.py            at the top, once, right after port.py
       python3 tools/respell.py --list     prints the names and changes nothing

A name is turned if a file below specs/ or proofs/ declares it, it begins with a small letter and has a capital inside: `nextChunk` becomes
`next_chunk`. Each name is turned everywhere in specs/, proofs/ and the clauses of src/; not in strings, and functions, types, fields and
constants of src/ keep their names. It stops where two names would fall together.
"""

import glob
import re
import sys

# facts that the older spelling began with a small letter
FACTS = {"are_bytes": "AreBytes", "isFree": "IsFree"}
# lemmas whose dash port.py took for a word's: each is about the definition of the other name, and keeps its dash beside it
DASHED = {"offset_at": "offset-at", "turn_at": "turn-at", "none_left": "none-left", "body_bytes": "body-bytes", "is_open": "is-open", "in_place": "in-place"}
DECLARED = re.compile(r"^\s*(?:(?:abbrev|unfoldable|pub) )*([a-z][^\s:(){}]*) :(?: |$)")
WORD = r"[A-Za-z0-9_'+\u03bc\u2032-]"


def snake(name):
    parts = []
    for part in name.split("-"):
        part = re.sub(r"([a-z0-9])([A-Z])([a-z]|\b|(?=[A-Z_]))", lambda m: m[1] + "_" + m[2].lower() + m[3], part)
        while re.search(r"[a-z0-9][A-Z]", part):
            part = re.sub(r"([a-z0-9])([A-Z])", lambda m: m[1] + "_" + m[2].lower(), part)
        parts.append(part)
    return "-".join(parts)


def files():
    for kind in ("specs", "proofs"):
        yield from sorted(glob.glob(f"crates/*/{kind}/**/*.antt", recursive=True))


def main():
    declared = {}
    for path in files():
        for line in open(path, encoding="utf-8"):
            m = DECLARED.match(line)
            if m:
                declared.setdefault(m[1], set()).add(path)
    turned = {n: snake(n) for n in declared if re.search(r"[a-z0-9][A-Z]", n)} | FACTS
    bad = [f"{n} and {turned[n]}" for n in turned if turned[n] in declared and turned[n] not in DASHED]
    seen = {}
    for n, to in turned.items():
        if to in seen:
            bad.append(f"{n} and {seen[to]}: {to}")
        seen[to] = n
    if "--list" in sys.argv:
        for n in sorted(turned):
            print(n, turned[n], sorted(declared[n])[0])
    if bad:
        print("these fall together:", *bad, sep="\n  ", file=sys.stderr)
        raise SystemExit(2)
    if "--list" in sys.argv:
        return
    token = re.compile(rf"(?<!{WORD})({'|'.join(re.escape(n) for n in sorted(turned, key=len, reverse=True))})(?!{WORD})")
    dashed = re.compile(rf"(?<!{WORD})(?<!\.)({'|'.join(DASHED)})(?!{WORD})(?!\.)")
    n = 0
    for path in [*files(), *sorted(glob.glob("crates/*/src/**/*.rt", recursive=True))]:
        old = open(path, encoding="utf-8").read()
        if path.endswith(".antt"):
            old_text, old = old, dashed.sub(lambda m: DASHED[m[1]], old)
        else:
            old_text = old
        new = "".join(p if i % 2 else token.sub(lambda m: turned[m[1]], p) for i, p in enumerate(re.split(r'("(?:[^"\\\n]|\\.)*")', old))) if path.endswith(".rt") else token.sub(lambda m: turned[m[1]], old)
        if new != old_text:
            open(path, "w", encoding="utf-8").write(new)
            n += 1
    print(f"respell: {len(turned)} names, {n} files")


main()
