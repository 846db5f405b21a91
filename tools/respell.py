#!/usr/bin/env python3
"""Brings the definitions and lemmas of this repository to the spelling of today's Rattle, once, after port.py.

usage: python3 tools/respell.py [--map FILE]

Words are in snake case, types in upper camel case. A dash joins two names (those of functions that specs/ defines, or the
library's); a plain word hangs on by an underscore. Names of src/ and generated names stay. The map from old to new names is
made from the tree itself and, with --map, is written to FILE. Files are rewritten in place.
"""

import argparse
import os
import re
import sys

DECLARED = re.compile(r"^( *)(?:pattern )?(?:unfoldable )?(?:abbrev )?(?:pub )?([^\s:(){}.,;]+)(?: \{[^}]*\})? : (.*)$")
TOKEN = re.compile(r"[^\s(){}\[\].,;«»|`\"/=]+")
# words of the library by which the lemmas of this repository are named
LIBRARY = {"length", "map", "set", "get_or", "take", "drop", "min", "eqb", "leb", "ltb", "pick"}


def texts(top, suffixes):
    for folder, dirs, files in os.walk(os.path.join(top, "crates")):
        dirs[:] = sorted(d for d in dirs if d != "out")
        for f in sorted(files):
            if f.endswith(suffixes):
                yield os.path.join(folder, f)


def shared(path):
    """Whether a file holds definitions or lemmas, and not the proof of one function."""
    return os.path.basename(os.path.dirname(path)) in ("specs", "proofs")


def snake(word):
    return re.sub(r"(?<=[a-z0-9])(?=[A-Z])", "_", word).lower() if word[:1].islower() else word


def declared(top):
    """The names that specs/ and the lemma files declare, with the crate and whether a declaration is a definition."""
    names, functions = {}, set()
    for p in texts(top, ".antt"):
        if not shared(p):
            continue
        with open(p, encoding="utf-8") as f:
            for line in f:
                m = DECLARED.match(line)
                if not m or line.lstrip().startswith(("--", "use ", "module ", "let ", "unfolding ")):
                    continue
                name = m.group(2)
                names.setdefault(name, set()).add(p)
                if "-" not in name and "_" in snake(name):
                    functions.add(name)
    return names, functions


def spelled(name, functions):
    if not re.match(r"^[a-z][A-Za-z0-9₀-₉'ℕ_-]*$", name):
        return name
    parts = name.split("-")
    out = snake(parts[0])
    for before, part in zip(parts, parts[1:]):
        joined = (before in functions or snake(before) in LIBRARY) and (part in functions or snake(part) in LIBRARY)
        out += ("-" if joined or part[:1].isupper() else "_") + snake(part)
    return out


def main(argv):
    p = argparse.ArgumentParser(description=__doc__, formatter_class=argparse.RawDescriptionHelpFormatter)
    p.add_argument("--map", metavar="FILE")
    given = p.parse_args(argv)
    top = os.path.dirname(os.path.dirname(os.path.abspath(__file__)))
    names, functions = declared(top)
    turned = {n: spelled(n, functions) for n in names}
    turned = {n: m for n, m in turned.items() if n != m}
    # a lemma that would have its function's name ends in _lem
    paths = list(texts(top, (".antt", ".rt")))
    short = set(names) - set(turned) | {turned[n] for n in turned if "-" not in n}
    for n in turned:
        if "-" in n and turned[n] in short:
            turned[n] += "_lem"
    for path in paths:
        with open(path, encoding="utf-8") as f:
            words = set(TOKEN.findall(f.read()))
        back = {}
        for w in words:
            back.setdefault(turned.get(w, w), set()).add(w)
        for m, ws in sorted(back.items()):
            if len(ws) > 1 and path.endswith(".antt"):
                print(f"falls together in {os.path.relpath(path, top)}: {', '.join(sorted(ws))} -> {m}")
    for path in paths:
        with open(path, encoding="utf-8") as f:
            text = f.read()
        new = TOKEN.sub(lambda m: turned.get(m.group(0), m.group(0)), text)
        if new != text:
            with open(path, "w", encoding="utf-8") as f:
                f.write(new)
    if given.map:
        with open(given.map, "w", encoding="utf-8") as f:
            f.writelines(f"{a} {b}\n" for a, b in sorted(turned.items()))
    print(f"{len(turned)} names turned")
    return 0


if __name__ == "__main__":
    raise SystemExit(main(sys.argv[1:]))
