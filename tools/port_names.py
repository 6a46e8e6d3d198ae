#!/usr/bin/env python3
"""Spells the repository's own definitions and lemmas as today's Rattle does, once, behind /opt/rattle/port/port.py.

usage: python3 tools/port_names.py [--list]     at the top of the repository

A name that a file of specs/ or proofs/ declares and that begins with a small letter is turned to snake case (`typeVisits`: `type_visits`); a dash stays, since it
joins two names (`sets-append`). A function that mirrors the source's method `T.ToString` is `T-to_string`, a type and a name that a dash joins. Types, facts,
constructors and the source's own function names (`IsBox`, `ReplaceMap`) keep their spelling, and so do Rust's names, strings and the text of comments that no
such name is. A name that would meet another one in some file is said, and the run then changes no more. --list says the names alone.
"""

import collections
import os
import re
import sys

TOKEN = re.compile(r'"(?:[^"\\]|\\.)*"|[^\s(){}.;,@"«»:`]+(?::(?![:\s])[^\s(){}.;,@"«»:`]+)*')
DECLARED = re.compile(r"(?m)^ *(?:(?:abbrev|unfoldable|pub) )*([^\s:({})]+)(?: \{[^{}\n]*\}| \([^()\n]*\))* :\s")
# A lemma of one file that would meet a definition gets a name by its left side first.
FIRST = {"crates/declaration_walk/proofs/Steps.antt": {"in_field": "left_of-in_field"}}
MIRROR = re.compile(r"(\w+)(?:-as-|·)ToString(Multiple)?")


def files(*endings):
    for top in ("crates", "docs"):
        for folder, dirs, names in os.walk(top):
            dirs[:] = sorted(it for it in dirs if it != "out")
            for name in sorted(names):
                if name.endswith(endings):
                    yield os.path.join(folder, name)


def text_of(path):
    with open(path, encoding="utf-8") as f:
        return f.read()


def turn(path, names):
    text = text_of(path)
    new = TOKEN.sub(lambda m: names.get(m[0], m[0]), text)
    if new != text:
        with open(path, "w", encoding="utf-8") as f:
            f.write(new)


def snake(name):
    mirror = MIRROR.fullmatch(name)
    if mirror:
        return f"{mirror[1]}-to_string" + ("_multiple" if mirror[2] else "")
    if not name[:1].islower():
        return name
    return re.sub(r"(?<=[a-z0-9])[A-Z]", lambda m: "_" + m[0].lower(), name)


def main():
    for path, names in {} if "--list" in sys.argv else FIRST.items():
        turn(path, names)
    turned = {}
    for path in files(".antt"):
        if not path.endswith("/Proof.antt"):
            for name in DECLARED.findall(text_of(path)):
                if snake(name) != name:
                    turned[name] = snake(name)
    mirrored = {it[0].replace("·", "-as-"): it[1] for it in turned.items() if MIRROR.fullmatch(it[0])}
    turned |= mirrored | {it.replace("-as-", "·"): new for it, new in mirrored.items()}
    if "--list" in sys.argv:
        for name in sorted(turned):
            print(f"{name}\t{turned[name]}")
        return 0
    met = collections.defaultdict(set)
    for path in files(".antt"):
        words = set(TOKEN.findall(text_of(path)))
        for name in words & turned.keys():
            met[path, turned[name]].add(name)
        for name in words & set(turned.values()):
            met[path, name].add(name)
    meets = {it: names for it, names in met.items() if len(names) > 1 and not is_a_function(*it)}
    for (path, name), names in meets.items():
        print(f"{path}: {', '.join(sorted(names))} would be one: {name}")
    if meets:
        return 1
    for path in files(".antt", ".rt", ".edit", ".md"):
        turn(path, turned)
    return 0


def is_a_function(path, name):
    """Whether name is there only as a function of the crates, in a path or as a step of a proof."""
    text = text_of(path)
    return not re.search(rf"(?<![\w.'-]){re.escape(name)}(?![\w'-])", re.sub(rf"Rattle\.\w+\.proofs\.{re.escape(name)}\b", "", text))


if __name__ == "__main__":
    sys.exit(main())
