#!/usr/bin/env python3
"""Counts the places of the design pass (docs/DESIGN-PASS.md) in crates/*/src.

usage: python3 tools/design_places.py [-v] [COMMIT]     at the top of the repository; without COMMIT the files as they stand, with -v each place
"""
import re, subprocess, sys
from collections import defaultdict

args = [a for a in sys.argv[1:] if a != "-v"]
verbose = "-v" in sys.argv[1:]
commit = args[0] if args else None


def run(*cmd):
    return subprocess.run(cmd, capture_output=True, text=True, check=True).stdout


def sources():
    if commit:
        names = run("git", "ls-tree", "-r", "--name-only", commit, "crates").split("\n")
    else:
        names = run("git", "ls-files", "crates").split("\n")
    for n in sorted(names):
        if re.match(r"crates/\w+/src/.*\.rt$", n):
            yield n.split("/")[1], (run("git", "show", f"{commit}:{n}") if commit else open(n, encoding="utf-8").read())


def functions(text):
    """(name, signature, clauses, body)"""
    for m in re.finditer(r"^( *)(?:pub )?(?:extern \"C\" )?fn (\w+)", text, re.M):
        pad = m[1]
        start = re.compile(r"\{$", re.M)
        end = text.find(f"\n{pad}}}\n", m.start())
        whole = text[m.start():end]
        opening = re.search(rf"^{pad}\{{$|\{{$", whole, re.M)
        lines = whole.split("\n")
        k = next((i for i, l in enumerate(lines) if l == pad + "{" or (l.endswith("{") and not l.strip().startswith(("requires", "ensures")))), len(lines))
        head = "\n".join(lines[:k + 1])
        clauses = "\n".join(l for l in head.split("\n") if re.match(r"\s+(requires|ensures|×)", l))
        signature = re.split(r"\n\s+(?:requires|ensures)", head)[0]
        yield m[2], signature, clauses, "\n".join(lines[k + 1:])


def shape(code):
    names, out = {}, []
    for t in re.findall(r"[A-Za-z_]\w*|\d\w*|b?\"[^\"]*\"|\S", re.sub(r"//.*", "", code)):
        out.append(names.setdefault(t, f"n{len(names)}") if re.match(r"[A-Za-z_\d\"]|b\"", t) else t)
    return " ".join(out)


found = defaultdict(list)
shapes = defaultdict(list)
pieces = defaultdict(list)
for crate, text in sources():
    for m in re.finditer(r"^(?:pub )?enum (\w+) \{\n(.*?)^\}", text, re.S | re.M):
        body = re.sub(r"//.*", "", m[2])
        variants = re.findall(r"^    (\w+)(\([^)]*\)|\s*\{.*?\})?,$", body, re.S | re.M)
        refusals = [v for v, p in variants if p == "(Refusal)"]
        units = [v for v, p in variants if not p]
        where = f"{crate}::{m[1]}"
        if refusals and (len(variants) == 2 or (len(variants) == 3 and len(units) == 2)):
            found["1 own enums of the shape of Result"].append(where)
        elif len(variants) == 2 and len(units) == 1:
            found["1 own enums of the shape of Option"].append(where)
        elif refusals:
            found["1 larger enums that carry a Refusal"].append(where)
    for m in re.finditer(r"#\[derive\(Clone, Copy\)\]\n(?:pub )?(?:enum|struct) (\w+)", text):
        found["4 types that derive Clone and Copy alone"].append(f"{crate}::{m[1]}")
    for name, signature, clauses, body in functions(text):
        where = f"{crate}::{name}"
        if crate == "capi":
            continue
        for p in re.findall(r"\b(which|mode|ask|below|wanted): (?:u\d+|usize)", signature):
            found["1 numbers for what is asked or which mode"].append(f"{where} ({p})")
        if re.search(r"refusal_number", name):
            found["1 numbers for refusals"].append(where)
        for l in re.findall(r"^\s*(while .*|(?:let \w+ = )?loop) \{$", body, re.M):
            found["3 loops that are no for"].append(f"{where}: {l}")
        if re.search(r"^\s*\w+ [+-]= 1;$", body, re.M) and re.search(r"^\s*(while .*|(?:let \w+ = )?loop) \{$", body, re.M):
            found["3 of these, functions that count by one by hand"].append(where)
        if re.match(r"same_bytes$|copy$|fill_\w+$|from_bytes$|refusal_number$|clear$|number_at$|add_many$|all_numbers$|all_bytes$|go_on$|wide$", name):
            found["4 equality, copying or conversion by hand"].append(where)
        three = all(f"{p}: &" in signature for p in ("words", "pairs", "text"))
        if three:
            found["5 functions that take words, pairs and text"].append(where)
        elif all(f"{p}: &" in signature for p in ("pairs", "text")):
            found["5 functions that take pairs and text"].append(where)
        if re.search(r"Good (pairs|words)\.now|Checked words\.now", clauses):
            found["5 contracts that ask for Good or Checked"].append(where)
        if re.search(r"out: &mut \[\w+\],\s*pos: usize", signature):
            found["6 functions that take a buffer and a position"].append(where)
        if re.search(r"letters: &|starts: &", signature):
            found["6 functions that take parallel arrays"].append(where)
        if re.search(r"\bwrite: bool", signature):
            found["7 functions with a flag for counting and writing"].append(where)
        if re.search(r"\b(wanted: Wanted|what: Whole)", signature):
            found["7 functions that are told which step to run"].append(where)
        lines = [l for l in body.split("\n") if l.strip()]
        if len(lines) >= 2:
            shapes[shape(signature.replace(name, "f") + body)].append(where)
for s, ws in shapes.items():
    if len(ws) > 1:
        found["2 functions that are alike but for names and constants"].extend(ws)
answers = [n for n in run("git", "ls-files", "crates").split("\n") if n.endswith("/Answers.antt")]
if commit:
    answers = [n for n in run("git", "ls-tree", "-r", "--name-only", commit, "crates").split("\n") if n.endswith("/Answers.antt")]
    size = sum(run("git", "show", f"{commit}:{n}").count("\n") for n in answers)
else:
    size = sum(open(n, encoding="utf-8").read().count("\n") for n in answers)
for k in sorted(found):
    print(f"{len(found[k]):5}  {k}")
    if verbose:
        for w in found[k]:
            print(f"         {w}")
print(f"{size:5}  8 lines of answers, in {len(answers)} files")
