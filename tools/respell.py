#!/usr/bin/env python3
"""Respells the repository's own definitions and lemmas in snake case.

usage: python3 tools/respell.py      at the top of the repository, once, after the toolchain's own porting script

A name is one that a file of crates/*/specs or crates/*/proofs declares: a definition, a lemma, a field, a constructor, a local
name, or another name that a `use` gives. Names of types and modules begin in upper case and stay. Functions of src/ keep their
names, and so do strings and comments. Two names that would fall together, or that would fall on a name of the library, are
respelled as APART says. A word of the library that is used under the name of another one gets its own name back (OWN). In pages the
names between backquotes follow. A second run changes nothing.
"""

import collections
import os
import re

# names that would fall on another one of the same file
APART = {
    "with-code": "with_code_some",
    "entry-line": "entry_line_read",
    "entry-by": "entry_by_start",
    "goesOn": "is_inner",
    "bit-or": "bit_bit_or",
    "judgedBy": "line_judged",
    "digitValue": "digit_value_of",
}

# a word of the library, and the name that it was used under, which is that of another word of the library
OWN = {"AllByRecursion": "All"}

NAME = r"[^\s(){}\[\].,;:`\"]+"
TOKEN = re.compile(NAME)
DECLARED = re.compile(r"\s*(?:(?:abbrev|pub|unfoldable|data|record|infix\w*|\d+)\s+)*(" + NAME + r"(?:\s+" + NAME + r")*?)\s+:\s")
HEADED = re.compile(r"\s*(?:(?:abbrev|pub|unfoldable|data|record)\s+)+(" + NAME + r")")
GIVEN = re.compile(r"\s*(?:ghost )?use .*")
# where a source speaks of definitions
GHOSTLY = re.compile(r"\s*(ghost |ensures |requires |//)")


def files(ending):
    for folder, dirs, names in os.walk("crates"):
        dirs[:] = sorted(d for d in dirs if d != "out")
        for name in sorted(names):
            if name.endswith(ending):
                yield os.path.join(folder, name)


def respelled(name):
    if name in APART:
        return APART[name]
    if not re.match(r"[a-z]", name) or not re.fullmatch(r"[A-Za-z0-9_'-]+", name):
        return name
    return re.sub(r"(?<=[a-z0-9])([A-Z])", lambda m: "_" + m.group(1).lower(), name).replace("-", "_")


def declared():
    """The names that the repository declares, but for the answers' names, which are made."""
    found = set()
    for path in files(".antt"):
        made = "/proofs/" in path and os.path.basename(path) in ("Answers.antt", "Invariants.antt", "Proof.antt")
        with open(path, encoding="utf-8") as f:
            for line in f:
                if line.strip().startswith("--"):
                    continue
                if GIVEN.match(line):
                    found |= set(re.findall(r" as ([a-z]" + NAME + r")", line))
                    continue
                here = set()
                for form in (DECLARED, HEADED):
                    m = form.match(line)
                    if m:
                        here |= set(m.group(1).split())
                if made and not line.startswith(" "):
                    here = set()
                found |= here | set(re.findall(r"\blet (" + NAME + r") ", line))
    for path in files(".rt"):
        with open(path, encoding="utf-8") as f:
            for line in f:
                if GIVEN.match(line):
                    found |= set(re.findall(r" as ([a-z]" + NAME + r")", line))
    return {n: respelled(n) for n in found if respelled(n) != n}


def own_names(text):
    for word, other in OWN.items():
        given = f"{word} as {other}"
        if given in text:
            text = TOKEN.sub(lambda m: word if m.group(0) == other else m.group(0), text.replace(given, word))
    return text


def turn(text, names):
    parts = re.split(r'("[^"]*")', text)
    return "".join(p if p.startswith('"') else TOKEN.sub(lambda m: names.get(m.group(0), m.group(0)), p) for p in parts)


def turn_antt(text, names):
    return "\n".join(l if l.strip().startswith("--") else turn(l, names) for l in text.split("\n"))


def turn_rt(text, names):
    return "\n".join(turn(l, names) if GHOSTLY.match(l) and not l.strip().startswith("//") else l for l in text.split("\n"))


def turn_page(text, names):
    return re.sub(r"`[^`\n]+`", lambda m: turn(m.group(0), names), text)


def rewrite(path, by):
    with open(path, encoding="utf-8") as f:
        old = f.read()
    new = by(old)
    if new != old:
        with open(path, "w", encoding="utf-8") as f:
            f.write(new)
        return 1
    return 0


def main():
    names = declared()
    fallen = collections.defaultdict(set)
    for n in names:
        fallen[names[n]].add(n)
    changed = 0
    for path in files(".antt"):
        changed += rewrite(path, lambda t: own_names(turn_antt(t, names)))
    for path in files(".rt"):
        changed += rewrite(path, lambda t: own_names(turn_rt(t, names)))
    for folder in (".", "docs"):
        for name in sorted(os.listdir(folder)):
            if name.endswith(".md"):
                changed += rewrite(os.path.join(folder, name), lambda t: turn_page(t, names))
    for n in sorted(fallen):
        if len(fallen[n]) > 1:
            print("fall together:", n, *sorted(fallen[n]))
    print(f"{len(names)} names, {changed} files")


main()
