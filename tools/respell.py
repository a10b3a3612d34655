#!/usr/bin/env python3
"""Respells the repository's own names of specs/ and proofs/ as today's Rattle spells them: a definition, a lemma or a field in snake
case (`rightsWord` is `rights_word`), a type in camel case with no dash (`Active-from` is `ActiveFrom`).

usage: python3 tools/respell.py        at the top of the repository, once, right after port.py

It goes by words, over every .antt, .rt, .edit and page. Dashes in the names of lemmas stay: they part the words of an equation. Names that
a file imports from another library, the names of Rust items and text within quotes keep their spelling. It stops where two names of
specs/ or proofs/ would fall together, and then writes nothing. (A definition may have the name of the Rust function that it is of.)
"""
import collections
import glob
import re
import subprocess
import sys

WORD = re.compile(r"[A-Za-z_][A-Za-z0-9_'-]*")
ALONE = re.compile(r"(?<![A-Za-z0-9_'.-])[A-Za-z_][A-Za-z0-9_'-]*")
CAMEL = re.compile(r"[a-z][a-z0-9]*(?:[A-Z][A-Za-z0-9]*)+$")
DECLARED = re.compile(r"\s*(?:(?:abbrev|unfoldable)(?: pub)?|pub (?:record|data)|record|data|pub)?\s*([A-Za-z_][A-Za-z0-9_'-]*)\s*(?:[({][^:]*)?:\s")
# Lemmas whose dash port.py took for one of a name of std's: with it they would have the name of a definition.
DASHED = {"end_line", "goes_on", "past_row", "left_by", "read_answer"}
TYPE = re.compile(r"(?:pub )?(?:record|data) ([A-Z][A-Za-z0-9_'-]*)")


def files(*patterns):
    return sorted(p for pattern in patterns for p in glob.glob(pattern, recursive=True) if "/out/" not in p)


def snake(word):
    """A name in snake case, part by part between dashes."""
    def part(p):
        return re.sub(r"(?<=[a-z0-9])(?=[A-Z])", "_", p).lower() if CAMEL.match(p) else p
    return "-".join(part(p) for p in word.split("-"))


def type_name(word):
    return "".join(p[:1].upper() + p[1:] for p in word.split("-"))


def main():
    own = {l.split(":")[0].split()[0] for l in open("crates.txt") if ":" in l and not l.startswith("#")}
    proofs = files("crates/*/specs/**/*.antt", "crates/*/proofs/**/*.antt")
    sources = files("crates/*/src/**/*.rt")
    foreign, types, words = set(), set(), set()
    for p in proofs + sources:
        text = open(p, encoding="utf-8").read()
        for m in re.finditer(r"use ([A-Za-z_][\w.'+·-]*?)\.\{([^}]*)\}", text):
            path = m.group(1).split(".")
            if path[0] == "Rattle" and len(path) > 1 and path[1] in own:
                continue
            foreign |= set(WORD.findall(m.group(2)))
        types |= set(TYPE.findall(text))
        words |= set(WORD.findall(text))
    new = {}
    for w in words:
        if w in foreign:
            continue
        if w in types and "-" in w:
            new[w] = type_name(w)
        elif snake(w) != w:
            new[w] = snake(w)
    dashed = {w: w.replace("_", "-") for w in DASHED}
    together = collections.defaultdict(set)
    for p in proofs:
        for w in ALONE.findall(re.sub(r"--.*", "", open(p, encoding="utf-8").read())):
            w = dashed.get(w, w)
            together[new.get(w, w)].add(w)
    clash = {n: ws for n, ws in together.items() if len(ws) > 1}
    if clash:
        for n, ws in sorted(clash.items()):
            print(f"{n}: {', '.join(sorted(ws))}")
        print(f"{len(clash)} names fall together: nothing was written")
        return 1
    changed = 0
    for p in proofs + sources + files("crates/*/must-fail/*.edit", "README.md", "docs/**/*.md", "examples/**/*.md"):
        text = open(p, encoding="utf-8").read()
        pieces = re.split(r'("(?:[^"\\\n]|\\.)*")', text) if p.endswith((".rt", ".edit")) else [text]
        if p.endswith(".antt"):
            pieces = [ALONE.sub(lambda m: dashed.get(m.group(0), m.group(0)), x) for x in pieces]
        turned = "".join(x if x.startswith('"') else WORD.sub(lambda m: new.get(m.group(0), m.group(0)), x) for x in pieces)
        if turned != text:
            changed += 1
            open(p, "w", encoding="utf-8").write(turned)
    print(f"{len(new)} names respelled in {changed} files")
    return 0


if __name__ == "__main__":
    sys.exit(main())
