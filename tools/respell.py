#!/usr/bin/env python3
"""Brings the definitions and lemmas of this repository to the spelling of today's Rattle.

usage: python3 tools/respell.py [--dry]      at the top of the repository, once, after port.py of the kit

A word of several parts is in snake case (isLeap becomes is_leap). In a lemma's name a dash stays between two names that are
themselves defined, and is '_' before or after a plain word (group-is becomes group_is). Types, modules, functions of src/, exported
names and strings keep their names. What would fall together with another name gets '_lem' after it.
"""
import collections
import glob
import re
import sys

# Words of std that lemmas are named after.
STD = set("""length map take drop append cond eqb leb ltb and or not suc zero get_or set min max sum replicate reverse some none
all any add sub mul div mod le lt""".split())
HEAD = re.compile(r"^(?:(abbrev|unfoldable) )?(pub )?(?:(abbrev|unfoldable) )?(?:(data|record) )?([^\s:({=,.]+)\s*(?=[:({])")
LOCAL = re.compile(r"^ {2,}(?:(?:abbrev|unfoldable) )?(pub )?([^\s:({=,.]+)\s*:(?:\s|$)")
SKIP = ("use ", "pub use ", "pub mod ", "mod ", "--", "infix", "ruleset ", "unfolding ")


def shared(path):
    """A file of specs/, or one right in proofs/: no proof of a single function."""
    parts = path.split("/")
    return parts[2] == "specs" or (parts[2] == "proofs" and len(parts) == 4)


def snake(part):
    return re.sub(r"(?<=[a-z0-9])([A-Z])", lambda m: "_" + m.group(1).lower(), part) if part[:1].islower() else part


def read(path):
    with open(path, encoding="utf-8") as f:
        return f.read()


def collect():
    """The names that are defined: 'word' for a definition, 'part' for a field or a constructor of specs/, 'lemma' for the rest."""
    names = collections.OrderedDict()
    for path in sorted(glob.glob("crates/*/specs/**/*.antt", recursive=True)) + sorted(glob.glob("crates/*/proofs/**/*.antt", recursive=True)):
        if not shared(path):
            continue
        for line in read(path).split("\n"):
            if line.startswith(SKIP):
                continue
            m = HEAD.match(line)
            if m:
                kind = "word" if m.group(1) or m.group(3) or m.group(4) else "lemma"
                if kind == "word" or m.group(5) not in names:
                    names[m.group(5)] = kind
                continue
            m = LOCAL.match(line)
            if m:
                names.setdefault(m.group(2), "part" if path.split("/")[2] == "specs" else "lemma")
    return names


def dashed(name, words):
    """The name with each dash that joins a plain word turned to '_'."""
    parts = [snake(p) for p in name.split("-")]
    out = parts[0]
    for left, right in zip(parts, parts[1:]):
        out += ("-" if left in words and right in words else "_") + right
    return out


def renames(names):
    words = {snake(n) for n, k in names.items() if k == "word" and "-" not in n} | STD
    turned, taken = {}, {}
    plain = lambda n: re.fullmatch(r"[A-Za-z][A-Za-z0-9_']*(-[A-Za-z0-9_']+)*", n)
    for n in names:
        if not plain(n) or n[0].isupper():
            taken[n] = n
    for kind in ("part", "word", "lemma"):
        for n, k in sorted(names.items(), key=lambda item: "-" in item[0]):
            if k != kind or n in taken:
                continue
            new = dashed(n, words) if "-" in n else snake(n)
            while new in taken and taken[new] != n:
                new += "_lem"
            taken[new] = n
            if new != n:
                turned[n] = new
    return turned


def turn(text, turned, dashes):
    def one(m):
        name = m.group(0)
        if "-" in name:
            if not dashes or (m.start() and text[m.start() - 1] in ".-"):
                return name
            return turned.get(name, name)
        return turned.get(name, name)

    token = r"[A-Za-z_\u0370-\u03ff][\w'\u2032\u2080-\u2089]*" + (r"(?:-[\w'\u2032\u2080-\u2089&|\u2262\u2264]+)*" if dashes else "")
    return re.sub(token, one, text)


def main():
    turned = renames(collect())
    if "--dry" in sys.argv:
        for n, new in sorted(turned.items()):
            print(n, new)
        return
    files = [p for p in glob.glob("crates/**/*.antt", recursive=True) if p.split("/")[2] != "out"]
    for path in sorted(files):
        text = read(path)
        new = turn(text, turned, True)
        if new != text:
            with open(path, "w", encoding="utf-8") as f:
                f.write(new)
    camel = {n: v for n, v in turned.items() if re.search("[a-z0-9][A-Z]", n) and "-" not in n}
    for path in sorted([p for p in glob.glob("crates/**/*.rt", recursive=True) if p.split("/")[2] != "out"] + glob.glob("crates/*/must-fail/*.edit") + glob.glob("docs/*.md") + ["README.md"]):
        if path.startswith("docs/PORT"):
            continue
        text = read(path)
        new = turn(text, camel, False)
        if new != text:
            with open(path, "w", encoding="utf-8") as f:
                f.write(new)
    print("respell: %d names" % len(turned))


main()
