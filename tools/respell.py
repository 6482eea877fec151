#!/usr/bin/env python3
"""Brings the repository's own definitions and lemmas to one spelling: words joined by `_`, types in camel case.

usage: python3 tools/respell.py            once, at the top of the repository, after port.py of today's Rattle
       python3 tools/respell.py --list     says what would be renamed, and what falls together; writes nothing

A name is the repository's own where a file of crates/*/specs or crates/*/proofs declares it: a definition, lemma, record, field or constructor.
Names of the library and names that Rattle makes are declared nowhere here, so they stay. In a comment only what stands in backticks is a name.
"""

import collections
import glob
import re
import sys

NAME = r"[A-Za-z_][\w'′]*(?:-[\w'′]+)+"
TOKEN = re.compile(r"(?<![\w'′\-·])" + NAME + r"(?![\w'′\-])")
DECLARED = re.compile(r"^\s*(?:abbrev |unfoldable |ruleset |mutual )*(?:pub )?(?:abbrev |unfoldable )?(?:data |record |ruleset )?(" + NAME + r")(?:\s*:|\s+[({].*:|\s*=)")
MADE = re.compile(r"^\s*(?:\|\s*)(" + NAME + r")\s*:")
WORD = re.compile(r"`([^`]*)`")


def respelled(name):
    if name[0].isupper():
        first, *rest = name.split("-")
        return first + "".join(w[:1].upper() + w[1:] for w in rest)
    return name.replace("-", "_")


def files():
    return sorted(p for kind in ("antt", "rt", "edit") for p in glob.glob(f"crates/**/*.{kind}", recursive=True) if "/out/" not in p)


def declared():
    found = {}
    for p in files():
        # what a proof of a function declares is its own, but for names that Rattle asks for
        lemmas = p.endswith(".antt") and ("/specs/" in p or re.match(r"crates/\w+/proofs/\w+\.antt$", p))
        if not p.endswith(".antt"):
            continue
        with open(p, encoding="utf-8") as f:
            for line in f:
                m = DECLARED.match(line) or MADE.match(line)
                if m and not line.lstrip().startswith("--"):
                    n = m.group(1)
                    if lemmas or not (n.endswith("-spec") or re.match(r"(invariant|decreases)-|.*-(init|preserved|smaller)$", n)):
                        found.setdefault(n, p)
    return found


def turned(text, names, comment):
    def one(m):
        return names.get(m.group(0), m.group(0))

    out = []
    for line in text.split("\n"):
        at = line.find(comment) if comment else -1
        code, note = (line, "") if at < 0 else (line[:at], line[at:])
        out.append(TOKEN.sub(one, code) + WORD.sub(lambda m: "`" + TOKEN.sub(one, m.group(1)) + "`", note))
    return "\n".join(out)


def main():
    names = {n: respelled(n) for n in declared()}
    together = collections.defaultdict(list)
    for n, s in names.items():
        together[s].append(n)
    bad = {s: ns for s, ns in together.items() if len(ns) > 1}
    there = collections.defaultdict(set)
    for p in files():
        with open(p, encoding="utf-8") as f:
            for w in set(re.findall(r"(?<![\w'\-])[A-Za-z_]\w*(?![\w'\-])", f.read())):
                if w in together:
                    there[w].add(p)
    if "--list" in sys.argv:
        for n, s in sorted(names.items()):
            print(n, s)
        for s, ns in sorted(bad.items()):
            print("falls together:", s, ns)
        for w, ps in sorted(there.items()):
            print("stands already:", w, len(ps), sorted(ps)[:3])
        return 0
    if bad:
        print(f"fall together: {bad}", file=sys.stderr)
        return 1
    changed = 0
    for p in files() + sorted(glob.glob("docs/*.md")) + ["README.md"]:
        with open(p, encoding="utf-8") as f:
            text = f.read()
        if p.endswith(".md"):
            new = text if p.endswith("CHANGES.md") else WORD.sub(lambda m: "`" + TOKEN.sub(lambda t: names.get(t.group(0), t.group(0)), m.group(1)) + "`", text)
        else:
            new = turned(text, names, {".antt": "--", ".rt": "//"}.get(p[p.rfind("."):]))
        if new != text:
            changed += 1
            with open(p, "w", encoding="utf-8") as f:
                f.write(new)
    print(f"{len(names)} names, {changed} files")
    return 0


sys.exit(main())
