#!/usr/bin/env python3
"""Spells the repository's own definitions and lemmas as today's Rattle spells its own.

usage: python3 tools/port_names.py [--check]     at the top of the repository, once, after port.py

Words are in snake case: `isHandle` becomes `is_handle`, and `written-elsewhere` becomes
`written_elsewhere`. Types, modules, what the sources declare and what a library declares keep their
names. A lemma that would get its definition's name gets `_lem`; port.py turned some names of the
same two kinds already, which counts. --check writes nothing and lists what would fall together.

A name turns in the code and the comments of .antt, in the clauses and comments of .rt, in the code
spans of pages, and in the must-fail edits, whose other spelling port.py leaves too.
"""

import collections
import glob
import re
import sys

WORD = r"[^\W\d][\w'\-]*"
DECLARED = re.compile(
    r"(?m)^ *(?:(?:abbrev|unfoldable|pub) +)*([^\s(){}.;,@\"«»]+)(?: \{[^{}\n]*\})* :(?= |$)"
)
LABEL = re.compile(r"\s*(?:tie\.|goal\.)|[^\n]*\bstatement\b")
SPAN = re.compile(r"`[^`\n]+`")
# names of a definition or a row and of the lemma beside it that fall together, by the lemma
LEMMA_OF = "_lem"


def snake(name):
    if name[0].isupper():
        return name
    name = re.sub(r"(?<=[a-z0-9])[A-Z]|(?<=[A-Z])[A-Z](?=[a-z])", lambda m: "_" + m[0], name)
    return name.lower().replace("-", "_")


def read(path):
    with open(path, encoding="utf-8") as f:
        return f.read()


def declared(paths):
    names = set()
    for path in paths:
        text = read(path)
        for m in DECLARED.finditer(text):
            if path.endswith("/Proof.antt") and LABEL.match(text[m.end() : m.end() + 90]):
                continue
            names.add(m[1])
    return names


def table(names):
    """Old name to new. Where a definition (or a row) and a lemma meet, the lemma gets `_lem`."""
    meet = collections.defaultdict(list)
    for n in sorted(names):
        meet[snake(n)].append(n)
    to = {}
    for new, olds in meet.items():
        camel = [n for n in olds if re.search("[a-z0-9][A-Z]", n)]
        for n in olds:
            to[n] = new if n in camel or not camel and n == olds[-1] else new + LEMMA_OF
        if len(olds) == 1:
            to[olds[0]] = new
    return {a: b for a, b in to.items() if a != b and (a[0].islower() or "-" in a)}


def locals_of(paths):
    """Camel-case names that are bound and not declared: variables, and words of comments."""
    found = set()
    for path in paths:
        for m in re.finditer(rf"(?<![\w'\-.·])({WORD})", read(path)):
            w = m[1]
            if w[0].islower() and re.fullmatch(r"[a-z][a-z0-9]*(?:[A-Z][a-z0-9]*)+'?", w):
                found.add(w)
    return found


def of_libraries(text):
    """The names that a file imports from a library."""
    found = set()
    for m in re.finditer(r"(?m)^(?:ghost )?use ([^\s{;]+)\.\{([^}]*)\}", text):
        head = m[1].split(".")
        if head[0] != "Rattle" or head[1] == "std":
            found |= set(re.split(r"[,\s]+", m[2]))
    return found


def turned(text, to, dotted):
    theirs = of_libraries(text)

    def one(m):
        w = m[0]
        if w not in to or w in theirs:
            return w
        behind_dot = m.start() > 0 and text[m.start() - 1] == "."
        if behind_dot and "-" in w and not dotted:
            return w
        return to[w]

    return re.sub(WORD, one, text)


def main():
    check = "--check" in sys.argv
    antt = sorted(glob.glob("crates/**/*.antt", recursive=True))
    antt = [p for p in antt if "/out/" not in p]
    to = table(declared(antt))
    for w in locals_of(antt):
        to.setdefault(w, snake(w))
    rt = [p for p in sorted(glob.glob("crates/**/*.rt", recursive=True)) if "/out/" not in p]
    pages = sorted(glob.glob("*.md") + glob.glob("docs/**/*.md", recursive=True))
    pages += sorted(glob.glob("tests/**/*.md", recursive=True) + glob.glob("bench/*.md"))
    edits = sorted(glob.glob("crates/*/must-fail/*.edit"))
    count = 0
    for path in antt + rt + edits + pages:
        old = read(path)
        if path.endswith(".md"):
            new = SPAN.sub(lambda m: turned(m[0], to, False), old)
        elif path.endswith(".rt"):
            camel = {a: b for a, b in to.items() if re.search("[a-z0-9][A-Z]", a)}
            new = turned(old, camel, False)
        else:
            new = turned(old, to, False)
        if new != old:
            count += 1
            if not check:
                with open(path, "w", encoding="utf-8") as f:
                    f.write(new)
    print(f"{len(to)} names, {count} files")
    if check:
        for a, b in sorted(to.items()):
            print(a, b, sep="\t")


if __name__ == "__main__":
    main()
