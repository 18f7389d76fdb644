#!/usr/bin/env python3
"""Brings the must-fail edits over, as far as a script can: port.py turns none.

usage: python3 tools/port_edits.py [--write]     at the top of the repository, once, after port_names.py

Each 'old:' and 'new:' text gets the spelling that port.py gave the file. Pairs of a file that is no
longer there (a walk of a function, proofs/F/Proof.antt, for which answers stand now) go. What does
not stand exactly once in its file is listed, and is mended by hand.
"""

import glob
import os
import re
import sys

RESPELLED = {"getD": "get_or", "the-variants": "TheVariants", "ofZ": "of_z", "toZ": "to_z"}
PRELUDE = "Rattle.std.specs.Prelude"
COMMON = "Rattle.std.proofs.Common"


def spelled(text):
    text = re.sub(r"Rattle·(\w+)·(specs|proofs)\.\2\b", r"Rattle.\1.\2", text)
    text = re.sub(r"Rattle·(\w+)", r"Rattle.\1", text)
    for a, b in RESPELLED.items():
        text = re.sub(rf"(?<![\w'\-]){re.escape(a)}(?![\w'\-])", b, text)
    text = text.replace("′", "'").replace("search needs", "search rules")
    # the operators that an import names
    if re.match(r"(?:ghost )?use |[A-Z][\w.]*\.\{", text):
        text = re.sub(r"(?<=[{ ])_([^\s_{},]+)_(?=[,}])", r"◌\1◌", text)
    # a projection is written tight; that of a call's result in parentheses
    text = re.sub(r"now \((\w+) \.(?:entry|exit)\)", r"\1.now", text)
    text = re.sub(r"(?<=[\w'»)\]]) \.(\w|«)", r".\1", text)
    text = re.sub(r"(?<![\w.(])(\w+ \w+)(\.(?:start|length|handle|base|space|marked)\b)", r"(\1)\2", text)
    text = re.sub(r"(?<=[ (,])\((\w[\w'»«]*(?:\.[\w»«]+)+)\)(?!\.)", r"\1", text)
    text = re.sub(r"^\((\w[\w'»«]*(?:\.[\w»«]+)+)\)(?!\.)", r"\1", text)
    text = re.sub(r"\b(now|record) \(?(\w+)\.(?:entry|exit)\)?", r"\2.now", text)
    text = re.sub(r"\bnow \(?([a-z]\w*)\)?", r"\1.now", text)
    text = re.sub(r"⌜ ?| ?⌝", "", text).replace("«call_back»", "call_back")
    return text


def in_snake(text):
    """Names of definitions, which port.py and port_names.py turned."""
    camel = r"(?<![\w'\-])[a-z][a-z0-9]*(?:[A-Z][a-z0-9]*)+(?![\w'\-])"
    return re.sub(camel, lambda m: re.sub("[A-Z]", lambda c: "_" + c[0].lower(), m[0]), text)


def as_there(text, there):
    """Names with dashes, where the file has them with underscores alone."""

    def one(m):
        w = m[0]
        s = w.replace("-", "_")
        has = re.search(rf"(?<![\w'\-]){re.escape(w)}(?![\w'\-])", there)
        if not has and re.search(rf"(?<![\w'\-]){re.escape(s)}(?![\w'\-])", there):
            return s
        return w

    return re.sub(r"[a-z]\w*(?:-\w+)+", one, text)


IMPORT = re.compile(r"((?:ghost )?use )?([\w.:]+?)(?:\.|::)(?:\{([^}]*)\}|(\w+))(;?)$")


def imported(old, new, there):
    """An import that names something more: the first words of the line that stands there now."""
    a, b = IMPORT.match(old), IMPORT.match(new) if new else None
    if not a or not a[1] and not a[2].startswith(("Numbers", "DataRefusal")):
        return None
    was = set(re.split(r"[,\s]+", a[3] or a[4])) - {""}
    now = set(re.split(r"[,\s]+", b[3] or b[4])) - {""} if b else set()
    added = sorted(now - was)
    if not added:
        return []
    sep = "::" if a[5] and "ghost" not in a[1] else "."
    for module in (b[2], PRELUDE, COMMON):
        for lead in ("ghost use ", "use "):
            found = [lead + module + sep + "{"]
            if there.count("\n" + found[0]) == 1:
                line = there.split("\n" + found[0])[1].split("\n")[0]
                if not line.strip():
                    return [(found[0], found[0] + " " + ", ".join(added) + ",")]
                return [(found[0], found[0] + ", ".join(added) + ", ")]
    return None


def pairs_of(text):
    """The lines of an edit: comments as they stand, then (file, old, new)."""
    head, pairs, path, old = [], [], None, None
    for line in text.split("\n"):
        if line.startswith("file: "):
            path = line[6:]
        elif line.startswith("old: "):
            old = line[5:]
        elif line.startswith("new:"):
            pairs.append((path, old, line[5:]))
        elif line:
            head.append(line)
    return head, pairs


def main():
    write = "--write" in sys.argv
    left = 0
    for edit in sorted(glob.glob("crates/*/must-fail/*.edit")):
        crate = edit.split("/must-fail/")[0]
        with open(edit, encoding="utf-8") as f:
            head, pairs = pairs_of(f.read())
        texts, out, path = {}, [], None
        for at, old, new in pairs:
            if not os.path.isfile(f"{crate}/{at}"):
                continue
            if at not in texts:
                with open(f"{crate}/{at}", encoding="utf-8") as f:
                    texts[at] = f.read()
            old, new = spelled(old), spelled(new)
            if at.endswith(".antt") or "≡" in old:
                old, new = in_snake(old), in_snake(new)
            old, new = as_there(old, texts[at]), as_there(new, texts[at])
            these = [(old, new)]
            if texts[at].count(old) != 1:
                by_import = imported(old, new, texts[at])
                these = these if by_import is None else by_import
            for old, new in these:
                if texts[at].count(old) != 1:
                    left += 1
                    print(f"left: {edit}: {at} has {texts[at].count(old)} times {old}")
                texts[at] = texts[at].replace(old, new)
                if at != path:
                    out.append(f"file: {at}")
                    path = at
                out += [f"old: {old}", f"new: {new}"]
        if write:
            with open(edit, "w", encoding="utf-8") as f:
                f.write("\n".join(head + out) + "\n")
    print(f"{left} places left by hand")


if __name__ == "__main__":
    main()
