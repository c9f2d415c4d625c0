#!/usr/bin/env python3
"""Brings the repository's own names in specs/ and proofs/ to snake case, and facts to camel case: run once, at the top, after the toolchain's own script.

A name is the repository's own if a file of specs/ or a lemma file of proofs/ declares it (a definition, a lemma, a record's field, a local name). Each such name with
a dash is respelled wherever it stands as a word of its own in .antt and .rt files and in must-fail edits; comments and strings stay.
Names of goals and steps (Answers.antt, Invariants.antt) are the toolchain's and stay. A lemma named after the word that it is about keeps the dash between the two (length-helds, W-is).
It prints the names that would fall together with another one, and then writes nothing."""

import os
import re
import sys

DECLARED = re.compile(r"^\s*(?:(?:abbrev|unfoldable|pub|data|record|let)\s+)*([^\s(){}.,;:=λ→]+)(?:\s+[({][^)}]*[)}])*\s+:\s")
KEPT = ("length-", "W-")
WORD = r"\w'\-·₀-₉◌"


def files(ends):
    for folder, dirs, names in os.walk("crates"):
        dirs[:] = sorted(d for d in dirs if d not in ("out", "data"))
        for name in sorted(names):
            if name.endswith(ends):
                yield os.path.join(folder, name)


def is_generated(path):
    return path.endswith(("/Answers.antt", "/Invariants.antt", "/Choices.antt"))


def declared():
    own, plain = set(), set()
    for path in files((".antt",)):
        if is_generated(path):
            continue
        for line in open(path, encoding="utf-8"):
            if line.startswith("use ") or line.lstrip().startswith("--"):
                continue
            found = DECLARED.match(line)
            if found and not found[1].startswith("◌"):
                (own if "-" in found[1] and not found[1].startswith(KEPT) else plain).add(found[1])
    return own, plain


def respelled(name):
    if name[0].isupper():
        return "".join(part[:1].upper() + part[1:] for part in name.split("-"))
    return name.replace("-", "_")


def turned(text, path, pattern, names):
    if path.endswith(".rt"):
        mark = "//"
    elif path.endswith(".antt"):
        mark = "--"
    else:
        mark = None
    out = []
    for line in text.split("\n"):
        if mark and line.lstrip().startswith(mark):
            out.append(line)
        else:
            out.append(pattern.sub(lambda m: names[m[0]], line))
    return "\n".join(out)


def main():
    own, plain = declared()
    names = {name: respelled(name) for name in own}
    spelled = {}
    for name in own:
        spelled.setdefault(names[name], []).append(name)
    together = [(new, olds) for new, olds in spelled.items() if len(olds) > 1 or new in plain]
    if together:
        for new, olds in sorted(together):
            print(f"fall together: {new}: {', '.join(sorted(olds))}{' and the name itself' if new in plain else ''}")
        if "--anyway" not in sys.argv:
            return 1
    pattern = re.compile(f"(?<![{WORD}])(?:" + "|".join(re.escape(n) for n in sorted(own, key=len, reverse=True)) + f")(?![{WORD}])")
    changed = 0
    for path in files((".antt", ".rt", ".edit")):
        text = open(path, encoding="utf-8").read()
        new = turned(text, path, pattern, names)
        if new != text:
            changed += 1
            open(path, "w", encoding="utf-8").write(new)
    print(f"{len(own)} names, {changed} files")
    return 0


if __name__ == "__main__":
    raise SystemExit(main())
