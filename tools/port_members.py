#!/usr/bin/env python3
"""Writes the ghost members of a bound by the type parameter, as today's clauses want them: D.value for value under D: Digest. Run at the top."""

import os
import re

MEMBERS = {"next": "Application", "code": "Application", "marked": "Application", "value": "Digest", "accepts": "SealChecker", "names": "Signed", "allows": "Rule"}
BOUND = re.compile(r"\b([A-Z]): ((?:[A-Z]\w*(?:<\w+>)?(?: \+ )?)+)")
HEAD = re.compile(r"^(\s*)(?:pub(?:\([a-z]+\))? )?(?:fn \w+|impl\b)")


def main():
    changed = 0
    for folder, dirs, names in os.walk("crates"):
        dirs[:] = [d for d in dirs if d != "out"]
        for name in names:
            if not name.endswith(".rt"):
                continue
            path = os.path.join(folder, name)
            lines = open(path, encoding="utf-8").read().split("\n")
            outer, inner, out = {}, {}, []
            for line in lines:
                head = HEAD.match(line)
                if head:
                    bounds = {}
                    for letter, traits in BOUND.findall(line):
                        for one in re.split(r" \+ ", traits):
                            bounds[re.sub(r"<.*", "", one).strip()] = letter
                    if "impl" in head[0]:
                        outer, inner = bounds, {}
                    else:
                        inner = bounds
                        if not head[1]:
                            outer = {}
                clause = re.match(r"(\s*(?:requires|ensures)\*?(?: \w+)? \{)(.*)(\}\s*)$", line)
                if clause:
                    text = clause[2]
                    for member, trait in MEMBERS.items():
                        letter = inner.get(trait) or outer.get(trait)
                        if letter:
                            text = re.sub(rf"(?<![\w.'λ-]){member}(?![\w'-]| =|\.)", f"{letter}.{member}", text)
                    line = clause[1] + text + clause[3]
                out.append(line)
            if out != lines:
                changed += 1
                open(path, "w", encoding="utf-8").write("\n".join(out))
    print(f"{changed} files")


if __name__ == "__main__":
    main()
