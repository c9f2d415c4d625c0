#!/usr/bin/env python3
"""Counts places in src/ that are written in an older form, at a commit or in the working tree.

    python3 tools/places.py [COMMIT] [-v]        -v prints each place
"""
import collections
import itertools
import os
import re
import subprocess
import sys

VERBOSE = "-v" in sys.argv
COMMITS = [a for a in sys.argv[1:] if not a.startswith("-")]
COMMIT = COMMITS[0] if COMMITS else None


def git(*args):
    return subprocess.run(["git", *args], capture_output=True, text=True, check=True).stdout


def names():
    if COMMIT:
        return git("ls-tree", "-r", "--name-only", COMMIT, "crates").split()
    found = []
    for top, dirs, files in os.walk("crates"):
        dirs[:] = [d for d in dirs if d not in ("out", "target")]
        found += [os.path.join(top, f) for f in files]
    return sorted(found)


def text(name):
    return git("show", COMMIT + ":" + name) if COMMIT else open(name, encoding="utf-8").read()


ALL = names()
SRC = {n: text(n) for n in ALL if re.match(r"crates/\w+/src/.*\.rt$", n)}


def bare(s):
    """The text without comments, ghost lines and clauses, line for line."""
    out = []
    for line in s.split("\n"):
        line = re.sub(r"//.*", "", line)
        if re.match(r"\s*(requires|ensures|ghost)\b", line):
            line = ""
        out.append(line)
    return "\n".join(out)


BARE = {n: bare(s) for n, s in SRC.items()}


def show(title, hits):
    print(f"  {title}: {len(hits)}")
    if VERBOSE:
        for h in hits:
            print("      " + h)


def grep(pattern, flags=re.M):
    hits = []
    for n, s in BARE.items():
        for m in re.finditer(pattern, s, flags):
            line = s.count("\n", 0, m.start()) + 1
            hits.append(f"{n}:{line}: {' '.join(m.group(0).split())[:110]}")
    return hits


def functions():
    """Each function: file, name, parameters, result, clauses, body."""
    found = []
    for n, s in SRC.items():
        for m in re.finditer(r"^( *)(?:pub(?:\(crate\))? )?fn (\w+)", s, re.M):
            end = s.find("\n" + m.group(1) + "}", m.start())
            if end < 0:
                continue
            whole = s[m.start():end]
            head, _, body = whole.partition("\n" + m.group(1) + "{\n")
            if not body:
                continue
            found.append((n, m.group(2), head, body))
    return found


FNS = functions()


def skeleton(body):
    b = re.sub(r"//.*", "", body)
    b = re.sub(r"\"[^\"]*\"", "S", b)
    b = re.sub(r"\b\d[\w.]*\b", "0", b)
    b = re.sub(r"\b(?!for|in|if|else|match|let|mut|return|while|true|false|Some|None|Ok|Err|self|S\b|as|usize)[A-Za-z_]\w*", "x", b)
    b = re.sub(r"x(::x)+", "x", b)
    return " ".join(b.split())


def twins():
    groups = collections.defaultdict(list)
    for n, name, head, body in FNS:
        k = skeleton(body)
        if len(k) > 24:
            groups[k].append(f"{n}:{name}")
    return [", ".join(g) for g in groups.values() if len(g) > 1]


def often(told):
    """What `told` says of the head of three functions or more."""
    seen = collections.Counter(t for n, name, head, body in FNS for t in told(head))
    return [f"{t} ({v} functions)" for t, v in seen.items() if v >= 3]


def premises(head):
    return [c.replace(".old", ".now") for c in re.findall(r"requires(?: \w+)? \{ (.*) \}", head)]


def pairs(head):
    sig = head.split("\n    requires")[0].split("\n    ensures")[0]
    m = re.search(r"\((.*)\)", sig, re.S)
    ps = re.findall(r"(\w+): ([^,()]+(?:\([^()]*\))?)", m.group(1) if m else "")
    ps = sorted({f"{a}: {' '.join(b.split())}" for a, b in ps if a not in ("rt", "heap", "f")})
    return [f"{a}, {b}" for a, b in itertools.combinations(ps, 2)]


print("at", COMMIT or "the working tree")
print("1 Options and Results in disguise, numbers for kinds and codes")
show("constants that number kinds or codes", grep(r"const (REQUEST|PROPOSAL|PREPARE|COMMIT|CHECKPOINT|STABLE|HELD|NEW|BATCH|DONE|UNKNOWN|BAD_PLACE|BAD_VALUE|BAD_AMOUNT): u8"))
show("a kind or a code as a u8", grep(r"\bkind: u8\b|fn (set_point|set_litres|move_litres|carry_out|open|pay)\([^)]*\) -> u8"))
show("a refusal as an Option", grep(r"-> Option<Refusal>"))
show("enums with a case for nothing or for a fault", grep(r"enum \w+ \{[^}]*\b(Fault|Bad|Skip|Missing|Empty)\b[^}]*\}"))
show("matches that only map, pass on or drop", grep(r"match [^{;]+\{\s*(Some|Ok|Err)\([^)]*\) => (return )?[^,{}]+(\{\})?,?\s*(None|Ok\([^)]*\)|Err\([^)]*\)) => (return )?([^,{}]+|\{\}),?\s*\}"))
show("`let .. else` and `if let Err` that only return", grep(r"let (Some|Ok)\([^)]*\) = [^;{]+ else \{\s*return (None|Err\(|false|true)|if let (Err|Some)\(\w+\) = [^{]+\{\s*return Err\("))
show("numbers or flags beside a value that say whether there is one", grep(r"^\s*(clash: bool|pub clash: bool|pub first: u64),"))
print("2 functions of one shape (groups of equal bodies, names and numbers aside)")
show("groups", twins())
print("3 loops that count")
show("for over a range", grep(r"\bfor \w+ in [^{]*\.\."))
show("while", grep(r"\bwhile\b"))
print("4 equality, conversion and printing by hand")
show("equality", grep(r"fn (equals|is_same)\("))
show("conversion to and from numbers", grep(r"fn from_number\(|fn number\("))
show("text by a function", grep(r"-> &'static str"))
show("functions that take a value apart to print it", grep(r"fn show_\w+"))
show("zeros by a function", grep(r"fn (new|none)\(\) -> (Account|Progress)"))
print("5 what travels together")
show("a premise that three functions or more have", often(premises))
show("two parameters that three functions or more have", often(pairs))
print("6 buffers with a length beside")
show("count or length beside an array", grep(r"pub (count|length): \w+,\s*pub \w+: \[[^\]]+\]"))
print("7 switches on which step to run")
show("tests of a kind one after another", grep(r"if \w+(\.\w+)*\.kind == [\w:]+ \{\s*[^}]*\}\s*(else )?if"))
show("methods that switch over one enum only to call the same on each case", grep(r"match self \{(\s*\w+::\w+(\(\w+\))? => [^,{}]+,){4,}\s*\}"))
print("8 proofs")
proofs = [n for n in ALL if re.match(r"crates/\w+/proofs/.*\.antt$", n)]
print(f"  lines in proofs/: {sum(text(n).count(chr(10)) for n in proofs)}")
print(f"  files of answers: {sum(n.endswith('Answers.antt') for n in proofs)}, of invariants: {sum(n.endswith('Invariants.antt') for n in proofs)}")
