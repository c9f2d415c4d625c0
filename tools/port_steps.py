#!/usr/bin/env python3
"""Brings the toolchain's names in the answers of proofs to today's spelling: a name from the source keeps its underscores, as in put_requests, not-is_hex_digit, in_default.

usage: tools/port_steps.py [CRATE ..]   at the top; without a name all crates"""

import os
import re
import sys

WORD = re.compile(r"(?<![\w'◌])[A-Za-z][\w']*(?:-[\w']+)+(?![\w'◌])")
SOURCE = re.compile(r"\b[a-z][a-z0-9]*(?:_[a-z0-9]+)+\b|\b[A-Z][A-Z0-9]*(?:_[A-Z0-9]+)+\b")
FIXED = {"in_default", "in_ok", "in_err", "invariant_of", "slice_bounds", "offset_bounds", "overflow_add", "overflow_sub", "overflow_mul", "overflow_shl", "overflow_shr", "overflow_cast",
         "overflow_step", "nonzero_div", "nonzero_rem", "as_bytes", "as_slice", "as_str", "is_empty", "is_some", "is_none", "get_mut", "split_at", "from_slice", "from_residual", "iter_mut", "to_vec", "copy_from_slice",
         "push_str", "is_digit", "try_from", "wrapping_add", "wrapping_mul", "rotate_left", "rotate_right", "to_be_bytes", "from_be_bytes", "range_from", "type_inv", "map_err", "read_line", "write_all", "read_to_end"}


def files(folder, ends):
    for at, dirs, names in os.walk(folder):
        dirs[:] = sorted(d for d in dirs if d not in ("out", "data"))
        for name in sorted(names):
            if name.endswith(ends):
                yield os.path.join(at, name)


def main():
    known = set(FIXED)
    for path in files("crates", (".rt",)):
        known |= set(SOURCE.findall(open(path, encoding="utf-8").read()))
    longest = max(n.count("_") for n in known) + 1

    def joined(match):
        parts, out, i = match[0].split("-"), [], 0
        while i < len(parts):
            for j in range(min(len(parts), i + longest), i + 1, -1):
                if "_".join(parts[i:j]) in known:
                    break
            else:
                j = i + 1
            out.append("_".join(parts[i:j]))
            i = j
        return "-".join(out)

    changed = 0
    for crate in sys.argv[1:] or sorted(os.listdir("crates")):
        for path in files(os.path.join("crates", crate, "proofs"), ("Answers.antt", "Invariants.antt", "Proof.antt")):
            text = open(path, encoding="utf-8").read()
            new = "\n".join(line if re.match(r"use Rattle\.std|\s*--", line) else WORD.sub(joined, line) for line in text.split("\n"))
            if new != text:
                changed += 1
                open(path, "w", encoding="utf-8").write(new)
    print(f"{changed} files")


if __name__ == "__main__":
    main()
