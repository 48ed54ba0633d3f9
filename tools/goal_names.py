#!/usr/bin/env python3
"""Brings the names of goals and steps in proof files to the form that the kit makes them in now.

usage: python3 tools/goal_names.py CRATE..     at the top of the repository

A name of the source keeps its underscores in a goal's name, as in `returns-then-marks_in-marks`; an older kit wrote
dashes for them. In proofs/F/Answers.antt and Invariants.antt each run of words that is a name of the source, or a
word of the kit's, gets its underscores back. It is run once, on files that an older kit's names stand in.
"""
import os
import re
import sys

KIT = """overflow_add overflow_sub overflow_mul overflow_cast overflow_shl overflow_shr overflow_step offset_bounds
slice_bounds invariant_of nonzero_div nonzero_rem in_ok in_err in_default type_inv yielded_by push_reserved as_slice
from_slice from_residual is_some is_none is_empty split_at as_bytes from_utf8 reserve_exact try_from is_ok is_err""".split()
OTHERS = re.compile(r"use (?!Rattle\.\w+\.proofs\.[^{]*\.(?:Goals|Given)\.\{)")
RUN = re.compile(r"[A-Za-z][A-Za-z0-9_']*(?:-[A-Za-z0-9_']+)+")


def rust_names(crates):
    found = set(KIT)
    for crate in crates:
        for folder, dirs, names in os.walk(f"crates/{crate}/src"):
            for name in names:
                if name.endswith(".rt"):
                    text = open(os.path.join(folder, name), encoding="utf-8").read()
                    found |= {w for w in re.findall(r"[a-z][a-z0-9]*(?:_[a-z0-9]+)+", text)}
    return found


def turned(word, known):
    parts = re.split(r"([-_])", word)
    words = parts[0::2]
    out = []
    i = 0
    while i < len(words):
        for j in range(len(words), i, -1):
            if j - i == 1 or "_".join(words[i:j]) in known:
                out.append("_".join(words[i:j]))
                i = j
                break
    return "-".join(out)


def main():
    crates = [line.split(":")[0] for line in open("crates.txt") if ":" in line]
    known = rust_names(crates)
    for crate in sys.argv[1:]:
        for folder, dirs, names in os.walk(f"crates/{crate}/proofs"):
            for name in names:
                if name not in ("Answers.antt", "Invariants.antt"):
                    continue
                path = os.path.join(folder, name)
                text = open(path, encoding="utf-8").read()
                lines = []
                for line in text.split("\n"):
                    if not line.startswith("--") and not OTHERS.match(line):
                        line = RUN.sub(lambda m: turned(m.group(0), known) if m.group(0) not in KEEP else m.group(0), line)
                    lines.append(line)
                new = "\n".join(lines)
                if new != text:
                    with open(path, "w", encoding="utf-8") as f:
                        f.write(new)


# Lemmas of the library that have a dash where the source has a name with an underscore.
KEEP = set()
for line in os.popen("grep -rhoE '^use Rattle[^ ]*\\{[^}]*\\}' crates --include=*.antt").read().split("\n"):
    if not OTHERS.match(line):
        continue
    for word in re.findall(r"[^\s,{}]+", line.split("{", 1)[-1]):
        KEEP.add(word)
main()
