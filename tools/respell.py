#!/usr/bin/env python3
"""Brings the definitions and lemmas of this repository to snake case.

usage: python3 tools/respell.py [-n]     at the top of the repository; -n prints the names and changes nothing

A name that a file of specs/ or proofs/ declares, that begins with a lowercase letter and has a capital or a dash in
it, gets underscores and small letters. Names that Rattle makes (goals, invariants, measures, picks) stay, and so do
names of facts and types. Two names that would fall together, or fall on a word that the crates use already, stop the
script before anything is changed. Words in backquotes of README.md and docs/ follow; Rust code has no such names.
"""
import os
import re
import sys

WORD = r"[A-Za-z0-9_'?\-]"

# Lemmas that would get the name of the definition that they are about.
LEMMAS = {
    "body_reads": "body_reads_lem",
    "defaults-read": "defaults_read_lem",
    "in_order": "in_order_lem",
    "is-term": "is_term_lem",
}

# A definition may have the name of a Rust function, as it is a name of antt's; these words are such names, or the
# names of two definitions of crates that do not see one another.
SHARED = {
    "def_at", "default_for", "default_of", "has_room", "inferred_as", "is_adt", "is_alias", "is_function",
    "is_lifetime", "is_named", "is_term", "is_type_form", "marks_in", "marks_of", "may_be_parent", "may_have_parent",
    "meant_by", "name_in", "parent_rows", "provided_as", "reason_of", "resolved_segment",
}
DECLARES = re.compile(
    r"^\s*(?:(?:abbrev|unfoldable|pub)\s+)*(?:(?:data|record)\s+)?([a-z][^\s:(){}]*)\s*"
    r"(?:\([^)]*\)\s*|\{[^}]*\}\s*)*:\s*(.*)$"
)


def files(ending):
    for folder, dirs, names in os.walk("crates"):
        dirs[:] = sorted(d for d in dirs if d != "out")
        for name in sorted(names):
            if name.endswith(ending):
                yield os.path.join(folder, name)


def snake(name):
    name = name.replace("-", "_")
    name = re.sub(r"(?<=[a-z0-9])([A-Z])", lambda m: "_" + m.group(1).lower(), name)
    return name


def own_names():
    found = set()
    for path in files(".antt"):
        for line in open(path, encoding="utf-8"):
            m = DECLARES.match(line)
            if not m or re.match(r"(goal|given|need)\.", m.group(2)):
                continue
            name = m.group(1)
            if re.search(r"[a-z0-9][A-Z]|-", name):
                found.add(name)
    return found


def words():
    seen = set()
    for ending in (".antt", ".rt"):
        for path in files(ending):
            text = open(path, encoding="utf-8").read()
            seen |= set(re.findall(WORD + "+", text))
    return seen


def main():
    turn = {name: snake(name) for name in own_names()}
    turn.update(LEMMAS)
    seen = words() - SHARED - set(LEMMAS)
    bad = 0
    back = {}
    for old, new in sorted(turn.items()):
        if new in seen:
            print(f"{old} -> {new}: the crates have this word")
            bad = 1
        if new in back and new not in SHARED:
            print(f"{old} and {back[new]} -> {new}: two names fall together")
            bad = 1
        back[new] = old
    if "-n" in sys.argv:
        for old, new in sorted(turn.items()):
            print(f"{old} {new}")
    if bad or "-n" in sys.argv:
        sys.exit(bad)
    any_of = "|".join(re.escape(n) for n in sorted(turn, key=len, reverse=True))
    whole = re.compile(f"(?<!{WORD})(?:{any_of})(?!{WORD})")
    pages = ["README.md"] + sorted("docs/" + f for f in os.listdir("docs") if f.endswith(".md"))
    for path in list(files(".antt")) + list(files(".rt")) + list(files(".edit")) + pages:
        text = open(path, encoding="utf-8").read()
        if path in pages:
            new = re.sub(r"`[^`\n]*`", lambda m: whole.sub(lambda w: turn[w.group(0)], m.group(0)), text)
        else:
            new = whole.sub(lambda w: turn[w.group(0)], text)
        if new != text:
            with open(path, "w", encoding="utf-8") as f:
                f.write(new)


main()
