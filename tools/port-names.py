#!/usr/bin/env python3
"""Turns the names of definitions and lemmas that are written in camel case to snake case, in every crate and paper.

usage: tools/port-names.py          at the top of the repository, once

A name counts if a file of specs/ or proofs/ declares it and it begins with a small letter and has a capital. Names of types, of modules
and of the source keep their spelling. Where a file that has the old name has the new one too, as another name or as a variable, the two
would fall together: those have names of their own here, and the script stops where one more does.
"""
import collections
import glob
import os
import re
import sys

ID = r"[A-Za-z_][\w'-]*"
TOKEN = re.compile(r"(?<![\w'.-])" + ID)
ANY = re.compile(r"(?<![\w'-])" + ID)
DECLARED = re.compile(r"^\s*(?:abbrev |unfoldable |pub )*((?:" + ID + r"\s+)*" + ID + r") :(?: |$)")
CAMEL = re.compile(r"^[a-z][a-z0-9]*[A-Z]")
# where a file that has the old name has the plain new one too, as another name or as a variable
APART = {
    "allHold": "are_all_held",
    "bothBelow": "are_both_below",
    "byKey": "by_the_key",
    "countMost": "most_count",
    "otherHalf": "of_other_half",
    "readAnswer": "answer_of_read",
    "readTold": "told_of_read",
    "sameBool": "same_bools",
    "samePlace": "same_places",
}


def snake(name):
    """Spells a name in snake case, an acronym in small letters."""
    parts = []
    for part in name.split("-"):
        part = re.sub(r"(?<=[a-z])(?=[A-Z0-9]+[A-Z])|(?<=[a-z0-9])(?=[A-Z])", "_", part)
        parts.append(part.lower())
    return "-".join(parts)


def read(path):
    with open(path, encoding="utf-8") as file:
        return file.read()


def files():
    antt = glob.glob("crates/*/specs/**/*.antt", recursive=True) + glob.glob("crates/*/proofs/**/*.antt", recursive=True)
    source = glob.glob("crates/*/src/**/*.rt", recursive=True)
    edits = glob.glob("crates/*/must-fail/*.edit")
    papers = ["README.md", "docs/PROOFS.md", "docs/PROVING.md", "docs/DECISIONS.md"] + glob.glob("docs/changes/*.md")
    return antt, source, edits, papers


def main():
    antt, source, edits, papers = files()
    text = {path: read(path) for path in antt + source + edits + papers if os.path.isfile(path)}
    declared = set()
    for path in antt:
        for line in text[path].split("\n"):
            found = DECLARED.match(line)
            if found:
                declared.update(found.group(1).split())
    new = {name: APART.get(name, snake(name)) for name in declared if CAMEL.match(name)}
    taken = collections.defaultdict(set)
    for path in antt:
        for name in set(TOKEN.findall(re.sub(r"--.*", "", text[path]))):
            taken[name].add(path)
    # of a source file a clause sees what `ghost use` brings, and the parameters
    for path in source:
        bare = re.sub(r"//.*", "", text[path])
        names = re.findall(r"(?<![\w.])(" + ID + r"):(?!:)", bare) + TOKEN.findall(" ".join(re.findall(r"ghost use [^;]*;", bare)))
        for name in set(names):
            taken[name].add(path)
    back = collections.defaultdict(set)
    for old, name in new.items():
        back[name].add(old)
    for old in sorted(new):
        name = new[old]
        where = taken[old] & taken[name]
        if where or len(back[name]) > 1:
            return f"{old}: {name} is in files that have it, as {sorted(where)[:3]}, or is made of {sorted(back[name])}"
    for path in text:
        turned = ANY.sub(lambda found: new.get(found.group(0), found.group(0)), text[path])
        if turned != text[path]:
            with open(path, "w", encoding="utf-8") as file:
                file.write(turned)
    print(f"{len(new)} names turned")


if __name__ == "__main__":
    sys.exit(main())
