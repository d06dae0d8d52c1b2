#!/usr/bin/env python3
"""Lists the places in crates/*/src that docs/DESIGN-PASS.md counts.

    tools/design_places.py [POINT..] [--count] [--root FOLDER]

A point is a number from 1 to 7. With --count the numbers alone are printed.
"""
import argparse
import collections
import itertools
import pathlib
import re
import sys

FLAGS = {"good", "listed", "some", "ended", "more", "failed", "answer", "verdict", "code", "wrong", "whole", "textual"}
LENGTHS = {"size", "count", "end", "used", "length", "held"}
CODES = re.compile(r"\b(kind|space|code|command|class|form|meaning)s?: (?:\[)?(u8|u16|usize)\b")


class Source:
    """One file: its text without comments, and where each line of it stands."""

    def __init__(self, path, root):
        self.name = str(path.relative_to(root / "crates")).replace("/src/", "/")
        self.text = re.sub(r"//[^\n]*", "", path.read_text())

    def at(self, offset):
        return f"{self.name}:{self.text.count(chr(10), 0, offset) + 1}"

    def block(self, offset):
        """The text from the first brace behind an offset to its end."""
        start = self.text.index("{", offset)
        depth = 0
        for i in range(start, len(self.text)):
            depth += {"{": 1, "}": -1}.get(self.text[i], 0)
            if depth == 0:
                return self.text[start : i + 1]
        return self.text[start:]

    def types(self, word):
        for m in re.finditer(rf"\b{word} (\w+)(<[^>]*>)?\s*\{{", self.text):
            yield m, m.group(1), self.block(m.start())

    def functions(self):
        """Each function: where its name stands, the name, its head with parameters and clauses, and its body."""
        for m in re.finditer(r"\bfn (\w+)", self.text):
            rest = self.text[m.end() :]
            opening = re.search(r"^\s*\{\s*$|^(?!\s*(?:ensures|requires)\b).*\{\s*$|;\s*$", rest, re.M)
            if opening and not opening.group(0).rstrip().endswith(";"):
                head = rest[: opening.end()].rstrip()[:-1]
                yield m, m.group(1), head, self.block(m.end() + len(head))


def point1(sources):
    """Enums with a case that carries and a case that doesn't; structs with a flag or an answer beside what it tells of; numbers that are kinds."""
    for s in sources:
        for m, name, body in s.types("enum"):
            cases = re.findall(r"^\s{4}(\w+)(\(|\s*\{|,)", body, re.M)
            carrying = sum(1 for _, sign in cases if sign != ",")
            if 0 < carrying and len(cases) <= 3:
                yield s.at(m.start()), f"enum {name}: {', '.join(c for c, _ in cases)}"
        for m, name, body in s.types("struct"):
            fields = re.findall(r"(\w+): ([^,\n]+)", body)
            flags = [f for f, t in fields if f in FLAGS or f.startswith("has_")]
            if flags and len(fields) > 1:
                yield s.at(m.start()), f"struct {name}: {', '.join(flags)} beside {len(fields) - len(flags)} more"
            for f, t in fields:
                if CODES.search(f"{f}: {t}"):
                    yield s.at(m.start()), f"struct {name}: {f} is a {t.strip()}"


def point2(sources):
    """Functions whose bodies are alike but for names and numbers, of three lines or more."""
    alike = collections.defaultdict(list)
    for s in sources:
        for m, name, head, body in s.functions():
            if body.count("\n") < 3:
                continue
            names = {}
            plain = re.sub(r"\b\d\w*|b?\"[^\"]*\"|b'[^']*'", "0", body)
            keep = {"let", "mut", "if", "else", "while", "for", "in", "match", "return", "as", "true", "false", "self"}
            plain = re.sub(r"\b[A-Za-z_]\w*", lambda w: w[0] if w[0] in keep else names.setdefault(w[0], f"n{len(names)}"), plain)
            alike[re.sub(r"\s+", " ", plain)].append((s.at(m.start()), name))
    for group in alike.values():
        if len(group) > 1:
            yield group[0][0], " ~ ".join(f"{name} ({at})" for at, name in group)


def point3(sources):
    """Loops that count: a while over which a name goes up or down by one, and a for over a range of numbers."""
    for s in sources:
        for m in re.finditer(r"^\s*(while|for) ([^\n]*)\{", s.text, re.M):
            body = s.block(m.start() + len(m.group(0)) - 1)
            counted = re.search(r"\b(\w+) [+-]= 1;", body)
            stepped = re.search(r"\blet (\w+) = (\w+) \+ 1;", body)
            if m.group(1) == "while" and (counted or stepped):
                yield s.at(m.start(2)), f"while {m.group(2).strip()}"
            if m.group(1) == "for" and re.search(r"in \w+\.\.", m.group(2)):
                yield s.at(m.start(2)), f"for {m.group(2).strip()}"


def point4(sources):
    """Functions that only cast, that compare or copy by hand, or that turn a case into its number."""
    for s in sources:
        for m, name, head, body in s.functions():
            inner = body.strip("{} \n")
            if re.fullmatch(r"\(?[\w.]+\)? as u\w+", inner):
                yield s.at(m.start()), f"{name}: {inner}"
            elif re.match(r"(same|is_same|equal|copy|code|clone|number)(_\w+)?$", name) and not re.search(r"\bfn\b", inner):
                if re.search(r"=> \d", body) or re.match(r"(same|is_same|equal|copy)", name):
                    yield s.at(m.start()), name
            elif re.match(r"(clip|least|most|min|max|up_to_\w+)$", name):
                yield s.at(m.start()), name


def point5(sources):
    """Facts that three functions of a crate require, and pairs of parameters of which neither comes alone, in three of its functions or more."""
    by_crate = collections.defaultdict(lambda: (collections.defaultdict(set), collections.defaultdict(set)))
    for s in sources:
        facts, takers = by_crate[s.name.split("/")[0]]
        for m, name, head, body in s.functions():
            function = f"{s.name}:{name}"
            for clause in re.findall(r"requires \w*\s*\{([^}]*)\}", head):
                facts[clause.strip()].add(function)
            parameters = re.match(r"(?:<[^(]*>)?\(([^{]*?)\)\s*(?:->|$|\n)", head)
            for word in parameters.group(1).split(",") if parameters else []:
                if ":" in word:
                    takers[re.sub(r"\s+", " ", word.strip())].add(function)
    for crate, (facts, takers) in sorted(by_crate.items()):
        for clause, functions in sorted(facts.items()):
            if len(functions) >= 3:
                yield crate, f"requires {{ {clause} }} in {len(functions)} functions"
        for one, other in itertools.combinations(sorted(takers), 2):
            if len(takers[one]) >= 3 and takers[one] == takers[other]:
                yield crate, f"({one}, {other}) in {len(takers[one])} functions"


def point6(sources):
    """Structs with an array beside its length, and structs with arrays of one length."""
    for s in sources:
        for m, name, body in s.types("struct"):
            fields = re.findall(r"(\w+): (\[[^\]]*\]|[^,\n]+)", body)
            arrays = [(f, re.search(r"; *(\w+)\]", t).group(1)) for f, t in fields if re.match(r"\[.*;", t)]
            lengths = [f for f, t in fields if t.strip() == "usize" and f in LENGTHS]
            if arrays and lengths:
                yield s.at(m.start()), f"struct {name}: {', '.join(f for f, _ in arrays)} with {', '.join(lengths)}"
            sizes = collections.Counter(n for _, n in arrays)
            for n, times in sizes.items():
                if times > 1:
                    yield s.at(m.start()), f"struct {name}: {times} arrays of {n}"


def point7(sources):
    """Matches on numbers whose arms call, and chains of tests of one name against numbers."""
    for s in sources:
        for m, name, head, body in s.functions():
            arms = re.findall(r"^\s*\d+ => \w+[\w:]*\(", body, re.M)
            chain = collections.Counter(re.findall(r"\bif (\w+) == \w+ \{", body))
            if len(arms) > 1:
                yield s.at(m.start()), f"{name}: {len(arms)} arms"
            elif chain and chain.most_common(1)[0][1] > 2:
                yield s.at(m.start()), f"{name}: {chain.most_common(1)[0][1]} tests of {chain.most_common(1)[0][0]}"


POINTS = {1: point1, 2: point2, 3: point3, 4: point4, 5: point5, 6: point6, 7: point7}


def main():
    parser = argparse.ArgumentParser(description=__doc__, formatter_class=argparse.RawDescriptionHelpFormatter)
    parser.add_argument("points", nargs="*", type=int, metavar="POINT")
    parser.add_argument("--count", action="store_true", help="print the numbers alone")
    parser.add_argument("--root", default=pathlib.Path(__file__).resolve().parent.parent, type=pathlib.Path, metavar="FOLDER")
    asked = parser.parse_args()
    if not set(asked.points) <= set(POINTS):
        parser.error("a point is a number from 1 to 7")
    sources = [Source(path, asked.root) for path in sorted(asked.root.glob("crates/*/src/**/*.rt"))]
    if not sources:
        parser.error(f"no sources below {asked.root}/crates")
    for number in asked.points or sorted(POINTS):
        places = list(POINTS[number](sources))
        print(f"point {number}: {len(places)}")
        if not asked.count:
            for place, words in places:
                print(f"  {place}  {words}")


if __name__ == "__main__":
    try:
        main()
    except BrokenPipeError:
        # Whoever read has read enough; what is left in the buffer has nowhere to go.
        sys.stdout = None
