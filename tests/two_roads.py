#!/usr/bin/env python3
"""Shows that the two roads to a register agree, as 02, 3/13 says.

    two_roads.py [--seed SEED] [--walks COUNT] REPLAY_COMMAND

A walk begins in a random state and makes some accesses to each register that has two roads, of
either direction, any width and any value, the card locked or not, the palette down or not. Before
each both spaces are enabled, the index register is set and MISC[0] made to fit; after each all
that can be read is read, and at the end palette and bank too. A walk is two traces, which differ
in the road of these accesses alone: what REPLAY_COMMAND prints of them must be the same. A line
for each register says how many accesses were made and which codes they drew. With '--chip 5462' at
its end the walks are made on that chip.
"""
import argparse
import itertools
import re
import subprocess
import sys
from typing import NamedTuple, Optional

sys.dont_write_bytecode = True
import traces
from decode import CONFIG, MMIO, PORT, SPACES, words
from traces import OPEN, READS, pack, read, write

START_KINDS = ("toggles", "palette", "mixed", "noise", "lines")
# Codes 3, 4 and 5 are shut out by what 02 asks of the state, 1 by the index, 12 by a replay's start.
CODES = {0, 2, 6, 7, 8, 9}
# A read of these moves the pointer or the toggle.
MOVING = {(PORT, 0x3C9), (MMIO, 0xAC), (PORT, 0x3BA), (PORT, 0x3DA)}


class Road(NamedTuple):
    """A space, where it reads and where it writes, and the index register with its number."""
    space: int
    reads: int
    writes: int
    index: Optional[tuple] = None

    def record(self, writing, width, value):
        address = self.writes if writing else self.reads
        return pack(2 * self.space + writing, width, address, value)

    def __str__(self):
        at = "3?5h" if self.reads in (0x3B5, 0x3D5) else f"{self.reads:03X}h"
        if self.writes != self.reads:
            at += f"/{self.writes:03X}h"
        return f"{SPACES[self.space]} {at}" + (f", {self.index[1]:02X}h" if self.index else "")


def road(space, address, index=None):
    return Road(space, address, address, index)


def pairs(base):
    """02, 3/13: each register with both roads, '?' being B or D: (name, width, road, MMIO road)."""
    for number in [*range(0x1C), 0x1D, 0x1E]:
        yield f"CR{number:X}", 1, road(PORT, base + 5, (base + 4, number)), road(MMIO, 4 * number)
    yield "MISC", 1, Road(PORT, 0x3CC, 0x3C2), road(MMIO, 0x80)
    for number, offset in ((0x0E, 0x84), (0x1E, 0x88)):
        yield f"SR{number:02X}", 1, road(PORT, 0x3C5, (0x3C4, number)), road(MMIO, offset)
    palette = ("pixel mask", "read address", "write address", "pixel data")
    for number, name in enumerate(palette):
        yield name, 1, road(PORT, 0x3C6 + number), road(MMIO, 0xA0 + 4 * number)
    for offset in (0x00, 0x02, 0x04):
        yield f"PCI{offset:02X}", 2, road(CONFIG, offset), road(MMIO, 0x300 + offset)


BY_HALF = tuple(list(pairs(base)) for base in (0x3B0, 0x3D0))


def ready(chance, half, old):
    """Both spaces enabled, MISC[0] fitting, the index selected; locked, powered down, with static sync
    or some lines on by chance."""
    yield write(CONFIG, 0x04, chance.below(0x10000) | 0x0003, 2)
    yield write(MMIO, 0x80, chance.below(0x100) & 0xFE | half)
    if chance.one_in(3):
        yield write(MMIO, 0x44, chance.pick((0x00, 0x80)))
    if chance.one_in(3):
        yield write(MMIO, 0xB0, chance.pick((0x00, 0x00, 0x08, 0x80, 0x88)))
    if chance.one_in(3):
        yield write(*traces.CR1A, chance.pick(traces.SYNC))
    if chance.one_in(3):
        yield traces.some_lines(chance)
    if old.index:
        yield write(PORT, *old.index)


def form(chance, writing, width):
    """The width and the value of an access: mostly good, or one or both wrong."""
    if chance.one_in(4):
        width = chance.pick((3 - width, 3 - width, 0, 3, 255))
    if chance.one_in(8):
        return width, chance.pick((1, 0xFF, 0x100, 0xFFFF, 0x10000, 0xFFFFFFFF))
    return width, chance.fitting(min(max(width, 1), 2)) if writing else 0


def look():
    """PCI04 as the access left it, all that a read doesn't move, and by CR24 the toggle."""
    yield read(CONFIG, 0x04, 2)
    yield OPEN
    for space, address, width in READS:
        if (space, address) not in MOVING:
            yield read(space, address, width)
    for base in (0x3B0, 0x3D0):
        yield write(PORT, base + 4, 0x24)
        yield read(PORT, base + 5)


class Walk:
    """The two traces, and of each access its place in them and its register."""

    def __init__(self, seed):
        chance = traces.Chance(f"two roads {seed}")
        kind = START_KINDS[seed % len(START_KINDS)]
        start = traces.trace(kind, chance.below(10 ** 9), 20 + chance.below(400))
        self.traces = [bytearray(start), bytearray(start)]
        self.accesses = []
        steps = itertools.product(range(len(BY_HALF[0])), (0, 1), range(3))
        for number, writing, _ in sorted(steps, key=lambda step: chance.random()):
            self.step(chance, number, writing)
        self.both(traces.dump(chance))

    def both(self, records):
        records = b"".join(records)
        for trace in self.traces:
            trace += records

    def step(self, chance, number, writing):
        half = chance.below(2)
        name, width, *roads = BY_HALF[half][number]
        self.both(ready(chance, half, roads[0]))
        self.accesses.append((len(self.traces[0]) // 8, name))
        access = writing, *form(chance, writing, width)
        for trace, by in zip(self.traces, roads):
            trace += by.record(*access)
        self.both(look())

    def difference(self, outputs):
        """The first record that is answered otherwise, and the last access before it, in lines."""
        lines = [output.split(b"\n") for output in outputs]
        at = next((n for n, (a, b) in enumerate(itertools.zip_longest(*lines)) if a != b), 0)
        last = max((place for place, _ in self.accesses if place <= at), default=0)
        yield f"record {at}: {words(self.traces[0][8 * at:8 * at + 8])}"
        for trace, output in zip(self.traces, lines):
            line = output[at].decode() if at < len(output) else "(nothing)"
            yield f"{line} after record {last}: {words(trace[8 * last:8 * last + 8])}"


class Tally:
    """What walks have shown: the codes of the accesses to each register."""

    def __init__(self):
        self.walks = 0
        self.codes = {name: [] for name, *_ in BY_HALF[0]}

    def count(self, walk, output):
        codes = re.findall(rb"^\d+ (\d+) ", output, re.MULTILINE)
        for place, name in walk.accesses:
            self.codes[name].append(int(codes[place]))
        self.walks += 1

    def missing(self):
        return CODES.difference(*self.codes.values())

    def table(self):
        for name, _, old, new in BY_HALF[0]:
            codes = self.codes[name]
            seen = " ".join(map(str, sorted(set(codes))))
            yield f"{name:15}{str(old):17}{str(new):11}{len(codes):4} accesses, codes {seen}"

    def summary(self):
        made = sum(map(len, self.codes.values()))
        return f"two roads: {len(self.codes)} registers, {made} accesses from {self.walks} states, alike by either"


def run(command, trace):
    return subprocess.run(command, input=trace, stdout=subprocess.PIPE, check=True).stdout


def main():
    parser = argparse.ArgumentParser(description=__doc__,
                                     formatter_class=argparse.RawDescriptionHelpFormatter)
    parser.add_argument("--seed", type=int, default=0)
    parser.add_argument("--walks", type=int, metavar="COUNT", default=12)
    parser.add_argument("command", nargs=argparse.REMAINDER, metavar="REPLAY_COMMAND")
    options = parser.parse_args()
    if not options.command:
        parser.error("no REPLAY_COMMAND")
    tally = Tally()
    for seed in range(options.seed, options.seed + options.walks):
        walk = Walk(seed)
        by = [run(options.command, trace) for trace in walk.traces]
        if by[0] != by[1]:
            sys.exit("\n  ".join([f"DIFFERENT: --seed {seed}", *walk.difference(by)]))
        tally.count(walk, by[0])
    print("\n".join([*tally.table(), tally.summary()]))


if __name__ == "__main__":
    main()
