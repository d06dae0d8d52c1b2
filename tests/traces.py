#!/usr/bin/env python3
"""Writes a trace of one kind to standard output.

    traces.py KIND SEED COUNT > FILE

The same kind, seed and count give the same bytes. COUNT is the number of whole records; a
trace of kind fragment has 1 to 7 bytes more. Kinds:
"""
import itertools
import random
import struct
import sys

sys.dont_write_bytecode = True
from decode import CONFIG, HELD, LINES, MMIO, PORT, VPORT

READ, WRITE = 0, 1
PIXEL_PORTS = ((PORT, 0x3C7), (PORT, 0x3C8), (PORT, 0x3C9))
PIXEL_MMIO = ((MMIO, 0xA4), (MMIO, 0xA8), (MMIO, 0xAC))
PCI04 = ((CONFIG, 0x04), (MMIO, 0x304))
CR1A = (MMIO, 0x68)
# Values of CR1A: static sync off, one of its bits on, both, all others; 02 7/13.
SYNC_OFF, SYNC = (0x00, 0x00, 0xF3), (0x00, 0x00, 0xF3, 0x04, 0x08, 0x0C)
SR_LAST, CR_LAST, GR_LAST, AR_LAST = 0x1F, 0x3F, 0x3F, 0x1F


class Chance:
    """Draws from random() alone, whose sequence is the same in every Python 3."""

    def __init__(self, seed):
        self.random = random.Random(seed).random

    def below(self, limit):
        return int(self.random() * limit)

    def pick(self, items):
        return items[int(self.random() * len(items))]

    def shuffled(self, items):
        return sorted(items, key=lambda item: self.random())

    def one_in(self, times):
        return self.random() * times < 1

    def fitting(self, width):
        """A value of this width; now and then an edge of its range."""
        top = 256 ** width
        return self.pick((0, 1, top // 2, top - 1)) if self.one_in(8) else self.below(top)


pack = struct.Struct("<BBHI").pack


def read(space, address, width=1):
    return pack(2 * space + READ, width, address, 0)


def write(space, address, value, width=1):
    return pack(2 * space + WRITE, width, address, value)


def passing(count):
    """So many lines pass, 02 10/13."""
    return pack(LINES, 2, 0, count)


OPEN = write(CONFIG, 0x04, 0x0003, 2)
PLACES = sorted(HELD)
READS = [(space, address, HELD[space, address][1]) for space, address in PLACES
         if HELD[space, address][2]]
WRITES = [(space, address, HELD[space, address][1]) for space, address in PLACES
          if HELD[space, address][3]]


def kept_open(chance, records):
    """Begins with both spaces opened, and opens them again from time to time."""
    yield OPEN
    for record in records:
        if chance.one_in(50):
            yield OPEN
        yield record


# ---- Single records ----

def likely_value(chance, space, address, width):
    """A random value, but not often one that shuts the rest of the trace out."""
    value = chance.fitting(width)
    if (space, address) in PCI04 and not chance.one_in(8):
        return value | 0x0003
    if (space, address) in ((PORT, 0x3C2), (MMIO, 0x80)) and not chance.one_in(3):
        return value | 0x01
    if (space, address) in ((MMIO, 0x44), (MMIO, 0xB0)) and not chance.one_in(3):
        return value & 0x7F
    if (space, address) == CR1A and not chance.one_in(3):
        return value & 0xF3
    if address in (0x3C4, 0x3CE, 0x3C0) and chance.one_in(2):
        return value % 0x1F
    return value


def valid(chance):
    """A record at a held place, of its width, with a value that fits."""
    if chance.one_in(2):
        return read(*chance.pick(READS))
    space, address, width = chance.pick(WRITES)
    return write(space, address, likely_value(chance, space, address, width), width)


def faulty(chance):
    """A record that breaks one or more rules at once, near a held place."""
    space, address = chance.pick(PLACES)
    kind = 2 * space + chance.below(2)
    width = HELD[space, address][1]
    value = chance.fitting(width) if kind % 2 else 0
    for _ in range(1 + chance.below(2)):
        fault = chance.below(5)
        if fault == 0:
            kind = chance.below(7) if chance.one_in(2) else chance.pick((6, 7, 9, 128, 254, 255))
        elif fault == 1:
            width = chance.pick((0, 1, 2, 3, 4, 255))
        elif fault == 2:
            address = (address + chance.pick((-2, -1, 1, 2, 0x80, 0x100, 0x400, 0x8000))) % 0x10000
        elif fault == 3:
            value = chance.pick((1, 0xFF, 0x100, 0xFFFF, 0x10000, 0x01000000, 0xFFFFFFFF))
        else:
            width = 3 - width if width in (1, 2) else 2
    return pack(kind, width, address, value)


def some_lines(chance):
    """So many lines pass, as a rule; or a record of kind 6 or 7 that is not of that form."""
    fault = chance.below(12)
    kind, width, address, value = LINES, 2, 0, chance.fitting(2) or 1
    if fault == 0:
        width = chance.pick((0, 1, 1, 3, 4, 255))
        value = chance.pick((1, 0xFF))
    elif fault == 1:
        address = chance.pick((1, 2, 0x100, 0x140, 0x3BA, 0xFFFF))
    elif fault == 2:
        value = chance.pick((0, 0, 0x10000, 0x10001, 0x01000001, 0xFFFFFFFF))
    elif fault == 3:
        kind = chance.pick((7, 7, 8, 14, 70, 134))
    return pack(kind, width, address, value)


# ---- Streams of each kind, without end ----

def random_bytes(chance):
    """random bytes"""
    while True:
        yield struct.pack("<II", chance.below(2 ** 32), chance.below(2 ** 32))


def noise(chance):
    """valid records and records that break one or two rules, half and half"""
    def records():
        while True:
            yield faulty(chance) if chance.one_in(2) else valid(chance)
            if chance.one_in(20):
                yield some_lines(chance)
    return kept_open(chance, records())


def dump(chance):
    """Reads all that can be read; moves the indices, the pointer, B0[3] and B0[7], and CR1A."""
    yield OPEN
    for space, address, width in READS:
        if address not in (0x3C9, 0xAC, 0x3BA, 0x3DA):
            yield read(space, address, width)
    for base in (0x3B0, 0x3D0):
        for number in (0x24, 0x26, chance.below(CR_LAST + 1)):
            yield write(PORT, base + 4, number)
            yield read(PORT, base + 5)
    for index, data, last in ((0x3C4, 0x3C5, SR_LAST), (0x3CE, 0x3CF, GR_LAST)):
        for number in range(last + 1):
            yield write(PORT, index, number)
            yield read(PORT, data)
    for number in range(AR_LAST + 1):
        yield read(PORT, 0x3BA)
        yield read(PORT, 0x3DA)
        yield write(PORT, 0x3C0, number)
        yield read(PORT, 0x3C1)
    yield write(*CR1A, 0)
    for b0, entries in ((0x00, 256), (0x08, 16)):
        yield write(MMIO, 0xB0, b0)
        yield write(PORT, 0x3C7, 0)
        for _ in range(3 * entries):
            yield read(PORT, 0x3C9)


def mixed(chance):
    """mostly valid records over every held place, random values, all read out at times"""
    def records():
        while True:
            for _ in range(4000):
                yield faulty(chance) if chance.one_in(25) else valid(chance)
            yield from dump(chance)
    return kept_open(chance, records())


def steady(misc):
    """The state a sweep is made under: spaces open, MISC[0] as given, no lock, no power-down."""
    return (OPEN, write(MMIO, 0x80, misc), write(MMIO, 0x44, 0), write(MMIO, 0xB0, 0), write(*CR1A, 0))


UNSTEADY = {*PCI04, (PORT, 0x3C2), (PORT, 0x3B5), (PORT, 0x3D5), (MMIO, 0x80), (MMIO, 0x44),
            (MMIO, 0xB0), CR1A}


def sweep_over(chance, misc, addresses):
    yield from steady(misc)
    for space in (CONFIG, PORT, MMIO):
        for address in addresses:
            yield read(space, address, 1)
            yield read(space, address, 2)
            yield write(space, address, chance.below(0x100), 1)
            yield write(space, address, chance.below(0x10000), 2)
            if (space, address) in HELD:
                yield read(space, address, HELD[space, address][1])
            if (space, address) in UNSTEADY:
                yield from steady(misc)


def sweep(chance):
    """every address 0 to FFFF of each space, both widths, both directions, over and over"""
    while True:
        yield from sweep_over(chance, 0, range(0x400))
        yield from sweep_over(chance, 1, range(0x400))
        yield from sweep_over(chance, chance.below(2), range(0x400, 0x10000))


# The records of one sweep: 4 an address, and what sweep_over adds at held and unsteady places. Those
# of its first part are below 400h, where all that is held stands.
LOW_SWEEP = 2 * (3 * 4 * 0x400 + len(HELD) + len(steady(0)) * (1 + len(UNSTEADY)))
SWEEP = LOW_SWEEP + 3 * 4 * (0x10000 - 0x400) + len(steady(0))


def index(chance):
    """every index of each index and data port, read and written, locked or not"""
    while True:
        misc = chance.below(2)
        base = 0x3D0 if misc else 0x3B0
        yield from steady(misc)
        yield write(MMIO, 0x44, chance.pick((0x00, 0x80)))
        for port in (0x3C4, 0x3CE, base + 4):
            for number in range(256):
                yield write(PORT, port, number)
                yield read(PORT, port)
                yield read(PORT, port + 1)
                yield write(PORT, port + 1, chance.fitting(1))
                yield read(PORT, port + 1)
                if chance.one_in(16):
                    yield pack(chance.pick((2, 3)), 2, port + chance.below(2), 0)
        yield write(PORT, base + 4, 0x24)
        for number in range(256):
            if chance.one_in(2):
                yield read(PORT, base + 10)
            yield write(PORT, 0x3C0, number)
            yield read(PORT, base + 5)
            yield read(PORT, 0x3C0)
            yield read(PORT, 0x3C1)
            yield write(PORT, 0x3C0, chance.fitting(1))
            yield read(PORT, 0x3C1)
            yield write(PORT, base + 4, chance.pick((0x24, 0x26)))


def switch(chance):
    """One change of what decides over other accesses."""
    base = chance.pick((0x3B0, 0x3D0))
    which = chance.below(10)
    if which == 0:
        return (write(MMIO, 0x44, chance.pick((0x00, 0x80, 0x7F, 0xFF))),)
    if which == 1:
        return (write(PORT, base + 4, 0x11), write(PORT, base + 5, chance.pick((0x00, 0x80))))
    if which == 2:
        return (write(MMIO, 0xB0, chance.pick((0x00, 0x80, 0x08, 0x88, 0xFF))),)
    if which == 3:
        return (write(*chance.pick(((PORT, 0x3C2), (MMIO, 0x80))), chance.below(256)),)
    if which == 4:
        space, address = chance.pick(PCI04)
        return (write(space, address, chance.pick((0, 1, 2, 0xFFFC, 0xFFFD, 0xFFFE)), 2),)
    if which == 5:
        return (read(PORT, base + 10),)
    if which == 6:
        return (write(PORT, 0x3C0, chance.below(256)),)
    if which == 7:
        return (write(*CR1A, chance.pick(SYNC)),)
    if which == 8:
        return (write(PORT, base + 4, 0x1A), write(PORT, base + 5, chance.pick(SYNC)))
    return (write(PORT, base + 4, chance.pick((0x24, 0x26))), read(PORT, base + 5))


def touched(chance):
    """One access whose answer hangs on a switch."""
    base = chance.pick((0x3B0, 0x3D0))
    which = chance.below(9)
    if which == 0:
        return (write(MMIO, 4 * chance.below(8), chance.fitting(1)),)
    if which == 1:
        return (read(MMIO, 4 * chance.below(8)),)
    if which == 2:
        return (write(PORT, base + 4, chance.below(9)), write(PORT, base + 5, chance.fitting(1)))
    if which == 3:
        return (write(PORT, base + 4, chance.below(9)), read(PORT, base + 5))
    if which == 4:
        space, address = chance.pick(PIXEL_PORTS + PIXEL_MMIO)
        return (write(space, address, chance.fitting(1)),)
    if which == 5:
        return (read(*chance.pick(PIXEL_PORTS + PIXEL_MMIO)),)
    if which == 6:
        return (read(PORT, chance.pick((0x3C0, 0x3C1, 0x3CC, base + 4, base + 10))),)
    if which == 7:
        return (some_lines(chance), read(MMIO, 0x140, 2), read(PORT, base + 10))
    return (read(MMIO, 0x304, 2), read(CONFIG, 0x04, 2), read(MMIO, 0xB0), read(MMIO, 0x44))


def toggles(chance):
    """lock, power-down, static sync, MISC[0], PCI04's enables and the attribute toggle among accesses"""
    yield OPEN
    while True:
        yield from switch(chance)
        for _ in range(1 + chance.below(6)):
            yield from touched(chance)
        if chance.one_in(3):
            yield OPEN
        if chance.one_in(6):
            yield write(MMIO, 0xB0, 0)
            yield write(*CR1A, 0)


def interruption(chance, read_address, write_address, data):
    """What may fall between two bytes of a colour."""
    which = chance.below(8)
    if which == 0:
        return write(*read_address, chance.fitting(1))
    if which == 1:
        return write(*write_address, chance.fitting(1))
    if which == 2:
        return read(*data)
    if which == 3:
        return write(*data, chance.fitting(1))
    if which == 4:
        return write(MMIO, 0xB0, chance.pick((0x00, 0x00, 0x08, 0x08, 0x80)))
    if which == 5:
        return write(*CR1A, chance.pick(SYNC))
    return read(*chance.pick((read_address, write_address, (MMIO, 0xB0), CR1A)))


def palette(chance):
    """palette and bank, loaded and read at length, with changes of mode and static sync in mid-colour"""
    def records():
        while True:
            places = PIXEL_PORTS if chance.one_in(2) else PIXEL_MMIO
            read_address, write_address, data = places
            entries = chance.pick((1, 2, 16, 17, 256, 300))
            restless = chance.one_in(2)
            first = chance.below(256)
            yield write(MMIO, 0xB0, chance.pick((0x00, 0x00, 0x08)))
            yield write(*CR1A, chance.pick(SYNC_OFF))
            yield write(*chance.pick((write_address, write_address, read_address)), first)
            for _ in range(3 * entries):
                if restless and chance.one_in(20):
                    yield interruption(chance, *places)
                yield write(*data, chance.fitting(1))
            yield write(MMIO, 0xB0, chance.pick((0x00, 0x00, 0x08)))
            yield write(*CR1A, chance.pick(SYNC_OFF))
            yield write(*chance.pick((read_address, read_address, write_address)), first)
            for _ in range(3 * entries):
                if restless and chance.one_in(20):
                    yield interruption(chance, *places)
                yield read(*data)
    return kept_open(chance, records())


def polls(chance):
    """pixel data both ways, address writes and refusals, with B0h and 3C7h read in between"""
    def records():
        while True:
            read_address, write_address, data = PIXEL_PORTS if chance.one_in(2) else PIXEL_MMIO
            kind = chance.below(14)
            if kind < 4:
                yield read(*data)
            elif kind < 8:
                yield write(*data, chance.fitting(1))
            elif kind < 10:
                yield write(*chance.pick((read_address, write_address)), chance.below(256))
            elif kind < 12:
                yield write(MMIO, 0xB0, chance.pick((0x00, 0x00, 0x08, 0x80)))
            else:
                yield write(*CR1A, chance.pick(SYNC))
            yield read(MMIO, 0xB0)
            if chance.one_in(4):
                yield read(PORT, 0x3C7)
    return kept_open(chance, records())


SR_HELD = [0x00, 0x01, 0x02, 0x03, 0x04, 0x07, *range(0x09, 0x0F), 0x14, 0x15, *range(0x1B, 0x1F)]
CR_HELD = [*range(0x1C), 0x1D, 0x1E]
INDEXED = ((0x3C4, SR_HELD), (0x3D4, CR_HELD), (0x3D4, CR_HELD), (0x3CE, range(0x09)))


def driven(chance):
    """A few port accesses that belong together, as a driver makes them; none is refused."""
    which = chance.below(8)
    if which < 4:
        port, numbers = chance.pick(INDEXED)
        number = chance.pick(numbers)
        value = chance.below(0x80 if (port, number) == (0x3D4, 0x11) else 0x100)
        yield write(PORT, port, number)
        if chance.one_in(2):
            yield read(PORT, port + 1)
        if not chance.one_in(4):
            yield write(PORT, port + 1, value)
    elif which == 4:
        yield read(PORT, 0x3DA)
        yield write(PORT, 0x3C0, chance.below(0x15))
        yield write(PORT, 0x3C0, chance.below(0x100))
    elif which == 5:
        loading = not chance.one_in(4)
        yield write(PORT, 0x3C8 if loading else 0x3C7, chance.below(0x100))
        for _ in range(3 * (1 + chance.below(4))):
            yield write(PORT, 0x3C9, chance.below(0x100)) if loading else read(PORT, 0x3C9)
    elif which == 6:
        for _ in range(1 + chance.below(4)):
            yield read(PORT, 0x3DA)
    elif chance.one_in(2):
        yield read(PORT, 0x3CC)
        yield write(PORT, 0x3C2, chance.below(0x100) | 0x01)
    else:
        yield write(PORT, 0x3C6, chance.below(0x100))


def ports(chance):
    """port traffic of a driver: indexed registers, attributes, a few colours, status, MISC"""
    yield OPEN
    yield write(PORT, 0x3C2, 0x01)
    while True:
        yield from driven(chance)


def timing(chance):
    """CR writes that bear on the timing line; most telling as many short traces"""
    yield OPEN
    while True:
        for number in (0x1A, 0x1B, 0x1D, 0x1E, *range(0x08), 0x09, 0x0C, 0x0D, *range(0x10, 0x14),
                       0x15, 0x16, 0x18):
            value = chance.fitting(1)
            if number == 0x1B:
                value = value & 0x5F | chance.pick((0x00, 0x00, 0x20, 0x80, 0xA0))
            if number == 0x11 and not chance.one_in(4):
                value &= 0x7F
            yield write(MMIO, 4 * number, value)


def near(chance, value, top):
    """A number, one beside it, or one far from it."""
    return chance.below(top) if chance.one_in(5) else (value + chance.pick((-1, 0, 0, 1))) % top


def geometry(chance):
    """rounds of 20 writes that bear on cursor, window 2 and capture, edges close to each other; best as many short traces"""
    yield OPEN
    while True:
        lines = chance.below(0x400)
        yield write(MMIO, 0x44, 0)
        yield write(MMIO, 0x78, 0)
        yield write(MMIO, 0x1C, lines >> 8 & 1 | (lines >> 9 & 1) << 5 | (lines >> 8 & 1) << 1
                    | (lines >> 9 & 1) << 6)
        yield write(MMIO, 0x18, near(chance, lines & 0xFF, 0x100))
        yield write(MMIO, 0x48, lines & 0xFF)
        left, top = chance.below(0x1000), near(chance, lines // 2, 0x1000)
        yield write(MMIO, 0xCC, left, 2)
        yield write(MMIO, 0xCE, top, 2)
        yield write(MMIO, 0xD0, near(chance, left, 0x1000), 2)
        yield write(MMIO, 0xD2, near(chance, chance.pick((top, lines, lines + 1, lines + 2)), 0x1000), 2)
        for address in (0xD4, 0xD5):
            yield write(MMIO, address, chance.fitting(1))
        for address in (0xE0, 0xE2):
            yield write(MMIO, address, near(chance, chance.below(0x80), 0x1000), 2)
        preset = chance.pick((0x3F, 0x40, 0x41, chance.below(0x80)))
        yield write(MMIO, 0xE4, chance.pick((0x3F, 0x40, chance.below(0x80))) << 8 | preset, 2)
        for address in (0xE6, 0xE8, 0x108, 0x10A, 0x10C, 0x10E):
            yield write(MMIO, address, chance.fitting(2), 2)


def vport(chance):
    """MMIO 100h to 11Fh in both directions and widths, each V-Port register bit by bit; PCI02"""
    yield OPEN
    while True:
        for address in chance.shuffled(range(0x100, 0x120)):
            for width in (1, 2):
                yield read(MMIO, address, width)
                yield write(MMIO, address, chance.fitting(width), width)
                yield read(MMIO, address & ~1, 2)
        for address in chance.shuffled(VPORT):
            for bit in range(16):
                yield write(MMIO, address, 1 << bit ^ chance.pick((0, 0xFFFF)), 2)
                yield read(MMIO, address, 2)
        for space, address in ((CONFIG, 0x02), (MMIO, 0x302)):
            yield read(space, address, 2)
            yield write(space, address, chance.below(0x10000), 2)


class Screen:
    """What bears on the line, and where it stands."""

    def __init__(self, chance):
        self.chance, self.line, self.total = chance, 0, 2

    def resize(self, total):
        """The writes of a V total, and of V display and V sync, mostly within it; the lock is off."""
        limit = 2048 if self.chance.one_in(4) else min(total, 2048)
        display, start = (self.chance.below(limit) for _ in range(2))
        if self.chance.one_in(3):
            start = max(0, limit - 1 - self.chance.below(12))
        end = start + 1 + self.chance.below(16)
        self.total, self.edges = total, (0, display + 1, start, end, total - 1)
        cr7, cr1e = self.chance.below(256) & 0x18, self.chance.below(256) & 0xF2
        for bit, number in enumerate((total - 2, display, start)):
            cr7 |= (number >> 8 & 1) << bit | (number >> 9 & 1) << bit + 5
            cr1e |= (number >> 10 & 1) << (3, 2, 0)[bit]
        for number, value in ((0x11, end & 0x0F), (0x06, total - 2), (0x07, cr7), (0x1E, cr1e),
                              (0x10, start), (0x12, display)):
            yield write(MMIO, 4 * number, value & 0xFF)

    def go(self, count):
        self.line = (self.line + count) % self.total
        return passing(count)

    def to(self, line):
        """To a line, on the next screen if it is there."""
        return self.go((line - self.line) % self.total or self.total)

    def aim(self):
        """To an edge or beside it."""
        return self.to(self.chance.pick(self.edges) + self.chance.pick((-1, 0, 0, 1)))

    def far(self):
        """Many lines at once; with the line where it stands they may be more than 16 bits hold."""
        least = self.chance.pick((1, 0xF000, 0xFFFF))
        return self.go(least + self.chance.below(0x10000 - least))

    def some(self):
        """Kind 6 of good form or not, as some_lines has it."""
        record = some_lines(self.chance)
        value, = struct.unpack_from("<I", record, 4)
        return self.go(value) if 0 < value < 0x10000 and passing(value) == record else record


def look_at_line(chance, base):
    yield read(PORT, base + 10)
    if chance.one_in(2):
        yield read(MMIO, 0x140, 2)
    if chance.one_in(8):
        yield pack(chance.pick((4, 5)), 1 + chance.below(2), 0x13E + chance.below(6), 0)


def wait_for_retrace(chance, screen, base):
    """A recorded wait: 3?Ah read over and over, a line or a few in between, from before V sync on."""
    step = chance.pick((1, 1, 1, 2, 3))
    yield screen.to(screen.edges[2] - 3)
    for _ in range(24):
        yield read(PORT, base + 10)
        yield screen.go(step)


def shorten(chance, screen, base):
    """V total below the line for a while, with reads or with lines passing; then as it was."""
    total, low = screen.total, (screen.total - 2) & 0xFF
    yield screen.to(total - 1 - chance.below(3))
    yield write(MMIO, 0x44, chance.below(0x10))
    for cr6 in (chance.below(low + 1), low):
        screen.total = total - low + cr6
        yield write(MMIO, 0x18, cr6)
        yield from look_at_line(chance, base)
        if chance.one_in(3):
            yield screen.go(chance.pick((1, 2, 1 + chance.below(0xFFFF))))
            yield from look_at_line(chance, base)


def unlike(chance, screen, base):
    """What must not bear on the line, or the line on it: refusals, spaces off, the toggle, the lock."""
    which = chance.below(5)
    if which == 0:
        yield screen.some()
    elif which == 1:
        yield write(CONFIG, 0x04, chance.pick((0, 1, 2)), 2)
        yield screen.some()
        yield OPEN
    elif which == 2:
        yield from (write(PORT, base + 4, 0x24), write(PORT, 0x3C0, chance.below(0x15)), screen.some())
        yield from (read(PORT, base + 5), read(MMIO, 0x140, 2), read(PORT, base + 5))
        yield from (read(PORT, base + 10), read(PORT, base + 5))
    elif which == 3:
        yield from (write(MMIO, 0x44, 0x80), write(MMIO, 0x18, chance.below(256)), screen.some())
    else:
        number = chance.pick((0x10, 0x11, 0x12, 0x15, 0x16, 0x1A))
        yield write(MMIO, 4 * number, chance.below(0x80))


def lines(chance):
    """lines pass to the edges of V display, V sync and V total; waits for retrace; totals shortened; bad kind 6"""
    screen = Screen(chance)
    while True:
        misc = chance.below(2)
        base = 0x3D0 if misc else 0x3B0
        total = chance.pick((2, 3, 4 + chance.below(30), 525, 2 + chance.below(2048), 2048, 2049))
        yield from (OPEN, write(MMIO, 0x80, misc), *screen.resize(total))
        for _ in range(4 + chance.below(12)):
            which = chance.below(12)
            if which < 6:
                yield screen.aim()
            elif which < 8:
                yield screen.far()
            elif which == 8:
                yield from wait_for_retrace(chance, screen, base)
            elif which == 9:
                yield from shorten(chance, screen, base)
            else:
                yield from unlike(chance, screen, base)
            yield from look_at_line(chance, base)


def fragment(chance):
    """valid records, then 1 to 7 bytes of one more"""
    return kept_open(chance, iter(lambda: valid(chance), None))


def tail(chance, seed):
    """The fragment: by turns 1 to 7 bytes of a record that would show in the timing line."""
    record = write(MMIO, 4 * chance.below(8), 1 + chance.below(255))
    if chance.one_in(3):
        record = chance.pick((read(*chance.pick(READS)), passing(1 + chance.below(0xFFFF))))
    return record[:1 + seed % 7]


def long(chance):
    """stretches of all the other kinds"""
    streams = [make(chance) for make in (noise, mixed, index, toggles, palette, polls, timing, geometry, vport, lines, sweep)]
    yield OPEN
    while True:
        yield from itertools.islice(chance.pick(streams), 20 + chance.below(1500))
        yield from steady(chance.below(2))
        if chance.one_in(8):
            yield from dump(chance)


KINDS = {
    "bytes": random_bytes,
    "noise": noise,
    "mixed": mixed,
    "sweep": sweep,
    "index": index,
    "toggles": toggles,
    "palette": palette,
    "polls": polls,
    "ports": ports,
    "timing": timing,
    "geometry": geometry,
    "vport": vport,
    "lines": lines,
    "fragment": fragment,
    "long": long,
}


def usage():
    kinds = (f"    {kind:10}{make.__doc__}" for kind, make in KINDS.items())
    return "\n".join((__doc__, *kinds))


def trace(kind, seed, count):
    """The bytes of a trace."""
    chance = Chance(f"{kind} {seed}")
    records = b"".join(itertools.islice(KINDS[kind](chance), count))
    return records + (tail(chance, seed) if kind == "fragment" else b"")


def main(arguments):
    if len(arguments) != 3 or arguments[0] not in KINDS:
        sys.exit(usage())
    try:
        seed, count = int(arguments[1]), int(arguments[2])
    except ValueError:
        sys.exit("traces.py: SEED and COUNT are whole numbers")
    if seed < 0 or count < 0:
        sys.exit("traces.py: SEED and COUNT are not negative")
    sys.stdout.buffer.write(trace(kind=arguments[0], seed=seed, count=count))


if __name__ == "__main__":
    main(sys.argv[1:])
