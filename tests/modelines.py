#!/usr/bin/env python3
"""Compares a modeline program with reference/modeline.py, to the byte.

    modelines.py [--fresh SEED] MODELINE_COMMAND

MODELINE_COMMAND reads lines on standard input and takes the words --wide, or --of, a name and a
clock, and then a trace on standard input. The lines are those of tests/cases, generated ones, and
good ones with a byte taken away, put in or changed at each place, cut at each place, and run over
the longest good line. Some have a fresh seed, which is printed and can be given again. Each line
goes through both narrow and wide. Files that have a mode are written as lines, which must be the
reference's and read back as the same; and files that have none, for each reason by itself. The
same lines and files must tell each of the wrong copies of the reference below from the right one.
"""
import argparse
import functools
import pathlib
import random
import subprocess
import sys

sys.dont_write_bytecode = True
import traces
from decode import MMIO

TESTS = pathlib.Path(__file__).resolve().parent
REFERENCE = TESTS.parent / "reference" / "modeline.py"
HEAD, CLOCK = b'Modeline "a" ', b"25.175 "
NUMBERS = b"640 656 752 800 480 490 492 525"
BASES = (
    b'Modeline "640x480" 25.175 640 656 752 800 480 490 492 525 -hsync +vsync',
    b'Modeline "~ 32 bytes from 20h to 7Eh !#$%&" 0.5 8 16 24 40 1 0 1 2 +vsync',
    b'Modeline "x" 999 4088 4088 4096 4128 2047 2047 2048 2049',
)
BYTES = b'0189. "+-hvsync\tM\x7f\xff'

# ---- Wrong copies ----

# Each is a name, a text that stands once in the reference, and what replaces it.
READ_MISTAKES = [
    ("the position one too far", "    return low\n", "    return min(low + 1, len(line))\n"),
    ("the position one too near", "    return low\n", "    return max(low - 1, 0)\n"),
    ("1000 MHz taken", "    if not 1 <= khz <= 999_999 or len(", "    if not 1 <= khz <= 1_000_000 or len("),
    ("999.999 MHz refused", "    if not 1 <= khz <= 999_999 or len(", "    if not 1 <= khz < 999_999 or len("),
    ("a clock of 0 taken", "    if not 1 <= khz <= 999_999 or len(", "    if not 0 <= khz <= 999_999 or len("),
    ("a needless zero before the point", 'CLOCK = rb"(0|[1-9][0-9]{0,8})', 'CLOCK = rb"([0-9]{1,8})'),
    ("four decimals", r"(?:\.([0-9]{1,3}))?", r"(?:\.([0-9]{1,4}))?"),
    ("a point with no decimals", r"(?:\.([0-9]{1,3}))?", r"(?:\.([0-9]{0,3}))?"),
    ("decimals counted from the right", 'ljust(3, b"0")', 'rjust(3, b"0")'),
    ("a name of 33 bytes", 'Modeline "([ !#-~]{1,32})"', 'Modeline "([ !#-~]{1,33})"'),
    ("a name of 31 bytes at most", 'Modeline "([ !#-~]{1,32})"', 'Modeline "([ !#-~]{1,31})"'),
    ("an empty name", 'Modeline "([ !#-~]{1,32})"', 'Modeline "([ !#-~]{0,32})"'),
    ("a quote in the name", 'Modeline "([ !#-~]{1,32})"', 'Modeline "([ -~]{1,32})"'),
    ("7Fh in the name", 'Modeline "([ !#-~]{1,32})"', 'Modeline "([ !#-\\x7f]{1,32})"'),
    ("a zero that leads", "(?:0|[1-9][0-9]{0,4})", "(?:[0-9]{1,5})"),
    ("six digits", "(?:0|[1-9][0-9]{0,4})", "(?:0|[1-9][0-9]{0,5})"),
    ("four digits at most", "(?:0|[1-9][0-9]{0,4})", "(?:0|[1-9][0-9]{0,3})"),
    ("no 0 as a number", "(?:0|[1-9][0-9]{0,4})", "(?:[1-9][0-9]{0,4})"),
    ("two spaces", "((?: (?:0|", "((?: +(?:0|"),
    ("a flag twice", " or len({f[1:2] for f in flags}) != len(flags):", ":"),
    ("one flag at most", "sync){0,2})", "sync){0,1})"),
    ("a trailing space", "sync){0,2})\")", "sync){0,2}) ?\")"),
    ("letters of either case", "{0,2})\")", "{0,2})\", re.I)"),
    ("plus read as minus", 'f[:1] == b"-"', 'f[:1] == b"+"'),
    ("an absent +hsync means plus", 'minus.get(b"h", True)', 'minus.get(b"h", False)'),
    ("an absent +vsync means plus", 'minus.get(b"v", True)', 'minus.get(b"v", False)'),
    ("the flags exchanged in MISC", "0x40 * h_minus + 0x80 * v_minus", "0x80 * h_minus + 0x40 * v_minus"),
    ("MISC with small letters", '"%02X"', '"%02x"'),
    ("MISC in one digit", '"%02X"', '"%X"'),
    ("19 before 18", "    if said is None:\n",
     "    if said is None:\n"
     "        m = re.match(rb'Modeline \"[^\"]+\" [0-9.]+ ([0-9]+) ', line)\n"
     "        if m and int(m[1]) % 8:\n            return [19, 0]\n"),
    ("10 before 19", "    if any(n % 8 for n in numbers[:4]):\n",
     "    if not in_range(fifteen(numbers), wide):\n        return [10, 0]\n"
     "    if any(n % 8 for n in numbers[:4]):\n"),
    ("the total's eighths not asked", "numbers[:4]", "numbers[:3]"),
    ("vertical numbers in eights too", "numbers[:4]", "numbers[:5]"),
    ("a position with 19", "return [19, 0]", "return [19, len(line)]"),
    ("blanking that ends before the total", "return [ht, hd, hd, ht, hs,", "return [ht, hd, hd, ht - 1, hs,"),
    ("blanking that starts at sync", "return [ht, hd, hd, ht, hs,", "return [ht, hd, hs, ht, hs,"),
    ("lines' blanking that starts at sync", "vt, vd, vd, vt, vs,", "vt, vd, vs, vt, vs,"),
    ("line compare 0", "1023, hd, 0]", "0, hd, 0]"),
    ("offset 0", "1023, hd, 0]", "1023, 0, 0]"),
    ("offset in pixels", "1023, hd, 0]", "1023, 8 * hd, 0]"),
    ("a screen start", "1023, hd, 0]", "1023, hd, 1]"),
    ("pixels for clocks", "(x // 8 for x in (hd, hs, he, ht))", "(x for x in (hd, hs, he, ht))"),
    ("lines wrapped at 65,536", "hd, hs, he, ht, vd, vs, ve, vt = n\n",
     "hd, hs, he, ht, vd, vs, ve, vt = (x % 65536 for x in n)\n"),
    ("narrow held to wide's 256 clocks", "(256 if wide else 64)", "256"),
    ("wide held to narrow's 64 clocks", "(256 if wide else 64)", "64"),
    ("65 clocks of blanking", "(256 if wide else 64)", "(257 if wide else 65)"),
    ("257 lines of blanking", "(1024 if wide else 256)", "(1025 if wide else 257)"),
    ("equal display and total", "1 <= hbe - hbs", "0 <= hbe - hbs"),
    ("equal lines of display and total", "1 <= vbe - vbs", "0 <= vbe - vbs"),
    ("33 clocks of sync", "1 <= he - hs <= 32", "1 <= he - hs <= 33"),
    ("sync that ends where it starts", "1 <= he - hs <= 32", "0 <= he - hs <= 32"),
    ("17 lines of sync", "1 <= ve - vs <= 16", "1 <= ve - vs <= 17"),
    ("a total of 4 clocks", "5 <= ht <= 516", "4 <= ht <= 516"),
    ("a total of 517 clocks", "5 <= ht <= 516", "5 <= ht <= 517"),
    ("sync at 512 clocks", "and hs <= 511", "and hs <= 512"),
    ("2,050 lines", "2 <= vt <= 2049", "2 <= vt <= 2050"),
    ("no lines of display", "1 <= vd <= 2048", "0 <= vd <= 2048"),
    ("2,048 lines of display", "and vbs <= 2047", "and vbs <= 2048"),
]

WRITE_MISTAKES = [
    ("two decimals written", b"%d.%03d", b"%d.%02d"),
    ("the vertical flag first", b"%chsync %cvsync", b"%cvsync %chsync"),
    ("a plus for MISC[6]", 'b"-"[0] if misc & 0x40 else b"+"[0]', 'b"+"[0] if misc & 0x40 else b"-"[0]'),
    ("the flags exchanged out of MISC", "misc & 0x40", "misc & 0xC0"),
    ("clocks for pixels", "numbers = [8 * hd, 8 * hs, 8 * he, 8 * ht,", "numbers = [hd, hs, he, ht,"),
    ("sync's end before its start", "8 * hs, 8 * he,", "8 * he, 8 * hs,"),
    ("21 before 22", "        return 22\n    ht, hd, hbs, hbe, hs, he, vt, vd, vbs, vbe, vs, ve, lc, off, start = t\n",
     "        return 22 if t[13] == t[1] else 21\n    ht, hd, hbs, hbe, hs, he, vt, vd, vbs, vbe, vs, ve, lc, off, start = t\n"),
    ("a name of 33 bytes written", 're.fullmatch(rb"[ !#-~]{1,32}", name)', 're.fullmatch(rb"[ !#-~]{1,33}", name)'),
    ("an empty name written", 're.fullmatch(rb"[ !#-~]{1,32}", name)', 're.fullmatch(rb"[ !#-~]{0,32}", name)'),
    ("a quote in a name written", 're.fullmatch(rb"[ !#-~]{1,32}", name)', 're.fullmatch(rb"[ -~]{1,32}", name)'),
    ("a clock of 0 written", "name) or not 1 <= khz", "name) or not 0 <= khz"),
    ("1000 MHz written", "<= 999_999:\n        return 22", "<= 1_000_000:\n        return 22"),
    ("a needless zero before the point taken", 'CLOCK = rb"(0|[1-9][0-9]{0,8})', 'CLOCK = rb"([0-9]{1,8})'),
    ("any form of clock taken", "    m = re.fullmatch(CLOCK, mhz)\n", "    m = re.match(CLOCK, mhz)\n"),
] + [(f"{what} not asked", "(hbs, hbe, vbs, vbe, lc, off, start) != (hd, ht, vd, vt, 1023, hd, 0)",
      "({}) != ({})".format(*(", ".join(x for n, x in enumerate(side) if n != number) for side in
                             (("hbs", "hbe", "vbs", "vbe", "lc", "off", "start"), ("hd", "ht", "vd", "vt", "1023", "hd", "0")))))
     for number, what in enumerate(("H blank start", "H blank end", "V blank start", "V blank end",
                                    "line compare", "offset", "screen start"))]


class Reference:
    """The reference's functions, or those of a wrong copy."""

    def __init__(self, mistake=None):
        text = REFERENCE.read_bytes()
        if mistake:
            name, right, wrong = (part if isinstance(part, bytes) else part.encode() for part in mistake)
            if text.count(right) != 1:
                sys.exit(f"modelines: a wrong copy is out of date: {mistake[0]}")
            text = text.replace(right, wrong)
        self.parts = {"__name__": "modeline"}
        exec(compile(text, "modeline.py", "exec"), self.parts)
        self.parts["possible"] = functools.lru_cache(None)(self.parts["possible"])

    def read(self, line, wide):
        return " ".join(map(str, self.parts["read"](line, wide)))

    def write(self, name, mhz, misc, timing):
        return self.parts["write"](name, self.parts["clock"](mhz), misc, timing)


# ---- Lines ----

def kept_lines():
    """Those of the cases, which have the standard modes."""
    for path in sorted(TESTS.glob("cases/modeline/*/lines")):
        yield from path.read_bytes().split(b"\n")


def damaged(line):
    for at in range(len(line) + 1):
        yield line[:at]
        yield line[:at] + line[at + 1:]
        yield line[:at] + BYTES[at % len(BYTES):][:1] + line[at:]
        for number in range(3):
            byte = BYTES[(5 * at + 3 * number) % len(BYTES)]
            yield line[:at] + bytes([byte]) + line[at + 1:]
    for size in (113, 114, 255, 256, 257, 258, 600):
        yield line.ljust(size)
        yield line.ljust(size, b"x")


def drawn_number(chance, edges):
    return chance.pick(edges) if chance.one_in(3) else chance.below(chance.pick((10, 100, 1000, 2100, 100_000)))


def drawn_line(chance):
    """A line that is good but for its numbers, which may be out of range or no multiples of 8."""
    name = bytes(chance.pick(b" !#~azAZ09x") for _ in range(1 + chance.below(32)))
    clock = b"%d" % (chance.below(999) + 1)
    if not chance.one_in(3):
        clock = b"%d.%s" % (chance.below(1000), (b"%03d" % (1 + chance.below(999)))[:1 + chance.below(3)])
    hd, vd = 8 * (1 + chance.below(520)), 1 + chance.below(2060)
    hs, vs = hd + 8 * (chance.below(40) - 2), max(0, vd + chance.below(40) - 2)
    numbers = [hd, hs, hs + 8 * chance.below(35), hd + 8 * chance.pick((0, 1, 20, 63, 64, 65, 255, 256, 257)),
               vd, vs, vs + chance.below(19), vd + chance.pick((0, 1, 45, 255, 256, 257, 1023, 1024, 1025))]
    if chance.one_in(8):
        at = chance.below(8)
        numbers[at] = drawn_number(chance, (0, 1, 7, 8, 4095, 4096, 65535, 65536, 66016, 99_992, 99_999))
    flags = b"".join(chance.pick((b"", b" +", b" -")) + axis for axis in chance.pick(((b"hsync", b"vsync"), (b"vsync", b"hsync"))))
    flags = flags if flags.count(b" ") == 2 else chance.pick((b"", b" +hsync", b" -vsync"))
    return b'Modeline "%b" %b %b%b' % (name, clock, b" ".join(b"%d" % max(0, n) for n in numbers), flags)


def drawn_lines(seed, count):
    chance = traces.Chance(seed)
    for _ in range(count):
        line = drawn_line(chance)
        if chance.one_in(4):
            at = chance.below(len(line))
            line = line[:at] + bytes([chance.below(256)]) + line[at + chance.below(2):]
        yield line.replace(b"\n", b"")


def fixed_lines():
    yield from kept_lines()
    for base in BASES:
        yield from damaged(base)
    yield from drawn_lines(1, 500)


# ---- Files ----

def records(timing, misc, wide):
    """A trace that leaves a file with these numbers, by 01's table of pieces."""
    ht, hd, hbs, hbe, hs, he, vt, vd, vbs, vbe, vs, ve, lc, off, start = timing
    ht, hd, vt, vd = ht - 5, hd - 1, vt - 2, vd - 1
    cr = {0x00: ht, 0x01: hd, 0x02: hbs, 0x03: hbe & 0x1F, 0x04: hs, 0x05: (hbe >> 5 & 1) << 7 | he & 0x1F, 0x06: vt,
          0x07: (vt >> 8 & 1 | (vd >> 8 & 1) << 1 | (vs >> 8 & 1) << 2 | (vbs >> 8 & 1) << 3 | (lc >> 8 & 1) << 4
                 | (vt >> 9 & 1) << 5 | (vd >> 9 & 1) << 6 | (vs >> 9 & 1) << 7),
          0x09: (vbs >> 9 & 1) << 5 | (lc >> 9 & 1) << 6, 0x0C: start >> 8, 0x0D: start, 0x10: vs, 0x11: ve & 0x0F,
          0x12: vd, 0x13: off, 0x15: vbs, 0x16: vbe, 0x18: lc, 0x1A: (hbe >> 6 & 3) << 4 | (vbe >> 8 & 3) << 6,
          0x1B: (off >> 8 & 1) << 4 | (start >> 17 & 3) << 2 | start >> 16 & 1 | 0x20 * wide, 0x1D: (start >> 19 & 3) << 3,
          0x1E: (ht >> 8 & 1) << 7 | (hd >> 8 & 1) << 6 | (hbs >> 8 & 1) << 5 | (hs >> 8 & 1) << 4
                | (vt >> 10 & 1) << 3 | (vd >> 10 & 1) << 2 | (vbs >> 10 & 1) << 1 | vs >> 10 & 1}
    return traces.OPEN + b"".join(traces.write(MMIO, 4 * n, value & 0xFF) for n, value in cr.items()) + traces.write(MMIO, 0x80, misc)


MODE = [100, 80, 80, 100, 82, 94, 525, 480, 480, 525, 490, 492, 1023, 80, 0]
MODE12 = [100, 80, 80, 98, 84, 96, 525, 480, 487, 516, 490, 492, 1023, 40, 0]


def files(reference):
    """(name, clock, MISC, timing, wide), those that are written first."""
    for misc in (0x00, 0x40, 0x80, 0xEF):
        yield b"m%02X" % misc, b"25.175", misc, MODE, False
    for line, wide in [(line, wide) for line in kept_lines() for wide in (False, True)][::5]:
        said = reference.read(line, wide).split()
        if said[0] == "0":
            name = line.split(b'"')[1]
            yield name, line.split(b'" ')[1].split()[0], int(said[3], 16), [int(n) for n in said[4:]], wide
    for clock in (b"1", b"0.5", b"0.001", b"999.999", b"12.34"):
        yield b" ~", clock, 0xC0, MODE, False
    for clock in (b"0", b"1000", b"0.000", b"025", b"25.", b".5", b"25 ", b"25 8", b"", b"1e1", b"25.1750", b"+25", b"9" * 100):
        yield b"clock", clock, 0xC0, MODE, False
    for name in (b"x" * 32, b"x" * 33, b"", b'a"', b'a" 25 8', b"\x7f", b"\xc3\xa4", b"y" * 300):
        yield name, b"25.175", 0xC0, MODE, False
    for at, value in ((2, 81), (3, 101), (8, 481), (9, 526), (12, 1022), (13, 40), (14, 1)):
        yield b"other", b"25.175", 0xC0, [*MODE[:at], value, *MODE[at + 1:]], False
    yield b"mode 12h", b"25.175", 0xC0, MODE12, False
    yield b"", b"25.175", 0xC0, MODE12, False


# ---- The comparison ----

def fail(*lines):
    print("DIFFERENT:", *lines, sep="\n  ")
    sys.exit(1)


class Comparison:
    def __init__(self, command):
        self.command = command
        self.reference = Reference()
        self.count = 0

    def run(self, data, *words):
        done = subprocess.run([*self.command, *words], input=data, stdout=subprocess.PIPE, stderr=subprocess.PIPE, timeout=600)
        return done.stdout, done.stderr, done.returncode

    def lines(self, lines, what, end=b"\n"):
        """Each line through both, narrow and wide."""
        data = b"\n".join(lines) + end
        for wide in (False, True):
            right = [f"{number} {self.reference.read(line, wide)}".encode() for number, line in enumerate(lines)]
            output, said, status = self.run(data, *["--wide"] * wide)
            if output != b"\n".join([*right, b""]) or said or status:
                other = output.split(b"\n")
                at = next((n for n, line in enumerate(right) if other[n:n + 1] != [line]), len(right))
                fail(f"{what}, {'wide' if wide else 'narrow'}, line {at}: {lines[at:at + 1]}", f"reference: {right[at:at + 1]}",
                     f"other: {other[at:at + 2]}", f"it said {said!r}, exit status {status}")
        self.count += len(lines)

    def pieces(self, lines, seed):
        """The same as through a slow pipe."""
        chance = traces.Chance(seed)
        data = b"\n".join(lines)
        whole, _, _ = self.run(data)
        with subprocess.Popen(self.command, stdin=subprocess.PIPE, stdout=subprocess.PIPE, bufsize=0) as program:
            at = 0
            while at < len(data):
                size = 1 + chance.below(200)
                program.stdin.write(data[at:at + size])
                at += size
            program.stdin.close()
            other = program.stdout.read()
        if other != whole:
            fail("lines in pieces")

    def file(self, name, mhz, misc, timing, wide):
        """A file as a line; the line, if there is one."""
        right = self.reference.write(name, mhz, misc, timing)
        output, said, status = self.run(records(timing, misc, wide), "--of", name, mhz)
        if isinstance(right, int):
            alike = not output and said.startswith(b"modeline: no line, code %d" % right)
        else:
            alike = output == right + b"\n" and not said
        if not alike or status:
            fail(f"--of {name!r} {mhz!r}, MISC {misc:02X}, {timing}, wide {wide}", f"reference: {right!r}",
                 f"other: {output!r}, it said {said!r}, exit status {status}")
        return None if isinstance(right, int) else right


def told_apart(mistake, lines, files, right):
    """Whether a wrong copy answers one of the lines, or one of the files, otherwise."""
    wrong = Reference(mistake)
    if mistake in READ_MISTAKES:
        return any(wrong.read(line, wide) != right.read(line, wide) for line in lines for wide in (False, True))
    return any(wrong.write(*file[:4]) != right.write(*file[:4]) for file in files)


def main():
    parser = argparse.ArgumentParser(description=__doc__, formatter_class=argparse.RawDescriptionHelpFormatter)
    parser.add_argument("--fresh", type=int, metavar="SEED", default=random.SystemRandom().randrange(10 ** 6, 10 ** 9))
    parser.add_argument("command", nargs=argparse.REMAINDER, metavar="MODELINE_COMMAND")
    options = parser.parse_args()
    if not options.command:
        parser.error("no MODELINE_COMMAND")
    print(f"fresh seed of the lines: {options.fresh}")
    comparison = Comparison(options.command)
    fixed = list(fixed_lines())
    comparison.lines(fixed, "fixed")
    comparison.lines(list(drawn_lines(options.fresh, 500)), f"seed {options.fresh}")
    comparison.lines([BASES[0]] * 20_000, "many lines", end=b"")
    comparison.pieces(fixed[:300], options.fresh)
    kept = list(files(comparison.reference))
    written = [(file, comparison.file(*file)) for file in kept]
    again = [(file, line) for file, line in written if line]
    for wide in (False, True):
        comparison.lines([line for file, line in again if file[4] == wide], "written again")
    mistakes = READ_MISTAKES + WRITE_MISTAKES
    missed = [mistake[0] for mistake in mistakes if not told_apart(mistake, fixed, kept, comparison.reference)]
    for name in missed:
        print(f"NOT CAUGHT: {name}")
    print(f"{comparison.count} lines alike, narrow and wide; {len(again)} of {len(kept)} files written; "
          f"wrong copies caught: {len(mistakes) - len(missed)} of {len(mistakes)}")
    return 1 if missed else 0


if __name__ == "__main__":
    sys.exit(main())
