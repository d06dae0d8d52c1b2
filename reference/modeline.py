#!/usr/bin/env python3
"""Modelines by document 02, 4/13, written from it alone.

    modeline.py [--wide] < LINES
    modeline.py --of NAME MHZ MISC CR1B N1 .. N15

The first reads each line into a file at power-on (--wide: with CR1B[5]=1) and prints its number,
the code, the position (0 with every code but 18), and where the code is 0 the kHz, MISC and the
fifteen timing numbers. The second writes the line of a sound file with these, or the code.

Where a bad line goes wrong is found without a parser: a beginning is possible if some known
ending makes a good line of it.
"""
import re
import sys

CLOCK = rb"(0|[1-9][0-9]{0,8})(?:\.([0-9]{1,3}))?"
FULL = re.compile(
    rb'Modeline "([ !#-~]{1,32})" ' + CLOCK + rb"((?: (?:0|[1-9][0-9]{0,4})){8})((?: [+-][hv]sync){0,2})")
FLAGS = [b""] + [b" " + s + a + b"sync" for s in (b"+", b"-") for a in (b"h", b"v")]
FLAGS += [f + b" " + s + (b"v" if f[2:3] == b"h" else b"h") + b"sync" for f in FLAGS[1:] for s in (b"+", b"-")]
SAMPLES = [b'Modeline "a" 0.001 1 1 1 1 1 1 1 1' + f for f in FLAGS]
ENDINGS = sorted({s[i:] for s in SAMPLES for i in range(len(s) + 1)}, key=len)


def kilohertz(whole, decimals):
    return int(whole) * 1000 + int((decimals or b"").ljust(3, b"0"))


def clock(mhz):
    """The kHz of a clock in MHz; 0 where it isn't of the form."""
    m = re.fullmatch(CLOCK, mhz)
    return kilohertz(*m.groups()) if m else 0


def good(line):
    """(name, kHz, eight numbers, H minus, V minus) of a good line, else nothing."""
    m = FULL.fullmatch(line)
    if not m:
        return None
    khz = kilohertz(m[2], m[3])
    flags = m[5].split()
    if not 1 <= khz <= 999_999 or len({f[1:2] for f in flags}) != len(flags):
        return None
    minus = {f[1:2]: f[:1] == b"-" for f in flags}
    return m[1], khz, [int(n) for n in m[4].split()], minus.get(b"h", True), minus.get(b"v", True)


def possible(start):
    return any(good(start + end) for end in ENDINGS)


def bad_place(line):
    """The length of the longest beginning that is possible."""
    low, high = 0, len(line)
    while low < high:
        middle = (low + high + 1) // 2
        low, high = (middle, high) if possible(line[:middle]) else (low, middle - 1)
    return low


def fifteen(n):
    hd, hs, he, ht, vd, vs, ve, vt = n
    hd, hs, he, ht = (x // 8 for x in (hd, hs, he, ht))
    return [ht, hd, hd, ht, hs, he, vt, vd, vd, vt, vs, ve, 1023, hd, 0]


def in_range(t, wide):
    ht, hd, hbs, hbe, hs, he, vt, vd, vbs, vbe, vs, ve, lc, off, start = t
    return (5 <= ht <= 516 and 1 <= hd <= 512 and hbs <= 511 and 1 <= hbe - hbs <= (256 if wide else 64)
            and hs <= 511 and 1 <= he - hs <= 32 and 2 <= vt <= 2049 and 1 <= vd <= 2048 and vbs <= 2047
            and 1 <= vbe - vbs <= (1024 if wide else 256) and vs <= 2047 and 1 <= ve - vs <= 16
            and lc <= 1023 and off <= 511 and start <= 2097151)


def read(line, wide):
    """code, position, and where the code is 0 kHz, MISC and the fifteen numbers."""
    said = good(line)
    if said is None:
        return [18, bad_place(line)]
    name, khz, numbers, h_minus, v_minus = said
    if any(n % 8 for n in numbers[:4]):
        return [19, 0]
    timing = fifteen(numbers)
    if not in_range(timing, wide):
        return [10, 0]
    return [0, 0, khz, "%02X" % (0x40 * h_minus + 0x80 * v_minus)] + timing


def write(name, khz, misc, t):
    """The line of a file with these, or the code."""
    if not re.fullmatch(rb"[ !#-~]{1,32}", name) or not 1 <= khz <= 999_999:
        return 22
    ht, hd, hbs, hbe, hs, he, vt, vd, vbs, vbe, vs, ve, lc, off, start = t
    if (hbs, hbe, vbs, vbe, lc, off, start) != (hd, ht, vd, vt, 1023, hd, 0):
        return 21
    numbers = [8 * hd, 8 * hs, 8 * he, 8 * ht, vd, vs, ve, vt]
    return b'Modeline "%b" %d.%03d %b %chsync %cvsync' % (
        name, khz // 1000, khz % 1000, b" ".join(b"%d" % n for n in numbers),
        b"-"[0] if misc & 0x40 else b"+"[0], b"-"[0] if misc & 0x80 else b"+"[0])


def main():
    if sys.argv[1:2] == ["--of"]:
        name, mhz = (a.encode() for a in sys.argv[2:4])
        misc, _, *timing = (int(a, 0) for a in sys.argv[4:])
        line = write(name, clock(mhz), misc, timing)
        sys.stdout.buffer.write((b"%d" % line if isinstance(line, int) else line) + b"\n")
        return
    lines = sys.stdin.buffer.read().split(b"\n")
    if not lines[-1]:
        lines.pop()
    for number, line in enumerate(lines):
        print(number, *read(line, "--wide" in sys.argv))


if __name__ == "__main__":
    main()
