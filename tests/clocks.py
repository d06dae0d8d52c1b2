#!/usr/bin/env python3
"""Compares the clock report with one made from Python's fractions, to the byte, as 02, 12/13 says.

    clocks.py [--seed SEED] [--files FILES_COMMAND] CLOCKS_COMMAND

CLOCKS_COMMAND reads register sets on standard input and writes the report on standard output; it
may have arguments, in one word or in several. The inputs are every set of two bytes that is not
refused, every numerator byte and third byte, fragments, inputs of one kind of set, of as many
sets as a buffer holds and one more or less, and random ones, from a fixed seed and from a fresh
one, which is printed and can be given again. The same inputs must tell each wrong copy of the
report made here from the right one. The four clocks that source document 000, 4-31 lists must
come out at their rates.

FILES_COMMAND, one word with its arguments, reads nine bytes for each file, MISC, SR0B to SR0E and
SR1B to SR1E, and writes the code, the rate's bits or none, and p/q. The files are every denominator
byte with every numerator, selected by turns and by any other bits of MISC, random ones, and some
with a bit that no register stores; the rate is Python's own quotient of whole numbers, which is
rounded once. Wrong copies are told here too.
"""
import argparse
import inspect
import itertools
import math
import random
import shlex
import struct
import subprocess
import sys
import time
from fractions import Fraction

BUFFER = 2048  # sets
TIMEOUT = 600
REFUSED = "refused"


# ---- The report ----

def read_set(part):
    """The rate that three bytes say, None where there is none, or that they are refused."""
    if len(part) < 3 or part[1] & 0x80 or part[2] != 0:
        return REFUSED
    denominator, halved, numerator = part[0] >> 1, part[0] & 1, part[1] & 0x7F
    if denominator == 0:
        return None
    return Fraction(14_318_180 * numerator, denominator * (1 + halved))


def shown(rate):
    return "none" if rate is None else f"{rate.numerator}/{rate.denominator}"


def report(data):
    lines, rates, nones, refused = [], [], 0, 0
    for start in range(0, len(data), 3):
        rate = read_set(data[start:start + 3])
        if rate is REFUSED:
            refused += 1
            lines.append("2")
            continue
        if rate is None:
            nones += 1
        else:
            rates.append(rate)
        lines.append(shown(rate))
    lines.append(f"counts {len(rates)} {nones} {refused}")
    lines.append(f"largest {shown(max(rates, default=None))}")
    lines.append(f"smallest {shown(min(rates, default=None))}")
    return "".join(line + "\n" for line in lines).encode()


def file_line(data):
    """What the dot clock of a file says, of its MISC, SR0B to SR0E and SR1B to SR1E."""
    if data[0] & 0x10 or any(byte & 0x80 for byte in data[5:]):
        return "12 none 0/0"
    chosen = data[0] >> 2 & 3
    below, above = data[1 + chosen], data[5 + chosen]
    denominator, numerator = below >> 1, above & 0x7F
    if denominator == 0:
        return "0 none 0/0"
    divisor = denominator * (1 + (below & 1))
    terms = Fraction(14_318_180 * numerator, divisor)
    bits = struct.pack(">d", 14_318_180 * numerator / divisor).hex()
    return f"0 {bits} {terms.numerator}/{terms.denominator}"


# ---- Wrong copies: (what is wrong, the right text, the wrong one) ----

MISTAKES = (
    ("numerator and denominator the other way", "part[0] >> 1, part[0] & 1, part[1] & 0x7F",
     "part[1] >> 1, part[1] & 1, part[0] & 0x7F"),
    ("halved without the bit", "(1 + halved)", "2"),
    ("never halved", "(1 + halved)", "1"),
    ("the post-scalar bit taken for the denominator's", "part[0] >> 1, part[0] & 1", "part[0], 0"),
    ("a denominator of six bits", "part[0] >> 1, part[0]", "(part[0] >> 1) & 0x3F, part[0]"),
    ("a numerator of six bits", "part[1] & 0x7F", "part[1] & 0x3F"),
    ("another reference clock", "14_318_180", "14_318_181"),
    ("bit 7 of the numerator byte let pass", "part[1] & 0x80 or ", ""),
    ("bit 7 of the denominator byte refused", "part[1] & 0x80", "(part[0] | part[1]) & 0x80"),
    ("the third byte let pass", " or part[2] != 0", ""),
    ("bit 7 of the third byte let pass", "part[2] != 0", "part[2] & 0x7F"),
    ("a fragment let fall", "range(0, len(data), 3)", "range(0, len(data) - 2, 3)"),
    ("a fragment filled up with zeros", "data[start:start + 3]", "data[start:start + 3] + bytes(2)"),
    ("no rate where the numerator is 0", "denominator == 0", "denominator == 0 or numerator == 0"),
    ("none before refused", "if len(part) < 3 or",
     "if len(part) == 3 and part[0] < 2:\n        return None\n    if len(part) < 3 or"),
    ("refused sets stop the report", "            continue\n", "            break\n"),
    ("refused sets not counted", "refused += 1", "refused += 0"),
    ("refused sets counted as nones", "            refused += 1", "            nones += 1"),
    ("the counts in another order", "{nones} {refused}", "{refused} {nones}"),
    ("nones not counted", "nones += 1\n        else", "nones += 0\n        else"),
    ("p/q not lowest", '"none" if rate is None else f"{rate.numerator}/{rate.denominator}"',
     '"none" if rate is None else f"{2 * rate.numerator}/{2 * rate.denominator}"'),
    ("the largest by p alone", "max(rates, default=None)",
     "max(rates, key=lambda r: r.numerator, default=None)"),
    ("the largest by q alone", "max(rates, default=None)",
     "max(rates, key=lambda r: -r.denominator, default=None)"),
    ("the smallest by p alone", "min(rates, default=None)",
     "min(rates, key=lambda r: r.numerator, default=None)"),
    ("the first rate for the largest", "max(rates, default=None)", "rates[0] if rates else None"),
    ("the last rate for the smallest", "min(rates, default=None)", "rates[-1] if rates else None"),
    ("a rate of 0 passed over in the smallest", "min(rates, default=None)",
     "min((r for r in rates if r), default=None)"),
    ("largest and smallest the other way", "max(rates", "min(rates"),
    ("a whole number without its denominator",
     'f"{rate.numerator}/{rate.denominator}"', "str(rate)"),
)


FILE_MISTAKES = (
    ("the base rate divided first, and then multiplied", "14_318_180 * numerator / divisor",
     "14_318_180 / divisor * numerator"),
    ("the rate of an f32", "14_318_180 * numerator / divisor",
     'struct.unpack("f", struct.pack("f", 14_318_180 * numerator / divisor))[0]'),
    ("a whole number of Hz", "14_318_180 * numerator / divisor", "float(14_318_180 * numerator // divisor)"),
    ("rounded down, and not to the nearest", "14_318_180 * numerator / divisor",
     "14_318_180 * numerator / divisor if Fraction(14_318_180 * numerator / divisor) <= terms\n"
     "                       else math.nextafter(14_318_180 * numerator / divisor, 0)"),
    ("never halved", "(1 + (below & 1))", "1"),
    ("halved without the bit", "(1 + (below & 1))", "2"),
    ("numerator and denominator the other way", "below, above = data[1 + chosen], data[5 + chosen]",
     "below, above = data[5 + chosen], data[1 + chosen]"),
    ("selected by MISC[1:0]", "data[0] >> 2 & 3", "data[0] & 3"),
    ("selected by MISC[6:5]", "data[0] >> 2 & 3", "data[0] >> 5 & 3"),
    ("selected by MISC[2] alone", "data[0] >> 2 & 3", "data[0] >> 2 & 1"),
    ("selected by MISC[3] alone", "data[0] >> 2 & 3", "data[0] >> 3 & 1"),
    ("the clocks in the other order", "data[0] >> 2 & 3", "3 - (data[0] >> 2 & 3)"),
    ("the numerator of clock 0 always", "data[5 + chosen]", "data[5]"),
    ("an unsound file told by its clock alone", "any(byte & 0x80 for byte in data[5:])",
     "data[5 + (data[0] >> 2 & 3)] & 0x80"),
    ("an unsound MISC let pass", "data[0] & 0x10 or ", ""),
    ("unsound numerators let pass", " or any(byte & 0x80 for byte in data[5:])", ""),
    ("an unsound file refused with another code", "12 none", "2 none"),
    ("no rate where the numerator is 0", "denominator == 0", "denominator == 0 or numerator == 0"),
    ("0/1 where there is no rate", '"0 none 0/0"', '"0 none 0/1"'),
    ("p/q not lowest", "{terms.numerator}/{terms.denominator}", "{14_318_180 * numerator}/{divisor}"),
)


def wrong_copy(right, wrong, parts=(read_set, shown, report)):
    """The last of the parts, made from the source above with one text put for another."""
    source = "\n\n".join(inspect.getsource(part) for part in parts)
    if source.count(right) != 1:
        sys.exit(f"clocks: the list of wrong copies is out of date: {right!r}")
    names = {"Fraction": Fraction, "REFUSED": REFUSED, "math": math, "struct": struct}
    exec(source.replace(right, wrong), names)  # pylint: disable=exec-used
    return names[parts[-1].__name__]


# ---- Inputs ----

def pack(sets):
    return b"".join(bytes(part) for part in sets)


def likely(chance):
    """A set of any kind, the good ones more often, of few denominators so that rates are equal too."""
    kind = chance.randrange(12)
    first, second = chance.randrange(256), chance.randrange(128)
    if kind == 0:
        return first, second | 0x80, 0
    if kind == 1:
        return first, second, 1 + chance.randrange(255)
    if kind == 2:
        return chance.randrange(2), second, 0
    if kind == 3:
        return first, 0, 0
    if kind == 4:
        return chance.choice((2, 3, 4, 5, 254, 255)), chance.choice((1, 2, 126, 127)), 0
    return first, second, 0


def inputs(seed):
    """(what it is, its bytes), the short ones first."""
    chance = random.Random(seed)
    yield "nothing", b""
    yield "the clocks of 4-31", pack(((0x3B, 0x66, 0), (0x2F, 0x5B, 0), (0x30, 0x45, 0), (0x33, 0x7E, 0)))
    for part in ((0, 0, 0), (1, 127, 0), (2, 0, 0), (2, 1, 0), (3, 1, 0), (255, 127, 0), (254, 127, 0),
                 (0, 128, 0), (2, 128, 0), (2, 1, 1), (2, 1, 128), (0, 0, 255)):
        yield f"one set, {part}", bytes(part)
        yield f"part of a set, {part[:2]}", bytes(part[:2])
        yield f"part of a set, {part[:1]}", bytes(part[:1])
        yield f"a set and a part, {part}", bytes(part) + bytes(part[:2])
    for count in range(1, 40):
        sets = pack(likely(chance) for _ in range(count))
        yield f"{count} sets and a part", sets + bytes(chance.randrange(256) for _ in range(count % 3))
    for count in (BUFFER - 1, BUFFER, BUFFER + 1, 2 * BUFFER, 3 * BUFFER - 1):
        sets = pack(likely(chance) for _ in range(count))
        for more in range(3):
            yield f"{count} sets and {more} bytes", sets + bytes(more)
    yield "nones alone", pack((d, n, 0) for d in (0, 1) for n in range(128))
    yield "refused alone", pack((d, 128 + n, d) for d in range(256) for n in range(0, 128, 7))
    yield "every set", pack((d, n, 0) for d in range(256) for n in range(128))
    yield "every numerator byte and third byte", pack(
        (chance.randrange(256), n, z) for n in range(256) for z in range(256))
    for size in (1000, 10_000, 100_001):
        yield f"{size} random bytes", chance.randbytes(size)
        yield f"{size} likely sets", pack(likely(chance) for _ in range(size))


def files(seed):
    """Nine bytes each: every pair selected by turns, the others random, and then files of any kind."""
    chance = random.Random(seed)
    for below in range(256):
        for above in range(128):
            turn = (below + above) % 4
            data = bytearray((chance.randrange(256) & 0xE3 | turn << 2, *chance.randbytes(4)))
            data += bytes(byte & 0x7F for byte in chance.randbytes(4))
            data[1 + turn], data[5 + turn] = below, above
            yield bytes(data)
    for _ in range(4000):
        kept = chance.choice((0xEF, 0xEF, 0xFF))
        data = bytearray(chance.randbytes(9))
        data[0] &= kept
        data[5:] = bytes(byte & 0x7F for byte in data[5:])
        if chance.randrange(4) == 0:
            data[chance.randrange(5, 9)] |= 0x80
        yield bytes(data)


# ---- The program ----

def run(command, data):
    try:
        done = subprocess.run(command, input=data, stdout=subprocess.PIPE, stderr=subprocess.PIPE,
                              timeout=TIMEOUT, check=False)
    except OSError as error:
        sys.exit(f"clocks: {shlex.join(command)}: {error}")
    return done.stdout, done.stderr, done.returncode


def run_in_pieces(command, data, chance):
    """The same with the input coming in pieces of 1 to 20 bytes, as a slow pipe gives them."""
    with subprocess.Popen(command, stdin=subprocess.PIPE, stdout=subprocess.PIPE,
                          stderr=subprocess.PIPE, bufsize=0) as program:
        start = 0
        while start < len(data):
            size = chance.randint(1, 20)
            program.stdin.write(data[start:start + size])
            start += size
            time.sleep(0.0005)
        output, said = program.communicate(timeout=TIMEOUT)
    return output, said, program.returncode


def compare(command, name, data, wanted, result):
    """Shows where the program's report is another, and ends."""
    output, said, status = result
    if output == wanted and not said and status == 0:
        return
    print(f"clocks: {name}: {shlex.join(command)} ended with {status}; it said {said!r}")
    pairs = itertools.zip_longest(wanted.split(b"\n"), output.split(b"\n"))
    for number, (right, other) in enumerate(pairs):
        if right != other:
            print(f"line {number}, of the bytes {data[3 * number:3 * number + 3].hex(' ')}: "
                  f"{right!r} wanted, {other!r} written")
            break
    sys.exit(1)


def check_vectors():
    """000, 4-31: 25.180, 28.325, 41.165 and 36.082 MHz."""
    rates = [read_set(bytes(part)) for part in ((0x3B, 0x66, 0), (0x2F, 0x5B, 0), (0x30, 0x45, 0), (0x33, 0x7E, 0))]
    if [f"{float(rate / 1_000_000):.3f}" for rate in rates] != ["25.180", "28.325", "41.165", "36.082"]:
        sys.exit(f"clocks: the clocks of 4-31 come out as {[float(rate) for rate in rates]}")


def compare_files(command, seed):
    """Each file's line by the program, and by Python; which wrong copies have another."""
    every = [*files(1), *files(seed)]
    wanted = [file_line(data) for data in every]
    output, said, status = run(command, b"".join(every))
    found = output.decode("latin-1").splitlines()
    if found != wanted or said or status != 0:
        print(f"clocks: {shlex.join(command)} ended with {status}; it said {said!r}")
        for data, right, other in itertools.zip_longest(every, wanted, found):
            if right != other:
                print(f"the file {data.hex(' ')}: {right!r} wanted, {other!r} written")
                break
        sys.exit(1)
    for name, right, other in FILE_MISTAKES:
        copy = wrong_copy(right, other, (file_line,))
        if all(copy(data) == line for data, line in zip(every, wanted)):
            sys.exit(f"clocks: no file tells this wrong copy from the right one: {name}")
    print(f"{len(every)} files: the same; {len(FILE_MISTAKES)} wrong copies told")


def main():
    parser = argparse.ArgumentParser(description=__doc__, formatter_class=argparse.RawDescriptionHelpFormatter)
    parser.add_argument("--seed", type=int, default=random.SystemRandom().randrange(1 << 32))
    parser.add_argument("--files", metavar="FILES_COMMAND")
    parser.add_argument("command", nargs="+", metavar="CLOCKS_COMMAND")
    args = parser.parse_args()
    command = shlex.split(args.command[0]) + args.command[1:] if len(args.command) == 1 else args.command
    check_vectors()
    print(f"fresh seed {args.seed}")
    if args.files:
        compare_files(shlex.split(args.files), args.seed)
    wrong = {name: wrong_copy(right, other) for name, right, other in MISTAKES}
    sets = inputs_seen = 0
    for seed in (1, args.seed):
        for name, data in inputs(seed):
            wanted = report(data)
            compare(command, name, data, wanted, run(command, data))
            wrong = {what: copy for what, copy in wrong.items() if copy(data) == wanted}
            sets += (len(data) + 2) // 3
            inputs_seen += 1
    if wrong:
        sys.exit(f"clocks: no input tells these wrong copies from the right one: {', '.join(wrong)}")
    chance = random.Random(args.seed)
    data = pack(likely(chance) for _ in range(BUFFER + 700)) + b"\x02\x01"
    compare(command, "in pieces", data, report(data), run_in_pieces(command, data, chance))
    print(f"{inputs_seen} inputs, {sets} sets: the same; {len(MISTAKES)} wrong copies told")


if __name__ == "__main__":
    main()
