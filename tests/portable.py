#!/usr/bin/env python3
"""Compares the portable sibling's program with a reader and a writer of its own, as 02, 13/13 says.

    portable.py [--seed SEED] COMMAND

COMMAND reads 28 bytes, CR00h to CR1Bh, on standard input and prints the code and the fourteen
numbers. With one more word, a list of fourteen numbers, it writes the bytes with them, or says the
code, or that it is no list, on standard error. It may have arguments. The reader and the writer
here go bit by bit by Table 9-1 of source document 004. Bytes, numbers and lists are generated: each
bit alone and each bit missing, each end of each range and the number beyond it, other lengths,
locked bytes, lists out of form, and random ones. They must also tell each wrong copy below.
"""
import argparse
import concurrent.futures
import os
import random
import re
import shlex
import subprocess
import sys

# Table 9-1, by bit position [9] [8] [7] [6] [5] [4:0], in the order of 01's table.
TABLE = """
H total         -       -       CR0[7]  CR0[6]  CR0[5]  CR0[4:0]
H display       -       -       CR1[7]  CR1[6]  CR1[5]  CR1[4:0]
H blank start   -       -       CR2[7]  CR2[6]  CR2[5]  CR2[4:0]
H blank end     -       -       CR1A[5] CR1A[4] CR5[7]  CR3[4:0]
H sync start    -       -       CR4[7]  CR4[6]  CR4[5]  CR4[4:0]
H sync end      -       -       -       -       -       CR5[4:0]
V total         CR7[5]  CR7[0]  CR6[7]  CR6[6]  CR6[5]  CR6[4:0]
V display       CR7[6]  CR7[1]  CR12[7] CR12[6] CR12[5] CR12[4:0]
V blank start   CR9[5]  CR7[3]  CR15[7] CR15[6] CR15[5] CR15[4:0]
V blank end     CR1A[7] CR1A[6] CR16[7] CR16[6] CR16[5] CR16[4:0]
V sync start    CR7[7]  CR7[2]  CR10[7] CR10[6] CR10[5] CR10[4:0]
V sync end      -       -       -       -       -       CR11[3:0]
line compare    CR9[6]  CR7[4]  CR18[7] CR18[6] CR18[5] CR18[4:0]
offset          -       CR1B[4] CR13[7] CR13[6] CR13[5] CR13[4:0]
"""
# 01, 'Timing': value+5, value+1, value+2
PLUS = {"H total": 5, "H display": 1, "V total": 2, "V display": 1}
# The ranges as they were settled, an end's from its start on; by the pieces they must come out the same.
RANGES = {"H total": (5, 260), "H display": (1, 256), "H blank start": (0, 255), "H blank end": (1, 256), "H sync start": (0, 255),
          "H sync end": (1, 32), "V total": (2, 1025), "V display": (1, 1024), "V blank start": (0, 1023), "V blank end": (1, 1024),
          "V sync start": (0, 1023), "V sync end": (1, 16), "line compare": (0, 1023), "offset": (0, 511)}
SIZE = 28
# A list that has more bytes than these is none: DECISIONS, point 122.
LIST_MOST = 256


def rows(table):
    """Of each number its name and the place of each bit, (byte, bit), the lowest first."""
    for line in table.strip().splitlines():
        bits = []
        for register, high, low in re.findall(r"CR([0-9A-F]+)\[(\d)(?::(\d))?\]", line)[::-1]:
            bits += [(int(register, 16), place) for place in range(int(low or high), int(high) + 1)]
        yield re.split(r"  +", line)[0], bits


class Portable:
    """The reader and the writer."""
    table = TABLE
    plus = PLUS
    lengths = (SIZE,)

    def __init__(self):
        self.rows = list(rows(self.table))

    def counts(self, lent, bits):
        return bits

    def is_locked(self, lent):
        return lent[0x11] >> 7 == 1

    def end_after(self, start, low, bits):
        number = start + 1
        while number % 2 ** bits != low:
            number += 1
        return number

    def read(self, lent):
        """The code and the numbers."""
        if len(lent) not in self.lengths:
            return 12, [0] * 14
        numbers = []
        for name, bits in self.rows:
            bits = self.counts(lent, bits)
            value = sum((lent[byte] >> bit & 1) << place for place, (byte, bit) in enumerate(bits))
            if name.endswith("end"):
                value = self.end_after(numbers[-1], value, len(bits))
            numbers.append(value + self.plus.get(name, 0))
        return 0, numbers

    def is_in_range(self, name, last, number, bits):
        if name.endswith("end"):
            return 1 <= number - last <= 2 ** bits
        least = self.plus.get(name, 0)
        return least <= number <= least + 2 ** bits - 1

    def all_in_range(self, lent, numbers):
        last = 0
        for (name, bits), number in zip(self.rows, numbers):
            if not self.is_in_range(name, last, number, len(self.counts(lent, bits))):
                return False
            last = number
        return True

    def refusal(self, lent, numbers):
        if len(lent) not in self.lengths:
            return 12
        if self.is_locked(lent):
            return 8
        return 0 if self.all_in_range(lent, numbers) else 10

    def write(self, lent, numbers):
        """The code and, if it is 0, the bytes."""
        code = self.refusal(lent, numbers)
        if code:
            return code, b""
        after = bytearray(lent)
        for (name, bits), number in zip(self.rows, numbers):
            value = number - self.plus.get(name, 0)
            for place, (byte, bit) in enumerate(self.counts(lent, bits)):
                after[byte] = after[byte] & ~(1 << bit) | (value >> place & 1) << bit
        return 0, bytes(after)

    def listed(self, text):
        """The numbers of a list, or None."""
        if len(text) > LIST_MOST or not re.fullmatch(rb"[0-9]+( [0-9]+){13}", text):
            return None
        return [int(word) for word in text.split(b" ")]


def check_ranges():
    for name, bits in Portable().rows:
        least, most = (1 if name.endswith("end") else PLUS.get(name, 0)), 2 ** len(bits) - 1
        if RANGES[name] != (least, least + most):
            sys.exit(f"{name}: the range is not the settled one")


# ---- Wrong copies ----

def with_table(right, wrong):
    assert right in TABLE
    return {"table": TABLE.replace(right, wrong)}


def with_plus(**plus):
    return {"plus": {**PLUS, **{name.replace("_", " "): k for name, k in plus.items()}}}


def never_locked(self, lent):
    return False


def range_before_lock(self, lent, numbers):
    if len(lent) != SIZE:
        return 12
    return 8 * self.is_locked(lent) if self.all_in_range(lent, numbers) else 10


def lock_before_length(self, lent, numbers):
    if len(lent) > 0x11 and self.is_locked(lent):
        return 8
    return Portable.refusal(self, lent, numbers)


def locked_read(self, lent):
    if len(lent) == SIZE and self.is_locked(lent):
        return 8, [0] * 14
    return Portable.read(self, lent)


def only_if_wide(self, lent, bits):
    return bits if lent[0x1B] & 0xA0 else [place for place in bits if place[0] != 0x1A]


def equal_is_zero(self, start, low, bits):
    return start + (low - start) % 2 ** bits


def up_to_one_more(self, name, last, number, bits):
    return Portable.is_in_range(self, name, last, number, bits) or (
        name.endswith("end") and number - last == 2 ** bits + 1)


def wraps(self, name, last, number, bits):
    return Portable.is_in_range(self, name, last % 65536, number % 65536, bits)


def moves(byte, bits):
    """A writer that also clears bits of a byte that no number has."""
    def write(self, lent, numbers):
        code, after = Portable.write(self, lent, numbers)
        if code:
            return code, after
        return code, bytes(x & ~bits & 0xFF if n == byte else x for n, x in enumerate(after))
    return write


def lists(form, most=LIST_MOST, separator=None):
    """A reader of lists of another form, of which it takes the first fourteen numbers."""
    def listed(self, text):
        if len(text) > most or not re.fullmatch(form, text):
            return None
        return [int(word) for word in text.split(separator)[:14]]
    return listed


MISTAKES = {
    "a ninth bit of H total, CR1B[7]": with_table("H total         -       - ", "H total         -       CR1B[7]"),
    "a ninth bit of H display, CR1B[5]": with_table("H display       -       - ", "H display       -       CR1B[5]"),
    "an eleventh bit's place taken for V total's tenth": with_table("V total         CR7[5] ", "V total         CR1B[3]"),
    "CR1A left out of the H blank end": with_table("H blank end     -       -       CR1A[5] CR1A[4]", "H blank end     -       -       -       -      "),
    "CR1A left out of the V blank end": with_table("V blank end     CR1A[7] CR1A[6]", "V blank end     -       -      "),
    "CR1A's two fields exchanged": {"table": TABLE.replace("CR1A[5]", "CR1A[x]").replace("CR1A[7]", "CR1A[5]").replace("CR1A[x]", "CR1A[7]")},
    "CR1A counts only if CR1B[5] or CR1B[7]": {"counts": only_if_wide},
    "offset without CR1B[4]": with_table("offset          -       CR1B[4]", "offset          -       -      "),
    "offset's high bit from CR1B[3]": with_table("CR1B[4]", "CR1B[3]"),
    "V total's CR7 bits exchanged": with_table("V total         CR7[5]  CR7[0]", "V total         CR7[0]  CR7[5]"),
    "line compare's CR9[6] from CR9[5]": with_table("line compare    CR9[6]", "line compare    CR9[5]"),
    "V blank start without CR9[5]": with_table("V blank start   CR9[5]", "V blank start   -     "),
    "H sync end of six bits": with_table("CR5[4:0]", "CR5[5:0]"),
    "V sync end of five bits": with_table("CR11[3:0]", "CR11[4:0]"),
    "H total plain": with_plus(H_total=0),
    "V total of value+1": with_plus(V_total=1),
    "V display plain": with_plus(V_display=0),
    "27 bytes taken": {"lengths": (27, 28)},
    "29 bytes taken": {"lengths": (28, 29)},
    "the lock not looked at": {"is_locked": never_locked},
    "the lock refuses a read": {"read": locked_read},
    "10 before 8": {"refusal": range_before_lock},
    "8 before 12": {"refusal": lock_before_length},
    "an equal start and end as width 0": {"end_after": equal_is_zero},
    "an end one beyond its 2^n": {"is_in_range": up_to_one_more},
    "a number over 16 bits wrapped": {"is_in_range": wraps},
    "several spaces between": {"listed": lists(rb"[0-9]+( +[0-9]+){13}")},
    "a space at the end": {"listed": lists(rb"[0-9]+( [0-9]+){13} ?")},
    "a space at the start": {"listed": lists(rb" ?[0-9]+( [0-9]+){13}")},
    "a tab or a newline between": {"listed": lists(rb"[0-9]+([ \t\n][0-9]+){13}")},
    "fifteen numbers": {"listed": lists(rb"[0-9]+( [0-9]+){13,14}")},
    "thirteen numbers": {"listed": lambda self, text: Portable.listed(self, text) or Portable.listed(self, text + b" 0")},
    "a sign": {"listed": lists(rb"\+?[0-9]+( \+?[0-9]+){13}")},
    "no zero that leads": {"listed": lists(rb"(0|[1-9][0-9]*)( (0|[1-9][0-9]*)){13}")},
    "numbers of at most five digits": {"listed": lists(rb"[0-9]{1,5}( [0-9]{1,5}){13}")},
    "a list of 257 bytes": {"listed": lists(rb"[0-9]+( [0-9]+){13}", LIST_MOST + 1)},
    "no list of 256 bytes": {"listed": lists(rb"[0-9]+( [0-9]+){13}", LIST_MOST - 1)},
    "CR3[7:5] cleared": {"write": moves(0x03, 0xE0)},
    "CR5[6:5] cleared": {"write": moves(0x05, 0x60)},
    "CR9[4:0] cleared": {"write": moves(0x09, 0x1F)},
    "CR11[6:4] cleared": {"write": moves(0x11, 0x70)},
    "CR1A[3:0] cleared": {"write": moves(0x1A, 0x0F)},
    "screen start written: CR1B[3:2]": {"write": moves(0x1B, 0x0C)},
    "screen start written: CRC": {"write": moves(0x0C, 0xFF)},
    "screen start written: CRD": {"write": moves(0x0D, 0xFF)},
}


def wrong_copy(name):
    changed = dict(MISTAKES[name])
    if changed.get("lengths", (SIZE,))[0] < SIZE:
        # a byte that is missing reads 0
        changed["read"] = lambda self, lent: Portable.read(self, lent.ljust(SIZE, b"\0") if len(lent) == 27 else lent)
        changed["write"] = lambda self, lent, numbers: Portable.write(self, lent.ljust(SIZE, b"\0") if len(lent) == 27 else lent, numbers)
    return type("Wrong", (Portable,), changed)()


# ---- Cases: bytes alone are read, bytes with numbers, or with a list as text, are written ----

def some_bytes(chance, count=SIZE, locked=None):
    lent = bytearray(chance.randbytes(count))
    if locked is not None and count > 0x11:
        lent[0x11] = lent[0x11] & 0x7F | locked << 7
    return bytes(lent)


def bit_cases():
    """Each bit alone, and each missing."""
    for byte in range(SIZE):
        for bit in range(8):
            for lent in (bytes(SIZE), b"\xFF" * SIZE):
                turned = bytearray(lent)
                turned[byte] ^= 1 << bit
                yield bytes(turned), None


def ends(name, last, bits):
    """The two ends of a number's range, and the numbers beyond them."""
    least, size = (last + 1 if name.endswith("end") else PLUS.get(name, 0)), 2 ** bits
    return [n for n in (least - 1, least, least + size - 1, least + size) if n >= 0]


def good_numbers(chance, extreme=None):
    """Fourteen numbers in their ranges; all the least or all the largest if that is asked for."""
    numbers = []
    for name, bits in Portable().rows:
        least = numbers[-1] + 1 if name.endswith("end") else PLUS.get(name, 0)
        most = least + 2 ** len(bits) - 1
        numbers.append({"least": least, "most": most}.get(extreme, chance.randint(least, most)))
    return numbers


def range_cases(chance):
    """Each number at and beyond the ends of its range, over three kinds of bytes."""
    for extreme in (None, "least", "most"):
        for at, (name, bits) in enumerate(Portable().rows):
            base = good_numbers(chance, extreme)
            for number in ends(name, base[at - 1], len(bits)) + [65535, 65536, 99999, 2 ** 32, 2 ** 64]:
                numbers = [*base]
                if at + 1 < 14 and Portable().rows[at + 1][0].endswith("end"):
                    numbers[at + 1] += number - numbers[at]
                numbers[at] = number
                if min(numbers) >= 0:
                    lent = chance.choice((bytes(SIZE), b"\xFF" * 0x11 + b"\x7F" + b"\xFF" * 10, some_bytes(chance, locked=0)))
                    yield lent, numbers


def number_bit_cases(chance):
    """Each bit of each number alone, and each missing, over bytes that have all bits else."""
    lent = b"\xFF" * 0x11 + b"\x7F" + b"\xFF" * 10
    for at, (name, bits) in enumerate(Portable().rows):
        for bit in range(len(bits)):
            for value in (1 << bit, 2 ** len(bits) - 1 - (1 << bit)):
                numbers = good_numbers(chance)
                if name.endswith("end"):
                    value = Portable().end_after(numbers[at - 1], value, len(bits))
                elif Portable().rows[(at + 1) % 14][0].endswith("end"):
                    numbers[at + 1] += value + PLUS.get(name, 0) - numbers[at]
                numbers[at] = value + PLUS.get(name, 0)
                yield lent, numbers


def order_cases(chance):
    """Lengths, the lock and a number out of range, one or several at once."""
    for count in (0, 1, 17, 18, 26, 27, 28, 29, 56, 255, 8193):
        for locked in (0, 1):
            lent = some_bytes(chance, count, locked)
            yield lent, None
            yield lent, good_numbers(chance)
            yield lent, [*good_numbers(chance)[:13], 512]
            yield lent, [70000, *good_numbers(chance)[1:]]


def random_cases(chance, count):
    for _ in range(count):
        lent = some_bytes(chance, locked=chance.choice((0, 0, 0, 1)))
        yield lent, None
        yield lent, good_numbers(chance)
        yield lent, Portable().read(lent)[1]
        wrong = good_numbers(chance)
        wrong[chance.randrange(14)] = chance.choice((0, 1, 256, 257, 1024, 1025, 1026, 65536 + 5))
        yield lent, wrong


def list_cases(chance):
    """Lists out of form, and odd ones that are in it, over bytes that take any number in range."""
    good = as_list(good_numbers(chance))
    first, rest = good.split(b" ", 1)
    odd = [b"", b" ", b"0", good + b" ", b" " + good, good + b"\n", rest, good + b" 0", good + b" x", good + b"x", b"x" + good,
           b"+" + good, b"-" + good, b"0x" + good, first + b"  " + rest, first + b"\t" + rest, first + b"\n" + rest,
           first + b"," + rest, first + b", " + rest, first + b".0 " + rest, first + b" +" + rest, first + b" -" + rest,
           b"0" + good, b"000000" + good, first + b" 00000000000000000000" + rest, b" ".join([b"0"] * 14),
           first + b"/ " + rest, first + b": " + rest, first + b"\xd9\xa3 " + rest, first + b"\xc2\xa0" + rest, b"\xff" + good]
    odd += [b"0" * (count - len(good)) + good for count in (255, 256, 257, 300, 5000)]
    for text in odd:
        yield bytes(SIZE), text
        yield some_bytes(chance, locked=0), text
    for text in (b"", good + b" "):
        yield bytes(27), text
        yield b"\xFF" * SIZE, text


def cases(seed):
    chance = random.Random(seed)
    yield from list_cases(chance)
    yield from bit_cases()
    yield from range_cases(chance)
    yield from number_bit_cases(chance)
    yield from order_cases(chance)
    yield from random_cases(chance, 60)


# ---- The program ----

def as_list(numbers):
    return b" ".join(b"%d" % number for number in numbers)


def told(model, case):
    """What a model says of a case, as the program would: code and numbers, or code and bytes."""
    lent, text = case
    if text is None:
        return model.read(lent)
    numbers = model.listed(text)
    return ("no list", b"") if numbers is None else model.write(lent, numbers)


def run(command, case):
    """The same of the program."""
    lent, text = case
    words = [*command] if text is None else [*command, text]
    done = subprocess.run(words, input=lent, stdout=subprocess.PIPE, stderr=subprocess.PIPE, timeout=60)
    if text is None:
        line = re.fullmatch(rb"(0|[1-9]\d*)(( (0|[1-9]\d*)){14})\n", done.stdout)
        if not line or done.stderr:
            return "unreadable", done.stdout, done.stderr
        return int(line[1]), [int(word) for word in line[2].split()]
    if done.stderr == b"portable: no fourteen decimal numbers with one space between\n":
        return "no list", done.stdout
    refusal = re.fullmatch(rb"portable: nothing is written, code (\d+): .*\n", done.stderr)
    return (int(refusal[1]) if refusal else 0 if not done.stderr else done.stderr), done.stdout


def words(case):
    lent, text = case
    return f"{lent[:64].hex(' ')} ({len(lent)} bytes)" + (", reading" if text is None else f", writing {text}")


def compare(command, seed):
    jobs = [(lent, as_list(said) if isinstance(said, list) else said) for lent, said in cases(seed)]
    right = Portable()
    with concurrent.futures.ThreadPoolExecutor(os.cpu_count()) as pool:
        for case, other in zip(jobs, pool.map(lambda case: run(command, case), jobs)):
            if other != told(right, case):
                sys.exit(f"DIFFERENT: {words(case)}\n  here:    {told(right, case)}\n  program: {other}")
    codes = {told(right, case)[0] for case in jobs} - {"no list"}
    uncaught = [name for name in MISTAKES
                if all(told(wrong_copy(name), case) == told(right, case) for case in jobs)]
    for name in uncaught:
        print(f"NOT CAUGHT: {name}")
    print(f"portable: {len(jobs)} cases alike; codes seen: {' '.join(map(str, sorted(codes)))}; "
          f"wrong copies caught: {len(MISTAKES) - len(uncaught)} of {len(MISTAKES)}")
    return 1 if uncaught or codes != {0, 8, 10, 12} else 0


def main():
    parser = argparse.ArgumentParser(description=__doc__, formatter_class=argparse.RawDescriptionHelpFormatter)
    parser.add_argument("--seed", type=int, default=1)
    parser.add_argument("command", nargs=argparse.REMAINDER, metavar="COMMAND")
    options = parser.parse_args()
    if not options.command:
        parser.error("no COMMAND")
    command = options.command if len(options.command) > 1 else shlex.split(options.command[0])
    check_ranges()
    return compare(command, options.seed)


if __name__ == "__main__":
    sys.exit(main())
