#!/usr/bin/env python3
"""Holds a program that writes short plans to 02 11/13, by the reference.

    since.py [--fresh SEED] [--replay COMMAND] [--snapshot COMMAND] SINCE_COMMAND

SINCE_COMMAND gets two file names behind its words: it saves the file that the first trace ends in,
goes on with the second, and writes the short plan back to the saved file; nothing, with code 13 on
standard error, if the saved file's pointer isn't before red. On the CL-GD5462 it gets the words
'--chip 5462' more: where its words have {chip}, else before the names.

Of each pair of traces the reference runs both and the plan. Every record of the plan must be of
kind 0 to 5 and be answered 0, and the file must then be the saved one, part by part, the line apart.
The plan has at most 16 records if the set is empty, else at most 32 and 4 for each thing that the
set names, and never more than the full plan: the reference's, and with --snapshot also what that
program writes of the first trace. A second trace that names the same with other values must have
the same plan, to the byte. With --replay that program must answer to traces and plan as the
reference does. The pairs are special ones, and of every kind of traces.py, some with a fresh seed,
which is printed and can be given again.

Wrong plans must be told: some made here, and those of the wrong copies of the reference that
mistakes.py lists. The wrong copies of the set there must be told by reference/points.
"""
import argparse
import collections
import concurrent.futures
import functools
import itertools
import os
import pathlib
import random
import shlex
import shutil
import statistics
import subprocess
import sys
import tempfile

sys.dont_write_bytecode = True
import traces
from decode import CONFIG, LINES, MMIO, PORT
from mistakes import SET_MISTAKES, SHORT_MISTAKES
from plans import Fault, check_codes, first_part, without_line
from traces import OPEN, passing, read, write

REFERENCE = pathlib.Path(__file__).resolve().parent.parent / "reference"
CHIPS = ("5464", "5462")
EMPTY_MOST, MOST, MORE = 16, 32, 4
TIMEOUT = 600
POINTS = "02, 11/13"

# what: how it is told, chip: 5462 or 5464, names: what the set names, if that is known here.
Pair = collections.namedtuple("Pair", "what chip first second names", defaults=(None,))


# ---- Special pairs ----

def index(port, number, *values):
    return b"".join((write(PORT, port, number), *(write(PORT, port + 1, value) for value in values)))


def load(first, *colours, address=0xA8):
    """Colours from an address on, by MMIO."""
    return write(MMIO, address, first) + b"".join(write(MMIO, 0xAC, byte) for colour in colours for byte in colour)


@functools.cache
def mixture(seed):
    return traces.trace("mixed", seed, 1200)


def busy(seed, *records):
    """A start that has something everywhere, the pointer before red, and then these records."""
    chance = traces.Chance(f"busy {seed}")
    return (mixture(seed % 40) + b"".join(traces.steady(seed % 2)) + load(seed % 256, (seed % 256, 1, 2), (3, 4, 5))
            + write(MMIO, chance.pick((0xA4, 0xA8)), chance.below(256)) + b"".join(records))


def everything():
    """Every place that can be written, once; what shuts something last."""
    late = [traces.CR1A, (MMIO, 0xB0), (MMIO, 0x44), (MMIO, 0x304), (CONFIG, 0x04)]
    places = sorted(traces.WRITES, key=lambda place: late.index(place[:2]) if place[:2] in late else -1)
    return b"".join(write(space, address, 3, width) for space, address, width in places)


SHUT = write(CONFIG, 0x04, 0, 2)
LOCK, DOWN, SYNC = write(MMIO, 0x44, 0x80), write(MMIO, 0xB0, 0x80), write(*traces.CR1A, 0x0C)
COLOUR = (7, 8, 9)
ENTRY = ("pointer", "marks")
# (what, records behind the start, the second trace, what the set names)
SPECIAL = [
    ("nothing", b"", b"", ()),
    ("lines pass", b"", passing(7) + passing(65535), ()),
    ("reads alone", b"", b"".join(read(*place) for place in traces.READS
                                  if place[1] not in (0x3BA, 0x3DA, 0x3C9, 0xAC)), ()),
    ("a fragment", b"", write(MMIO, 0, 1)[:7], ()),
    ("its own value", write(MMIO, 0x04, 0x4F), write(MMIO, 0x04, 0x4F), ("CR1",)),
    ("all bits dropped", write(MMIO, 0x74, 0x18), write(MMIO, 0x74, 0xE7), ("CR1D",)),
    ("refused by the lock", LOCK, b"".join(write(MMIO, 4 * n, 0x55) for n in range(7)), ()),
    ("CR7 under the lock", LOCK, write(MMIO, 0x1C, 0x10) + write(MMIO, 0x1C, 0xEF), ("CR7",)),
    ("locked since", b"", write(MMIO, 0x00, 9) + LOCK + write(MMIO, 0x00, 8), ("CR0", "CR11")),
    ("unlocked since", LOCK, write(MMIO, 0x44, 0) + write(MMIO, 0x1C, 0xA5), ("CR11", "CR7")),
    ("no space", SHUT, everything()[:-8], ()),
    ("wrong widths", b"", b"".join(write(s, a, 1, 3 - w) for s, a, w in traces.WRITES), ()),
    ("spaces off since", b"", SHUT, ("PCI04",)),
    ("spaces on since", SHUT, OPEN + write(MMIO, 0x78, 1), ("PCI04", "CR1E")),
    ("code 1 at 3C0h", read(PORT, 0x3BA) + read(PORT, 0x3DA) + write(PORT, 0x3C0, 0x15), write(PORT, 0x3C0, 7), ("toggle",)),
    ("code 1 elsewhere", write(PORT, 0x3C4, 0x05) + write(PORT, 0x3CE, 0x3F),
     b"".join(write(PORT, port, n) for port in (0x3C5, 0x3CF) for n in range(50)), ()),
    ("3?Ah at index", read(PORT, 0x3BA) + read(PORT, 0x3DA), read(PORT, 0x3BA) + read(PORT, 0x3DA), ("toggle",)),
    ("3?Ah at data", read(PORT, 0x3BA) + read(PORT, 0x3DA) + write(PORT, 0x3C0, 0x33),
     read(PORT, 0x3BA) + read(PORT, 0x3DA), ("toggle",)),
    ("an attribute index", read(PORT, 0x3BA) + read(PORT, 0x3DA), write(PORT, 0x3C0, 0x2A), ("ARX", "toggle")),
    ("an attribute", read(PORT, 0x3BA) + read(PORT, 0x3DA) + write(PORT, 0x3C0, 0x0A), write(PORT, 0x3C0, 0x2A), ("ARA", "toggle")),
    ("a read address", b"", write(PORT, 0x3C7, 9), ("pointer",)),
    ("a write address in mid-colour", write(MMIO, 0xAC, 1) + write(PORT, 0x3C8, 9), write(PORT, 0x3C8, 9), ("pointer",)),
    ("pixel data read", b"", read(PORT, 0x3C9), ENTRY),
    ("a held byte", b"", write(MMIO, 0xAC, 1) * 1, ENTRY),
    ("one colour", b"", load(255, COLOUR), (*ENTRY, "palette FF")),
    ("one colour of the bank", write(MMIO, 0xB0, 0x08), load(0x35, COLOUR), (*ENTRY, "bank 5")),
    ("the bank since", b"", write(MMIO, 0xB0, 0x08) + load(0, *[COLOUR] * 16), (*ENTRY, "B0", *(f"bank {n:X}" for n in range(16)))),
    ("the palette", b"", load(0, *[COLOUR] * 256), (*ENTRY, *(f"palette {n:X}" for n in range(256)))),
    ("every second colour", b"", b"".join(load(n, COLOUR) for n in range(0, 256, 2)),
     (*ENTRY, *(f"palette {n:X}" for n in range(0, 256, 2)))),
    ("refused by power-down", DOWN, b"".join(load(n, COLOUR) for n in range(256)), ("pointer",)),
    ("refused by static sync", SYNC, b"".join(load(n, COLOUR) for n in range(256)), ("pointer",)),
    ("down since", b"", load(3, COLOUR) + DOWN, (*ENTRY, "palette 3", "B0")),
    ("static sync since", b"", load(3, COLOUR) + SYNC, (*ENTRY, "palette 3", "CR1A")),
    ("up since", DOWN + SYNC, write(MMIO, 0xB0, 0) + write(*traces.CR1A, 0) + load(9, COLOUR), (*ENTRY, "palette 9", "B0", "CR1A")),
    ("the other base", b"", write(MMIO, 0x80, 0x00) + write(PORT, 0x3B4, 5) + write(MMIO, 0x80, 0x01), ("MISC", "CRX")),
    ("saved in mid-colour", write(MMIO, 0xAC, 1), write(MMIO, 0x04, 1), ("CR1",)),
    ("saved before blue", read(MMIO, 0xAC) * 2, write(MMIO, 0xA8, 1), ("pointer",)),
    ("the indices", b"", write(PORT, 0x3C4, 0x1F) + write(PORT, 0x3CE, 0x3F), ("SRX", "GRX")),
]


def special_pairs():
    for number, (what, behind, second, names) in enumerate(SPECIAL):
        for chip, seed in itertools.product(CHIPS, (number, 1000 + number)):
            yield Pair(f"{what}, start {seed}", chip, busy(seed, behind), second, names)
        yield Pair(f"{what}, from power-on", CHIPS[number % 2], OPEN + behind, second, names)


def register_pairs():
    """Each place that can be written, by itself: another value on one chip, an equal one on the other."""
    for number, (space, address, width) in enumerate(traces.WRITES):
        first = busy(number) + OPEN + write(MMIO, 0x80, address >> 4 == 0x3D)
        access = write(space, address, 0x33 + number % 2 * 0x11, width)
        yield Pair(f"a write of {address:X}h", CHIPS[number % 2], first, access)
        if address not in (0x3C0, 0x3C9, 0xAC):
            yield Pair(f"a second write of {address:X}h", CHIPS[1 - number % 2], first + access, access)
    for number in range(0x20):
        for port in (0x3C4, 0x3CE, 0x3D4):
            yield Pair(f"index {number:X}h at {port:X}h", CHIPS[number % 2], busy(2 * number + 1), index(port, number, 0x33))


def mark_pairs():
    """All six marks, both modes and toggles saved, and each moved to another."""
    marks = {(reading, colour): (write(MMIO, 0xA8, 77) + (read(MMIO, 0xAC) if reading else write(MMIO, 0xAC, 5)) * (colour + 1))
             for reading in (0, 1) for colour in range(3)}
    for number, ((a, first), (b, second)) in enumerate(itertools.product(marks.items(), repeat=2)):
        toggle = read(PORT, 0x3DA if number % 2 else 0x3BA) + write(PORT, 0x3C0, number) * (number % 3)
        place = write(MMIO, (0xA4, 0xA8)[number // 2 % 2], number)
        yield Pair(f"marks {a} then {b}", CHIPS[number % 2], busy(number, first, place, toggle),
                   second + toggle[-8:] * (number // 6 % 3))


# ---- Pairs of every kind ----

def settled(chance, trace):
    """Behind a trace, as a rule: the pointer before red. Then, at times, something shut or turned."""
    trace = trace[:len(trace) // 8 * 8] if chance.one_in(2) else trace
    if len(trace) % 8 or chance.one_in(6):
        return trace
    trace += OPEN + write(MMIO, chance.pick((0xA4, 0xA8)), chance.below(256))
    for record in (LOCK, DOWN, SYNC, write(PORT, 0x3C0, chance.below(64)), write(MMIO, 0xB0, 0x08),
                   write(MMIO, 0x80, chance.below(256)), write(CONFIG, 0x04, chance.below(4), 2)):
        if chance.one_in(5):
            trace += record
    return trace


def kind_pairs(seed, rounds):
    """Every kind goes first, and every kind goes second, at lengths from nothing to some hundreds."""
    kinds = list(traces.KINDS)
    for turn in range(rounds):
        for number, kind in enumerate(kinds):
            chance = traces.Chance(f"pair {seed} {turn} {kind}")
            then = kinds[(number + turn) % len(kinds)]
            counts = [chance.pick((chance.below(8), chance.below(100), chance.below(800))) for _ in range(2)]
            seeds = [chance.below(10 ** 9) for _ in range(2)]
            first = settled(chance, traces.trace(kind, seeds[0], counts[0]))
            second = traces.trace(then, seeds[1], counts[1])
            yield Pair(f"traces.py {kind} {seeds[0]} {counts[0]} settled, then {then} {seeds[1]} {counts[1]}",
                       CHIPS[(number + turn) % 2], first, second)


def other_values(second, seed):
    """The same writes with other values, but for what decides over others."""
    chance = traces.Chance(f"other {seed}")
    decides = (0x04, 0x304, 0x3C0, 0x3C2, 0x80, 0x3C4, 0x3CE, 0x3B4, 0x3D4, 0x3C7, 0x3C8, 0xA4, 0xA8, 0x44, 0x68, 0xB0, 0x3B5, 0x3D5)
    records = [second[at:at + 8] for at in range(0, len(second), 8)]
    return b"".join(traces.pack(r[0], r[1], r[2] | r[3] << 8, chance.fitting(r[1]))
                    if len(r) == 8 and r[0] in (1, 3, 5) and r[1] in (1, 2) and r[2] | r[3] << 8 not in decides
                    and not any(r[4 + r[1]:]) else r for r in records)


# ---- Programs ----

def build(source, into, *programs, flags="-O2"):
    done = subprocess.run(["sh", source / "build", into, *programs], stdout=subprocess.PIPE,
                          stderr=subprocess.STDOUT, text=True, env={**os.environ, "CFLAGS": flags})
    if done.returncode:
        sys.exit(f"since.py: {source} does not build:\n{done.stdout}")
    return [[str(into / program)] for program in programs]


def build_mistake(folder, mistake, program):
    name, right, wrong = mistake
    copy = pathlib.Path(tempfile.mkdtemp(dir=folder)) / "reference"
    shutil.copytree(REFERENCE, copy)
    source = copy / "sedgecoil.c"
    text = source.read_text()
    if text.count(right) != 1:
        sys.exit(f"since.py: mistakes.py is out of date: {name}")
    source.write_text(text.replace(right, wrong))
    return name, *build(copy, copy / "out", program, flags="-O1")


def with_chip(command, chip):
    more = () if chip == "5464" else ("--chip", chip)
    at = command.index("{chip}") if "{chip}" in command else len(command)
    return [*command[:at], *more, *command[at + 1:]]


def run(command, trace=b""):
    """What a command writes for a trace, what it says, and its exit status."""
    try:
        done = subprocess.run(command, input=trace, stdout=subprocess.PIPE, stderr=subprocess.PIPE, timeout=TIMEOUT)
    except OSError as error:
        sys.exit(f"since.py: {shlex.join(command)}: {error}")
    return done.stdout, done.stderr, done.returncode


def whole(trace):
    """Without its fragment, which does nothing."""
    return trace[:len(trace) // 8 * 8]


# ---- The checks ----

def bound(named):
    return MOST + MORE * named if named else EMPTY_MOST


Right = collections.namedtuple("Right", "ends names full start")


class Checker:
    """What the reference says of a pair, and whether a plan is good for it."""

    def __init__(self, folder, replay, snapshot):
        self.folder, self.replay, self.snapshot, self.known = folder, replay, snapshot, {}
        self.reference, self.ending, self.since = build(REFERENCE, folder / "reference", "replay", "ending", "since")

    def files(self, pair):
        """The names of the pair as two files."""
        room = pathlib.Path(tempfile.mkdtemp(dir=self.folder))
        for name, trace in (("first", pair.first), ("second", pair.second)):
            (room / name).write_bytes(trace)
        return [str(room / "first"), str(room / "second")]

    def set_of(self, pair, names):
        said, error, status = run([*with_chip(self.since, pair.chip), "set", *names])
        if error or status:
            sys.exit(f"since.py: the reference's set: {error.decode()}")
        return said.decode().splitlines()

    def right(self, pair):
        """The pair's files; the saved file, the set, the full plan's length, and what a plan is run behind."""
        if pair in self.known:
            return self.known[pair]
        names = self.files(pair)
        ends, _, _ = run(with_chip(self.ending, pair.chip), pair.first)
        full, _, _ = run([*with_chip(self.ending, pair.chip), "plan"], pair.first)
        if self.snapshot:
            other, _, _ = run(with_chip(self.snapshot, pair.chip), pair.first)
            full = min(full, other, key=len)
        right = Right(ends, self.set_of(pair, names), len(full) // 8, whole(pair.first) + whole(pair.second))
        self.known[pair] = names, right
        return names, right

    def check_plan(self, pair, right, plan, replay=None):
        """Raises a Fault if it is no good short plan."""
        most = min(bound(len(right.names)), right.full)
        if len(plan) % 8:
            raise Fault([f"a plan of {len(plan)} bytes"], plan=plan)
        if len(plan) // 8 > most:
            raise Fault([f"{len(plan) // 8} records, at most {most} are allowed: the set names {len(right.names)}, "
                         f"the full plan has {right.full}"], plan=plan)
        if any(kind >= LINES for kind in plan[::8]):
            raise Fault(["a record that is no access"], plan=plan)
        together = right.start + plan
        output, _, _ = run(with_chip(self.reference, pair.chip), together)
        check_codes(right.start, plan, output)
        found, _, _ = run(with_chip(self.ending, pair.chip), together)
        if without_line(found) != without_line(right.ends):
            raise Fault(["the plan ends in another file", first_part(right.ends, found)], plan=plan)
        if replay and run(with_chip(replay, pair.chip), together) != (output, b"", 0):
            raise Fault(["the program and the reference replay the plan differently"], plan=plan)

    def check_answer(self, pair, right, answer):
        """The plan that a command wrote, or nothing where none is due; its length, or None."""
        plan, said, status = answer
        if not right.ends.startswith(b"next 0\n"):
            if plan or b"code 13" not in said:
                raise Fault([f"the pointer isn't before red: {len(plan)} bytes, {said!r}"], plan=plan)
            return None
        if said or status:
            raise Fault([f"exit status {status} with a plan due, {said!r}"], plan=plan)
        self.check_plan(pair, right, plan, self.replay)
        return len(plan) // 8

    def ask(self, command, pair, names):
        return run([*with_chip(command, pair.chip), *names])

    def check(self, command, pair, seed):
        """One pair; what the set names and the lengths of the plan and of the full one, or None."""
        names, right = self.right(pair)
        if pair.names is not None and sorted(pair.names) != sorted(right.names):
            sys.exit(f"since.py: {pair.what}: the reference names {right.names}")
        answer = self.ask(command, pair, names)
        length = self.check_answer(pair, right, answer)
        if length is None:
            return None
        self.check_twin(command, pair, right, answer, seed)
        return len(right.names), length, right.full

    def check_twin(self, command, pair, right, answer, seed):
        """By saved file and set alone: the same set with other values has the same plan."""
        twin = pair._replace(second=other_values(pair.second, seed))
        if twin == pair:
            return
        names = self.files(twin)
        if self.set_of(twin, names) == right.names and self.ask(command, twin, names) != answer:
            raise Fault(["the same saved file and set have another plan"], plan=answer[0], twin=twin.second)

    def catches(self, command, pair):
        """Whether this pair tells a wrong copy's plan."""
        names, right = self.right(pair)
        try:
            self.check_answer(pair, right, self.ask(command, pair, names))
        except Fault:
            return True
        return False


# ---- Wrong plans ----

def wrong_plans(plan, named, full):
    """(what, a plan that isn't good) out of a good one of a pair that has changed something."""
    idle = read(CONFIG, 0x00, 2)
    most = min(bound(named), full)
    yield "a record too many", plan + idle * (most + 1 - len(plan) // 8)
    if named == 0:
        return
    yield "no record", b""
    yield "its last record dropped", plan[:-8]
    yield "its last record cut", plan[:-1]
    yield "a refused record", plan + read(PORT, 0x3CA)
    yield "a record of code 1", OPEN + index(0x3C4, 0x05) + read(PORT, 0x3C5) + plan
    yield "lines that pass", plan + passing(1)
    yield "a register of another value", plan[:-8] + write(MMIO, 0x30, 0x5A) + write(MMIO, 0x34, 0xA5) + plan[-8:]
    yield "the toggle turned", plan[:-8] + read(PORT, 0x3DA) + write(PORT, 0x3C0, 0x3F) + plan[-8:]
    yield "a pointer in mid-colour", plan[:-8] + write(MMIO, 0xA8, 0) + write(MMIO, 0xAC, 0) + plan[-8:]


def told_plans(checker):
    """Wrong plans of a few pairs: the names of those not told, and how many there are."""
    missed, count = [], 0
    for what in ("nothing", "locked since", "spaces off since", "one colour"):
        behind, second = next(special[1:3] for special in SPECIAL if special[0] == what)
        pair = Pair(what, "5464", busy(1, write(MMIO, 0x80, 1), write(CONFIG, 0x04, 0x0027, 2), behind), second)
        names, right = checker.right(pair)
        plan, _, _ = checker.ask([*checker.since, "plan"], pair, names)
        checker.check_plan(pair, right, plan)
        for name, wrong in wrong_plans(plan, len(right.names), right.full):
            count += 1
            try:
                checker.check_plan(pair, right, wrong)
                missed.append(f"{name}, of the pair '{what}'")
            except Fault:
                pass
    return missed, count


def told_copies(checker, pool, pairs):
    """The names of the wrong copies that none of the pairs tells, and that reference/points doesn't."""
    def build_all(mistakes, program):
        return list(pool.map(lambda mistake: build_mistake(checker.folder, mistake, program), mistakes))

    short, sets = build_all(SHORT_MISTAKES, "since"), build_all(SET_MISTAKES, "points")
    told = [*pool.map(lambda copy: any(checker.catches([*copy[1], "plan"], pair) for pair in pairs), short),
            *pool.map(lambda copy: run([*copy[1], POINTS])[2] == 1, sets)]
    return [name for (name, _), caught in zip(short + sets, told) if not caught]


# ---- The program ----

def report(pair, fault):
    kept = pathlib.Path(tempfile.mkdtemp(prefix="since-kept-"))
    for name, content in {"first": pair.first, "second": pair.second, **fault.files}.items():
        (kept / name).write_bytes(content)
    print(f"DIFFERENT: {pair.chip}: {pair.what}", *fault.lines, f"kept: {kept}", sep="\n  ")


def check_all(checker, command, pairs, pool):
    """All pairs; the lengths of those with a plan, and how many were different."""
    def one(job):
        seed, pair = job
        try:
            return checker.check(command, pair, seed)
        except Fault as fault:
            return pair, fault
    found = list(pool.map(one, enumerate(pairs)))
    faults = [answer for answer in found if answer and isinstance(answer[1], Fault)]
    for pair, fault in faults[:5]:
        report(pair, fault)
    return [answer for answer in found if answer and answer not in faults], len(faults), len(found)


def lengths(found):
    """The plans' lengths in words, for the empty sets and the others."""
    for what, some in (("empty set", [a for a in found if not a[0]]), ("other sets", [a for a in found if a[0]])):
        short, full = [a[1] for a in some] or [0], [a[2] for a in some] or [0]
        yield (f"{what}: {len(some)} plans, records {min(short)} to {max(short)}, half up to {round(statistics.median(short))}; "
               f"full plans {min(full)} to {max(full)}")


def main():
    parser = argparse.ArgumentParser(description=__doc__, formatter_class=argparse.RawDescriptionHelpFormatter)
    parser.add_argument("--fresh", type=int, metavar="SEED", default=random.SystemRandom().randrange(10 ** 6, 10 ** 9))
    parser.add_argument("--replay", metavar="COMMAND", type=shlex.split)
    parser.add_argument("--snapshot", metavar="COMMAND", type=shlex.split)
    parser.add_argument("command", nargs=argparse.REMAINDER, metavar="SINCE_COMMAND")
    options = parser.parse_args()
    command = shlex.split(options.command[0]) if len(options.command) == 1 else options.command
    if not command:
        parser.error("no SINCE_COMMAND")
    sys.stdout.reconfigure(line_buffering=True)
    print(f"fresh seed of the pairs: {options.fresh}")
    with tempfile.TemporaryDirectory(prefix="since-") as name, \
            concurrent.futures.ThreadPoolExecutor(os.cpu_count()) as pool:
        checker = Checker(pathlib.Path(name), options.replay, options.snapshot)
        special = [*special_pairs(), *mark_pairs()]
        pairs = [*special, *register_pairs(), *kind_pairs(0, 8), *kind_pairs(options.fresh, 4)]
        found, faults, count = check_all(checker, command, pairs, pool)
        print(*lengths(found), sep="\n")
        missed_plans, plans = told_plans(checker)
        missed = missed_plans + told_copies(checker, pool, special)
    for what in missed:
        print(f"NOT CAUGHT: {what}")
    wrong = plans + len(SHORT_MISTAKES) + len(SET_MISTAKES)
    refusals = count - len(found) - faults
    if not refusals or not any(not named for named, _, _ in found):
        missed.append("a refusal and an empty set")
        print("NOT SEEN: a refusal, or an empty set")
    print(f"{count} pairs of traces, {len(found)} short plans, {refusals} refused, {faults} different; "
          f"wrong plans and copies caught: {wrong - len(missed)} of {wrong}")
    return 1 if missed or faults else 0


if __name__ == "__main__":
    sys.exit(main())
