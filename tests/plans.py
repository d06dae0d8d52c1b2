"""Holds a snapshot program to what 01 says of a plan, by the reference.

A snapshot program reads a trace, runs it from power-on and writes a plan of the file that the run
ends in, or nothing if the palette pointer isn't before red there. A plan has at most 1,024 records,
none lets lines pass, each is answered 0, and from any start the run ends in the same file, part by
part, the line apart (02 10/13).
"""
import re
import sys

sys.dont_write_bytecode = True
import traces
from decode import LINES, words

MOST = 8 * 1024
START_KINDS = ("toggles", "palette", "mixed", "noise", "lines")


class Fault(Exception):
    """What is wrong, in lines, and the files to keep."""

    def __init__(self, lines, **files):
        super().__init__(lines)
        self.lines, self.files = lines, files


def starts(seed):
    """Traces that leave the card shut, locked, powered down, in mid-colour, before data or at some line;
    by turns static sync alone is on, 02 7/13."""
    yield traces.OPEN + traces.write(*traces.CR1A, (0x04, 0x08)[seed // 2 % 2]) if seed % 2 else b""
    for more in range(2):
        chance = traces.Chance(f"start {seed} {more}")
        kind = START_KINDS[(seed + more) % len(START_KINDS)]
        yield traces.trace(kind, chance.below(10 ** 9), 20 + chance.below(400))


def first_part(wanted, found):
    """The first part of a file that differs, both ways."""
    pairs = zip(wanted.splitlines(), found.splitlines())
    return next(f"wanted {a.decode()}, found {b.decode()}" for a, b in pairs if a != b)


def without_line(ends):
    """A file as `ending` prints it, but for the line, which stands last."""
    return ends.rpartition(b"line ")[0]


def check_form(plan, status):
    if status != 0:
        raise Fault([f"exit status {status} with a plan due"], plan=plan)
    if not plan or len(plan) % 8 or len(plan) > MOST:
        raise Fault([f"a plan of {len(plan)} bytes"], plan=plan)
    if any(kind >= LINES for kind in plan[::8]):
        raise Fault(["a plan with a record that is no access"], plan=plan)


def check_codes(start, plan, output):
    """Every record of the plan was answered 0."""
    first = len(start) // 8
    codes = re.findall(rb"^\d+ (\d+) ", output, re.MULTILINE)[first:]
    if len(codes) != len(plan) // 8:
        raise Fault([f"{len(codes)} lines for {len(plan) // 8} records"], start=start, plan=plan)
    for number, code in enumerate(codes):
        if code != b"0":
            record = plan[8 * number:8 * number + 8]
            raise Fault([f"record {number} of the plan: {record.hex(' ').upper()}",
                         words(record), f"answered {code.decode()}"], start=start, plan=plan)


class Plans:
    """Plans are run by the reference and by other replay commands, which must agree with it."""

    def __init__(self, run, reference, ending, others=()):
        self.run, self.reference, self.ending, self.others = run, reference, ending, others

    def check_from(self, start, plan, ends, timing):
        """One plan from one start: its codes, its timing line, the whole file at its end."""
        together = start + plan
        output, _ = self.run(self.reference, together)
        check_codes(start, plan, output)
        last = output.splitlines()[-1]
        if last != timing:
            raise Fault([f"wanted {timing.decode()}", f"found  {last.decode()}"],
                        start=start, plan=plan)
        found, _ = self.run(self.ending, together)
        if without_line(found) != without_line(ends):
            raise Fault(["the plan ends in another file", first_part(ends, found)],
                        start=start, plan=plan)
        for other in self.others:
            if self.run(other, together) != (output, 0):
                raise Fault(["the program and the reference replay the plan differently"],
                            start=start, plan=plan)

    def check(self, command, trace, seed, timing):
        """The snapshot of one trace; whether it had a plan."""
        ends, _ = self.run(self.ending, trace)
        plan, status = self.run(command, trace)
        if not ends.startswith(b"next 0\n"):
            if plan:
                raise Fault(["a plan, though the pointer isn't before red"], plan=plan)
            return False
        check_form(plan, status)
        for start in starts(seed):
            self.check_from(start, plan, ends, timing)
        return True
