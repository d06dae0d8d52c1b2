#!/usr/bin/env python3
"""Writes the slots of the quick engine, crates/quick/src/slots.rt, from the table of cells.

    tools/quick_table.py           write the file
    tools/quick_table.py --check   say whether it is what would be written; exit status 1 if not

The cells are those of crates/places/src/decode.rt, which the proofs hold to the list of places.
Each kind, width and address that is held has a slot of its own, found by a multiplication and a
shift of the record's first four bytes; a multiplier that does that is searched for if the one that
stands in the file no longer does. The proof of `all_slots` holds every slot to the list of places.
"""
import pathlib
import random
import re
import sys

ROOT = pathlib.Path(__file__).resolve().parent.parent
CELLS = ROOT / "crates" / "places" / "src" / "decode.rt"
FILE = ROOT / "crates" / "quick" / "src" / "slots.rt"
SLOTS = 512
SHIFT = 21
FIRST_PORT, PORTS, CONFIG_SPACE, CONFIG, MMIO = 0x3B0, 48, 288, 6, 0x110
CONFIG_IN_MMIO = 0x300
NOTHING = 0x7D
CONFIG_CLASS, PORT_CLASS, MONO_CLASS, COLOUR_CLASS, MMIO_CLASS = range(5)


def cells():
    text = CELLS.read_text()
    start = text.index("const TABLE")
    rows = text[start:text.index('";', start)]
    return bytes(int(digits, 16) for digits in re.findall(r"\\x([0-9A-F]{2})", rows))


def cell_at(table, kind, address):
    """The cell of a kind and an address that both chips have; 7Fh where there is none."""
    space = kind // 2
    if space == 0:
        return table[CONFIG_SPACE + address] if address < CONFIG else 0x7F
    if space == 1:
        at = address - FIRST_PORT
        return table[kind % 2 * PORTS + at] if 0 <= at < PORTS else 0x7F
    if address < MMIO:
        return table[CONFIG_SPACE + CONFIG + address]
    at = address - CONFIG_IN_MMIO
    return table[CONFIG_SPACE + at] if 0 <= at < CONFIG else 0x7F


def class_of(kind, address):
    """What may refuse an access before its place is asked."""
    if kind // 2 == 1:
        return {0x3B: MONO_CLASS, 0x3D: COLOUR_CLASS}.get(address // 16, PORT_CLASS)
    return MMIO_CLASS if kind // 2 == 2 else CONFIG_CLASS


def held(table):
    """A slot for each key: key, limit of values, class, cell."""
    for kind in range(6):
        for address in range(0x400):
            cell = cell_at(table, kind, address)
            if cell % 0x80 < NOTHING:
                width = 1 + cell // 0x80
                limit = 256 ** width if kind % 2 else 1
                yield kind + 256 * width + 65536 * address, limit, class_of(kind, address), cell % 0x80


def place(key, multiplier):
    return key * multiplier >> SHIFT & SLOTS - 1


def multiplier_for(keys, first):
    """One under which no two keys have one slot, from the one that was used before."""
    numbers = random.Random(1)
    multiplier = first
    while len({place(key, multiplier) for key in keys}) < len(keys):
        multiplier = numbers.getrandbits(31)
    return multiplier


def row(slot):
    if not slot[0]:
        return "    EMPTY,"
    return "    slot!(0x%08X, %d, %d, 0x%02X)," % slot


def written(before):
    held_slots = list(held(cells()))
    used = re.search(r"MULTIPLIER: u64 = (\d+)", before)
    multiplier = multiplier_for([slot[0] for slot in held_slots], int(used[1]) if used else 1361702437)
    table = [(0, 0, 0, 0)] * SLOTS
    for slot in held_slots:
        table[place(slot[0], multiplier)] = slot
    return HEAD.replace("@", str(multiplier)) + "\n".join(map(row, table)) + TAIL


HEAD = r"""// Written by tools/quick_table.py: a slot for each kind, width and address that is held, found by a record's first four bytes as one number, its key.
ghost use Rattle.std.specs.Prelude.{T, ◌<◌};
ghost use Rattle.file.specs.declared.chip.Chip.TheVariants.{Gd5462, Gd5464};
ghost use Rattle.places.specs.EngineCells.{cell_table};
ghost use Rattle.quick.specs.Slots.{slots_true};

pub const SLOTS: usize = 512;

const MULTIPLIER: u64 = @;

const DIVISOR: u64 = 2_097_152;

// The limit is the first value that doesn't fit, and 0 where no key has the slot; the class is what may refuse; the cell is the place's.
#[derive(Clone, Copy)]
pub struct Slot {
    pub key: u32,
    pub limit: u32,
    pub class: u8,
    pub cell: u8,
}

const EMPTY: Slot = Slot {
    key: 0,
    limit: 0,
    class: 0,
    cell: 0,
};

macro_rules! slot {
    ($key:expr, $limit:expr, $class:expr, $cell:expr) => {
        Slot {
            key: $key,
            limit: $limit,
            class: $class,
            cell: $cell,
        }
    };
}

static TABLE: [Slot; SLOTS] = [
"""

TAIL = """
];

// The slots of both chips, lent.
pub fn all_slots() -> &'static [Slot; SLOTS]
    ensures { T (slots_true (cell_table Gd5462) result.now) × T (slots_true (cell_table Gd5464) result.now) }
{
    &TABLE
}

// Where a key may stand.
pub fn slot_of(key: u32) -> usize
    ensures { result < 512 }
{
    (u64::from(key) * MULTIPLIER / DIVISOR % 512) as usize
}
"""


def main():
    before = FILE.read_text() if FILE.exists() else ""
    after = written(before)
    if sys.argv[1:] == ["--check"]:
        sys.exit(0 if before == after else f"{FILE.name}: not what the table of cells makes")
    FILE.write_text(after)


if __name__ == "__main__":
    main()
