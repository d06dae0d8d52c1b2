#!/usr/bin/env python3
"""Prints a record in words, given as 8 bytes in hex.

    decode.py 05011C00FF000000
    decode.py 05 01 1C 00 FF 00 00 00

More bytes are more records; fewer than 8 at the end are a fragment.
"""
import struct
import sys

CONFIG, PORT, MMIO = 0, 1, 2
SPACES = ("config", "port", "MMIO")
VPORT = range(0x100, 0x110, 2)
LINES = 6


def places():
    """01 "Places", 02 6/13, 10/13: (space, address) -> (name, width, held for reads, for writes)."""
    held = {}

    def hold(space, address, name, width=1, reads=True, writes=True):
        held[space, address] = (name, width, reads, writes)

    for base in (0x3B0, 0x3D0):
        hold(PORT, base + 4, "CRX")
        hold(PORT, base + 5, "CR data")
        hold(PORT, base + 10, "status, toggle to index", writes=False)
    hold(PORT, 0x3C0, "attribute")
    hold(PORT, 0x3C1, "AR data", writes=False)
    hold(PORT, 0x3C2, "MISC", reads=False)
    hold(PORT, 0x3CC, "MISC", writes=False)
    hold(PORT, 0x3C4, "SRX")
    hold(PORT, 0x3C5, "SR data")
    hold(PORT, 0x3CE, "GRX")
    hold(PORT, 0x3CF, "GR data")
    for number in [*range(0x1C), 0x1D, 0x1E]:
        hold(MMIO, 4 * number, f"CR{number:X}")
    hold(MMIO, 0x80, "MISC")
    hold(MMIO, 0x84, "SRE")
    hold(MMIO, 0x88, "SR1E")
    for space, first, stride in ((PORT, 0x3C6, 1), (MMIO, 0xA0, 4)):
        names = ("pixel mask", "DAC state, read address", "write address", "pixel data")
        for n, name in enumerate(names):
            hold(space, first + stride * n, name)
    for offset in (0xB0, 0xB8, 0xBC, 0xD4, 0xD5):
        hold(MMIO, offset, f"{offset:X}")
    for offset in (0xC0, 0xCC, 0xCE, 0xD0, 0xD2, 0xE0, 0xE2, 0xE4, 0xE6, 0xE8, *VPORT):
        hold(MMIO, offset, f"{offset:X}", width=2)
    hold(MMIO, 0x140, "the line, on the 5464 alone", width=2, writes=False)
    for address in (0x00, 0x02, 0x04):
        hold(CONFIG, address, f"PCI{address:02X}", width=2)
        hold(MMIO, 0x300 + address, f"PCI{address:02X}", width=2)
    return held


HELD = places()


def place_name(space, write, address):
    around = HELD.get((space, address - 1), ("", 1))
    missing = f"inside {around[0]}" if around[1] == 2 else "not held"
    name, _, reads, writes = HELD.get((space, address), (missing, 0, True, True))
    if not (writes if write else reads):
        name = f"{name}, not held for a {'write' if write else 'read'}"
    return name


def words(record):
    """One record, or a fragment, in words."""
    kind, width, address, value = struct.unpack("<BBHI", record[:8].ljust(8, b"\0"))
    if kind == LINES:
        what = f"kind 6 (lines pass), address {address:04X}h"
    elif kind > LINES:
        what = f"kind {kind} (none), address {address:04X}h"
    else:
        space, write = kind // 2, kind % 2
        what = (f"{SPACES[space]} {'write' if write else 'read'} of {address:04X}h "
                f"({place_name(space, write, address)})")
    text = f"{what}, width {width}, value {value:04X}h"
    return text if len(record) >= 8 else f"fragment of {len(record)} bytes, as: {text}"


def main(arguments):
    if not arguments:
        sys.exit(__doc__.strip())
    try:
        trace = bytes.fromhex("".join(arguments))
    except ValueError:
        sys.exit("decode.py: not bytes in hex")
    for start in range(0, len(trace), 8):
        print(words(trace[start:start + 8]))


if __name__ == "__main__":
    main(sys.argv[1:])
