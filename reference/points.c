/*
 * The open points of 01 as they were settled, one check each (1 to 31; 6 is checked by
 * examples.c and tests/compare, 32 to 35 concern plans), those of 02, then checks over many files.
 * All are made on both chips. With a word the checks of that name alone.
 */
#include "check.h"

#define LENGTH(array) (sizeof (array) / sizeof (array)[0])

/* ---- Chance ---- */

static uint32_t chance_state = 1;

/* xorshift32 */
static uint32_t chance(void)
{
    chance_state ^= chance_state << 13;
    chance_state ^= chance_state >> 17;
    chance_state ^= chance_state << 5;
    return chance_state;
}

static uint32_t below(uint32_t limit)
{
    return chance() % limit;
}

/* ---- 01 "Places" once more, as lists ---- */

static const uint16_t port_reads[] = {
    0x3C0, 0x3C1, 0x3CC, 0x3C4, 0x3C5, 0x3C6, 0x3C7, 0x3C8, 0x3C9, 0x3CE, 0x3CF,
    0x3B4, 0x3B5, 0x3D4, 0x3D5, 0x3BA, 0x3DA,
};
static const uint16_t port_writes[] = {
    0x3C0, 0x3C2, 0x3C4, 0x3C5, 0x3C6, 0x3C7, 0x3C8, 0x3C9, 0x3CE, 0x3CF,
    0x3B4, 0x3B5, 0x3D4, 0x3D5,
};
static const uint16_t mmio8[] = {
    0x00, 0x04, 0x08, 0x0C, 0x10, 0x14, 0x18, 0x1C, 0x20, 0x24, 0x28, 0x2C, 0x30, 0x34, 0x38, 0x3C,
    0x40, 0x44, 0x48, 0x4C, 0x50, 0x54, 0x58, 0x5C, 0x60, 0x64, 0x68, 0x6C, 0x74, 0x78,
    0x80, 0x84, 0x88, 0xA0, 0xA4, 0xA8, 0xAC, 0xB0, 0xB8, 0xBC, 0xD4, 0xD5,
};
static const uint16_t mmio16[] = {
    0xC0, 0xCC, 0xCE, 0xD0, 0xD2, 0xE0, 0xE2, 0xE4, 0xE6, 0xE8, 0x300, 0x302, 0x304,
    0x100, 0x102, 0x104, 0x106, 0x108, 0x10A, 0x10C, 0x10E,
};
static const uint16_t config16[] = { 0x00, 0x02, 0x04 };
static const uint16_t line16 = 0x140;       /* read on the 5464 alone, 02, 10/13 */

static bool listed(uint32_t address, const uint16_t *list, size_t count)
{
    for (size_t i = 0; i < count; i++)
        if (list[i] == address)
            return true;
    return false;
}

/* The width held at an address of a space in a direction; 0 if none. */
static int held_width(int kind, uint32_t address)
{
    switch (kind) {
    case SC_PORT_READ: return listed(address, port_reads, LENGTH(port_reads));
    case SC_PORT_WRITE: return listed(address, port_writes, LENGTH(port_writes));
    case SC_MMIO_READ: case SC_MMIO_WRITE:
        if (address == line16)
            return chip == SC_5464 && kind == SC_MMIO_READ ? 2 : 0;
        return listed(address, mmio8, LENGTH(mmio8)) ? 1
            : listed(address, mmio16, LENGTH(mmio16)) ? 2 : 0;
    default: return listed(address, config16, LENGTH(config16)) ? 2 : 0;
    }
}

/* A sound file out of random accesses; all spaces open and the lock off at the end, at any line. */
static struct sc_file random_file(void)
{
    struct sc_file f = opened();

    for (int i = 0; i < 600; i++) {
        bool wide = below(4) == 0;
        bool mmio = wide || below(2);
        uint16_t address = wide ? mmio16[below(LENGTH(mmio16))]
            : mmio ? mmio8[below(LENGTH(mmio8))] : port_writes[below(LENGTH(port_writes))];
        struct sc_record r = { mmio ? SC_MMIO_WRITE : SC_PORT_WRITE, wide ? 2 : 1, address,
                               wide ? chance() & 0xFFFF : chance() & 0xFF };
        sc_access(&f, &r);
        f.pci04 |= 3;
    }
    f.cr[0x11] &= 0x7F;
    f.line = (uint16_t)below(2049);
    return f;
}

static struct sc_pointer pointer(int address, bool reading, int colour, int red, int green)
{
    return (struct sc_pointer){ (uint8_t)address, reading, (uint8_t)colour,
                                { (uint8_t)red, (uint8_t)green } };
}

static bool points_at(const struct sc_file *f, int address, bool reading, int colour, int red,
                      int green)
{
    struct sc_pointer p = pointer(address, reading, colour, red, green);

    return !memcmp(&f->pointer, &p, sizeof p);
}

static bool entry_is(const uint8_t entry[SC_COLOURS], int red, int green, int blue)
{
    return entry[0] == red && entry[1] == green && entry[2] == blue;
}

static struct sc_file unsound(void)
{
    struct sc_file f = opened();

    f.sr[0x05] = 1;
    return f;
}

/* ---- Replies and runs ---- */

static bool point1(void)
{
    static const uint8_t trace[] = {
        0x00, 0x02, 0x00, 0x00, 0x00, 0x00, 0x00, 0x00,     /* PCI00 reads 1013h */
        0xFE, 0x01, 0x34, 0x12, 0x78, 0x56, 0x34, 0x12,     /* kind FEh: 2 */
    };
    static const uint8_t wanted[] = {
        0x00, 0x00, 0x00, 0x00, 0x13, 0x10, 0x00, 0x00,
        0x02, 0xFE, 0x34, 0x12, 0x00, 0x00, 0x00, 0x00,
    };
    uint8_t replies[16];
    struct sc_file f = opened(), u = unsound();

    memset(replies, 0xEE, sizeof replies);
    return sc_run(&f, trace, 16, replies, 16).count == 2 && !memcmp(replies, wanted, 16)
        && ask(&u, 0xFE, 1, 0x1234, 0) == -12;
}

static bool point2(void)
{
    static const uint8_t trace[7] = { 0x02, 0x01, 0xCC, 0x03 };
    struct sc_file f = opened(), before = f;

    for (size_t length = 1; length <= 7; length++) {
        uint8_t reply[8] = { 9, 9, 9, 9, 9, 9, 9, 9 };
        uint8_t wanted[8] = { 2, 0x02, length > 2 ? 0xCC : 0, length > 3 ? 0x03 : 0 };
        struct sc_progress p = sc_run(&f, trace, length, reply, 8);
        if (p.code != 0 || p.count != 1 || p.rest_length != 0 || p.rest != trace + length)
            return false;
        if (memcmp(reply, wanted, 8) || !same_file(&f, &before))
            return false;
    }
    return true;
}

static bool point3(void)
{
    static const uint8_t trace[20] = { 0, 2, 0, 0, 0, 0, 0, 0, 0, 2, 2, 0, 0, 0, 0, 0, 0, 2, 4, 0 };
    uint8_t replies[24];
    struct sc_file f = opened();
    struct sc_progress two = sc_run(&f, trace, 20, replies, 16);
    struct sc_progress three = sc_run(&f, trace, 20, replies, 24);

    return two.count == 2 && two.rest == trace + 16 && two.rest_length == 4
        && three.count == 3 && three.rest_length == 0 && replies[16] == 2 && replies[18] == 4;
}

static bool point4(void)
{
    static const uint8_t trace[16] = { 0x01, 0x02, 0x04, 0x00, 0x07 };
    uint8_t replies[15];
    struct sc_file f = opened(), before = f;

    memset(replies, 0xEE, sizeof replies);
    struct sc_progress none = sc_run(&f, trace, 16, replies, 7);
    if (none.code != 0 || none.count != 0 || none.rest != trace || none.rest_length != 16)
        return false;
    if (replies[0] != 0xEE || !same_file(&f, &before))
        return false;
    struct sc_progress one = sc_run(&f, trace, 16, replies, 15);
    return one.count == 1 && one.rest_length == 8 && replies[7] == 0 && replies[8] == 0xEE
        && replies[14] == 0xEE && f.pci04 == 7;
}

static bool point5(void)
{
    static const uint8_t bad[8] = { 9 };
    uint8_t reply[8];
    struct sc_file f = opened(), u = unsound(), before = u;
    struct sc_progress p;

    if (sc_run(&f, bad, 8, reply, 8).code != 0 || reply[0] != 2)
        return false;
    memset(reply, 0xEE, sizeof reply);
    p = sc_run(&u, bad, 8, reply, 8);
    if (p.code != 12 || p.count != 0 || p.rest != bad || p.rest_length != 8 || reply[0] != 0xEE)
        return false;
    return sc_run(&u, bad, 0, reply, 8).code == 12 && sc_run(&u, bad, 8, reply, 0).code == 12
        && same_file(&u, &before);
}

/* ---- The order of checks, and codes ---- */

static bool point7(void)
{
    struct sc_file f;

    sc_power_on(&f, chip);
    for (int address = 0; address < 0x10000; address++)
        if (in(&f, address) != -3 || poke(&f, address, 0) != -3 || ask(&f, 2, 2, address, 0) != -3)
            return false;
    if (ask(&f, SC_CONFIG_READ, 1, 0x08, 0) != -4 || in(&f, 0x3CC) != -3)
        return false;
    ask(&f, SC_CONFIG_WRITE, 2, 4, 1);
    if (in(&f, 0x3CC) != 0 || peek(&f, 0x80) != -3)
        return false;
    ask(&f, SC_CONFIG_WRITE, 2, 4, 2);
    return in(&f, 0x3CC) == -3 && peek(&f, 0x80) == 0
        && ask(&f, SC_PORT_READ, 1, 0, 1) == -2;
}

static bool point8(void)
{
    struct sc_file f = opened();

    for (int misc = 0; misc < 2; misc++) {
        out(&f, 0x3C2, misc);
        if (in(&f, 0x3C2) != -16 || out(&f, 0x3CC, 0) != -16 || out(&f, 0x3C1, 0) != -16)
            return false;
        if (out(&f, 0x3BA, 0) != -16 || out(&f, 0x3DA, 0) != -16)
            return false;
        if (ask(&f, SC_PORT_WRITE, 2, 0x3BA, 0) != -16 || ask(&f, SC_PORT_READ, 2, 0x3C2, 0) != -16)
            return false;
        if (in(&f, 0x3CA) != -4 || out(&f, 0x3CA, 0) != -4)
            return false;
    }
    return true;
}

static bool point9(void)
{
    struct sc_file f = opened();

    for (int address = 0; address <= 2; address += 2) {
        if (ask(&f, SC_CONFIG_WRITE, 1, address, 0) != -6 || poke(&f, 0x300 + address, 0) != -6)
            return false;
        if (ask(&f, SC_CONFIG_WRITE, 2, address, 0) != -7 || poke16(&f, 0x300 + address, 0) != -7)
            return false;
    }
    int device = chip == SC_5462 ? 0x00D0 : 0x00D4;
    return peek16(&f, 0x300) == 0x1013 && peek16(&f, 0x302) == device && peek16(&f, 0x304) == 3
        && ask(&f, SC_CONFIG_READ, 2, 0x02, 0) == device;
}

static bool point10(void)
{
    struct sc_file f = opened();

    out(&f, 0x3C0, 0x11);
    if (in(&f, 0x3DA) != -5 || !f.data_next || in(&f, 0x3BA) != 8 || f.data_next)
        return false;
    out(&f, 0x3C2, 0x01);
    out(&f, 0x3C0, 0x11);
    return in(&f, 0x3BA) == -5 && f.data_next && in(&f, 0x3DA) == 8 && !f.data_next;
}

static bool point11(void)
{
    struct sc_file f = opened();

    out(&f, 0x3C4, 0x05);
    return ask(&f, SC_PORT_WRITE, 2, 0x3C5, 0xFFFF) == -6
        && ask(&f, SC_PORT_WRITE, 2, 0x3C4, 0x0F02) == -6 && f.srx == 5
        && ask(&f, SC_PORT_WRITE, 2, 0x3C4, 0x10000) == -2
        && ask(&f, SC_PORT_WRITE, 1, 0x3C4, 0x100) == -2
        && ask(&f, SC_PORT_READ, 2, 0x3D4, 0) == -5 && ask(&f, SC_PORT_READ, 2, 0x3CA, 0) == -4
        && ask(&f, SC_PORT_READ, 2, 0x3C4, 0) == -6 && ask(&f, SC_PORT_READ, 2, 0x3C4, 1) == -2
        && ask(&f, SC_PORT_READ, 0, 0x3C4, 0) == -2 && ask(&f, SC_PORT_READ, 3, 0x3C4, 0) == -2;
}

static bool point12(void)
{
    struct sc_file f = opened();

    for (size_t i = 0; i < LENGTH(mmio16); i++)
        if (peek(&f, mmio16[i]) != -6 || poke(&f, mmio16[i], 0) != -6
            || peek(&f, mmio16[i] + 1) != -17 || poke(&f, mmio16[i] + 1, 0) != -17
            || peek16(&f, mmio16[i] + 1) != -17 || poke16(&f, mmio16[i] + 1, 0) != -17)
            return false;
    for (int address = 1; address <= 5; address += 2)
        if (ask(&f, SC_CONFIG_READ, 1, address, 0) != -17
            || ask(&f, SC_CONFIG_WRITE, 2, address, 0) != -17)
            return false;
    return ask(&f, SC_CONFIG_READ, 1, 6, 0) == -4 && ask(&f, SC_CONFIG_READ, 1, 4, 0) == -6
        && peek16(&f, 0xD4) == -6 && poke16(&f, 0xD4, 0) == -6 && peek(&f, 0xD5) == 0;
}

/* 02 2/13, of an address that is not held: 16, 17 or 4. */
static int not_held(int kind, uint32_t address)
{
    if (held_width(kind ^ 1, address))
        return 16;
    if (address && (held_width(kind, address - 1) == 2 || held_width(kind ^ 1, address - 1) == 2))
        return 17;
    return 4;
}

/* Every address of every space, width and direction, under both MISC[0]. */
static bool point13(void)
{
    for (int misc = 0; misc < 2; misc++)
        for (int kind = 0; kind < 6; kind++)
            for (int width = 1; width <= 2; width++)
                for (int address = 0; address < 0x10000; address++) {
                    struct sc_file f = opened();
                    f.misc = (uint8_t)misc;
                    int held = held_width(kind, (uint32_t)address);
                    bool port = kind == SC_PORT_READ || kind == SC_PORT_WRITE;
                    bool other = port && address >> 4 == (misc ? 0x3B : 0x3D);
                    bool fixed = (kind == SC_CONFIG_WRITE && address < 4)
                        || (kind == SC_MMIO_WRITE && address >= 0x300 && address < 0x304);
                    int wanted = !held ? not_held(kind, (uint32_t)address)
                        : other ? 5 : held != width ? 6 : fixed ? 7 : 0;
                    int got = ask(&f, kind, width, address, 0);
                    if (wanted ? got != -wanted : got < 0)
                        return false;
                }
    return true;
}

/* What an index answers; the lists are those of point 14 and 01 "Stored bits". */
static bool index_answers(int port, int index, int mask, int constant, bool named)
{
    struct sc_file f = opened();

    if (!named)
        return out_at(&f, port, index, 0xFF) == -1 && in_at(&f, port, index) == -1
            && out(&f, port + 1, 0xFF) == -1;
    if (constant >= 0)
        return out_at(&f, port, index, 0xFF) == -7 && in_at(&f, port, index) == constant;
    return out_at(&f, port, index, 0xFF) == 0 && in_at(&f, port, index) == mask
        && out(&f, port + 1, 0x55) == 0 && in(&f, port + 1) == (mask & 0x55)
        && out(&f, port + 1, 0xAA) == 0 && in(&f, port + 1) == (mask & 0xAA);
}

static int sr_bits(int n)
{
    switch (n) {
    case 0x00: return 0x03;
    case 0x01: return 0x3D;
    case 0x02: return 0x0F;
    case 0x03: return 0x3F;
    case 0x04: return 0x0E;
    case 0x07: return 0x01;
    case 0x09: case 0x0A: case 0x14: case 0x15: return 0xFF;
    default: return n >= 0x0B && n <= 0x0E ? 0xFF : n >= 0x1B && n <= 0x1E ? 0x7F : 0;
    }
}

static int cr_bits(int n)
{
    switch (n) {
    case 0x08: case 0x0B: case 0x14: return 0x7F;
    case 0x0A: return 0x3F;
    case 0x17: return 0xEF;
    case 0x1D: return 0x18;
    default: return n <= 0x1E && n != 0x1C ? 0xFF : 0;
    }
}

static int gr_bits(int n)
{
    static const uint8_t bits[] = { 0x0F, 0x0F, 0x0F, 0x1F, 0x03, 0x7B, 0x0F, 0x0F, 0xFF };

    return n < 9 ? bits[n] : 0;
}

static int ar_bits(int n)
{
    return n <= 0x0F ? 0x3F : n == 0x10 ? 0xEF : n == 0x11 ? 0xFF : n == 0x12 ? 0x3F
        : n <= 0x14 ? 0x0F : 0;
}

static bool attribute_answers(int index)
{
    struct sc_file f = opened();
    int bits = ar_bits(index & 0x1F);
    int done = bits ? 0 : -1;

    return out(&f, 0x3C0, index) == 0 && f.data_next && in(&f, 0x3C0) == (index & 0x3F)
        && out(&f, 0x3C0, 0xFF) == done && !f.data_next
        && in(&f, 0x3C1) == (bits ? bits : -1) && !f.data_next;
}

static bool point14(void)
{
    for (int n = 0; n < 0x20; n++)
        if (!index_answers(0x3C4, n, sr_bits(n), n == 6 ? 0x12 : -1, n == 6 || sr_bits(n)))
            return false;
    for (int n = 0; n < 0x40; n++) {
        bool shows = n == 0x24 || n == 0x26;
        if (!index_answers(0x3B4, n, cr_bits(n), shows ? 0 : -1, shows || cr_bits(n)))
            return false;
        if (!index_answers(0x3CE, n, gr_bits(n), -1, gr_bits(n)))
            return false;
    }
    for (int n = 0; n < 0x100; n++)
        if (!attribute_answers(n))
            return false;
    return true;
}

static bool point15(void)
{
    struct sc_file f = opened();

    return out(&f, 0x3C4, 0x26) == 0 && in(&f, 0x3C5) == 0x12 && in(&f, 0x3C4) == 0x06
        && poke(&f, 0x00, 0x5F) == 0 && out(&f, 0x3B4, 0x40) == 0 && in(&f, 0x3B5) == 0x5F
        && out(&f, 0x3CE, 0xC8) == 0 && in(&f, 0x3CE) == 0x08
        && out(&f, 0x3C0, 0xE3) == 0 && in(&f, 0x3C0) == 0x23 && out(&f, 0x3C0, 0x2A) == 0
        && f.ar[3] == 0x2A;
}

static bool point16(void)
{
    struct sc_file f = opened();

    out(&f, 0x3B4, 0x0A);
    out(&f, 0x3C4, 0x02);
    for (int misc = 0; misc < 2; misc++) {
        poke(&f, 0x80, misc);
        if (poke(&f, 4 * 0x0C, 0x34 + misc) != 0 || f.cr[0x0C] != 0x34 + misc)
            return false;
        if (poke(&f, 0x84, 0x91) != 0 || poke(&f, 0x88, 0xFF) != 0)
            return false;
    }
    if (f.crx != 0x0A || f.srx != 0x02 || f.sr[0x0E] != 0x91 || f.sr[0x1E] != 0x7F)
        return false;
    poke(&f, 0x44, 0x80);
    for (int n = 0; n <= 6; n++)
        if (poke(&f, 4 * n, 1) != -8 || out_at(&f, 0x3D4, n, 1) != -8)
            return false;
    return poke(&f, 0x20, 0x7F) == 0 && poke(&f, 0x44, 0) == 0 && poke(&f, 0, 1) == 0;
}

static bool point17(void)
{
    for (int road = 0; road < 2; road++)
        for (int old = 0; old < 256; old++)
            for (int value = 0; value < 256; value += 17) {
                struct sc_file f = opened();
                f.cr[7] = (uint8_t)old;
                if (poke(&f, 0x44, 0xFF) != 0)
                    return false;
                if (road ? out_at(&f, 0x3B4, 7, value) : poke(&f, 0x1C, value))
                    return false;
                if (f.cr[7] != ((old & 0xEF) | (value & 0x10)) || poke(&f, 0x44, 0x0F) != 0)
                    return false;
            }
    return true;
}

static bool point18(void)
{
    struct sc_file f = opened();

    return poke16(&f, 0x304, 0x0001) == 0 && peek16(&f, 0x304) == -3
        && ask(&f, SC_CONFIG_READ, 2, 4, 0) == 1 && in(&f, 0x3CC) == 0;
}

/* Does a read at either width leave this file? */
static bool read_leaves(const struct sc_file *file, int kind, int address)
{
    struct sc_file f = *file;

    ask(&f, kind, 1, address, 0);
    ask(&f, kind, 2, address, 0);
    return same_file(&f, file);
}

/* All reads but those of 3?Ah and pixel data leave the file. */
static bool point19(void)
{
    for (int round = 0; round < 100; round++) {
        struct sc_file f = random_file();
        for (int address = 0; address < 0x400; address++) {
            bool moves = address == 0x3C9 || address == 0x3BA || address == 0x3DA;
            if (!read_leaves(&f, SC_CONFIG_READ, address))
                return false;
            if (!moves && !read_leaves(&f, SC_PORT_READ, address))
                return false;
            if (address != 0xAC && !read_leaves(&f, SC_MMIO_READ, address))
                return false;
        }
    }
    return true;
}

/* ---- Attribute and palette ---- */

static bool point20(void)
{
    struct sc_file f = opened();

    out(&f, 0x3C0, 0x31);
    if (in(&f, 0x3C0) != 0x31 || in(&f, 0x3C1) != 0 || in_at(&f, 0x3B4, 0x24) != 0x80)
        return false;
    if (in_at(&f, 0x3B4, 0x26) != 0x31 || out(&f, 0x3C0, 0x5A) != 0 || in(&f, 0x3C1) != 0x5A)
        return false;
    return in(&f, 0x3C0) == 0x31 && in_at(&f, 0x3B4, 0x24) == 0x00
        && out_at(&f, 0x3B4, 0x24, 0) == -7 && out_at(&f, 0x3B4, 0x26, 0) == -7;
}

static bool point21(void)
{
    struct sc_file f = opened();

    out(&f, 0x3C8, 0x2F);
    out(&f, 0x3C9, 1);
    out(&f, 0x3C9, 2);
    if (poke(&f, 0xB0, 0x08) != 0 || !points_at(&f, 0x2F, false, SC_BLUE, 1, 2))
        return false;
    out(&f, 0x3C9, 3);
    if (!entry_is(f.bank[0x0F], 1, 2, 3) || !entry_is(f.palette[0x2F], 0, 0, 0))
        return false;
    if (!points_at(&f, 0x30, false, SC_RED, 0, 0) || in(&f, 0x3C8) != 0x30)
        return false;
    memcpy(f.palette[0x1F], "\7\10\11", 3);
    out(&f, 0x3C7, 0x1F);
    if (in(&f, 0x3C9) != 1 || poke(&f, 0xB0, 0) != 0 || in(&f, 0x3C9) != 8)
        return false;
    return poke(&f, 0xB0, 8) == 0 && peek(&f, 0xAC) == 3 && peek(&f, 0xA8) == 0x20;
}

static bool point22(void)
{
    struct sc_file f = opened();

    memcpy(f.palette[5], "\21\22\23", 3);
    out(&f, 0x3C8, 5);
    out(&f, 0x3C9, 0x61);
    if (in(&f, 0x3C9) != 0x12 || !points_at(&f, 5, false, SC_BLUE, 0x61, 0))
        return false;
    if (out(&f, 0x3C9, 0x63) != 0 || !entry_is(f.palette[5], 0x61, 0, 0x63))
        return false;
    out(&f, 0x3C8, 5);
    out(&f, 0x3C9, 0x71);
    out(&f, 0x3C9, 0x72);
    if (in(&f, 0x3C9) != 0x63 || !points_at(&f, 6, false, SC_RED, 0, 0))
        return false;
    out(&f, 0x3C8, 5);
    out(&f, 0x3C9, 0x71);
    return out(&f, 0x3C8, 9) == 0 && points_at(&f, 9, false, SC_RED, 0, 0)
        && entry_is(f.palette[5], 0x61, 0, 0x63);
}

static bool point23(void)
{
    struct sc_file f = opened();

    out(&f, 0x3C7, 0xFE);
    for (int i = 0; i < 6; i++)
        if (in(&f, 0x3C7) != 3 || peek(&f, 0xA4) != 3 || out(&f, 0x3C9, i) != 0)
            return false;
    if (!points_at(&f, 0, true, SC_RED, 0, 0) || !entry_is(f.palette[0xFF], 3, 4, 5))
        return false;
    if (in(&f, 0x3C8) != 0 || out(&f, 0x3C8, 0x44) != 0 || in(&f, 0x3C7) != 0)
        return false;
    return in(&f, 0x3C9) == 0 && in(&f, 0x3C7) == 0 && peek(&f, 0xA8) == 0x44
        && poke(&f, 0xA4, 0x45) == 0 && peek(&f, 0xA8) == 0x45 && peek(&f, 0xA4) == 3;
}

/* A register at an MMIO offset that holds a value: is the palette down, and pixel data alone? */
static bool stops(int offset, int value)
{
    struct sc_file f = opened();

    out(&f, 0x3C8, 7);
    out(&f, 0x3C9, 1);
    if (poke(&f, offset, value) != 0 || in(&f, 0x3C9) != -9 || out(&f, 0x3C9, 2) != -9
        || peek(&f, 0xAC) != -9 || poke(&f, 0xAC, 2) != -9
        || !points_at(&f, 7, false, SC_GREEN, 1, 0))
        return false;
    if (in(&f, 0x3C8) != 7 || peek(&f, 0xA8) != 7 || in(&f, 0x3C7) != 0 || peek(&f, 0xA4) != 0
        || out(&f, 0x3C8, 9) != 0 || poke(&f, 0xA8, 9) != 0 || poke(&f, 0xA4, 8) != 0)
        return false;
    return out(&f, 0x3C7, 8) == 0 && out(&f, 0x3C6, 0x5A) == 0
        && in(&f, 0x3C6) == 0x5A && peek(&f, 0xA0) == 0x5A && points_at(&f, 8, true, SC_RED, 0, 0)
        && poke(&f, offset, 0) == 0 && in(&f, 0x3C9) == 0;
}

static bool point24(void)
{
    return stops(0xB0, 0x80) && stops(0xB0, 0x88);
}

/* 02, 7/13: CR1A's bits 3 and 2, each by itself and with all others; no other bit of it. */
static bool static_sync(void)
{
    for (int value = 0; value < 0x100; value++) {
        struct sc_file f = opened();
        bool down = (value & 8) || (value & 4);
        if (down && !stops(0x68, value))
            return false;
        if (out_at(&f, 0x3B4, 0x1A, value) != 0 || in(&f, 0x3C9) != (down ? -9 : 0))
            return false;
    }
    return true;
}

/* Every pointer with held bytes 0 or not; B0's low bits by the last access (02, 1/13). */
static bool point25(void)
{
    for (int colour = 0; colour < 256; colour++)
        for (int held = 0; held < 4; held++) {
            struct sc_file f = opened();
            int red = held & 1 ? 0x80 : 0, green = held & 2 ? 1 : 0;
            bool sound = (colour == 0 && held == 0) || (colour == 1 && green == 0) || colour == 2;
            f.pointer = pointer(3, true, colour, red, green);
            if (sc_sound(&f) != sound)
                return false;
            if (peek(&f, 0xB0) != (sound ? SC_BLUE : -12))
                return false;
        }
    return true;
}

/* 02, 1/13: "after a 3C7h write we see 'read' before anything was read". */
static bool last_access(void)
{
    struct sc_file f = opened();

    if (peek(&f, 0xB0) != 2 || out(&f, 0x3C7, 9) != 0 || peek(&f, 0xB0) != 2 || in(&f, 0x3C7) != 3)
        return false;
    if (in(&f, 0x3C9) != 0 || peek(&f, 0xB0) != 4 || peek(&f, 0xAC) != 0 || peek(&f, 0xB0) != 5)
        return false;
    if (out(&f, 0x3C8, 1) != 0 || peek(&f, 0xB0) != 5 || poke(&f, 0xAC, 7) != 0
        || peek(&f, 0xB0) != 0)
        return false;
    if (poke(&f, 0xB0, 0x88) != 0 || in(&f, 0x3C9) != -9 || out(&f, 0x3C9, 1) != -9
        || peek(&f, 0xB0) != 0x88)
        return false;
    f.last.colour = 3;
    return !sc_sound(&f) && peek(&f, 0xB0) == -12;
}

/* ---- Timing, cursor, window ---- */

/* 01 "Timing", read the slow way: pieces written out, ends found by counting up. */
static uint32_t count_up(uint32_t start, uint32_t low, unsigned bits)
{
    uint32_t end = start + 1;

    while (end % (1u << bits) != low)
        end++;
    return end;
}

static uint32_t bits_of(uint8_t byte, int high, int low)
{
    return (uint32_t)(byte >> low) % (2u << (high - low));
}

static struct sc_timing slow_timing(const struct sc_file *f)
{
    const uint8_t *cr = f->cr;
    bool wide = bits_of(cr[0x1B], 5, 5) || bits_of(cr[0x1B], 7, 7);
    uint32_t n[SC_NUMBERS];

    n[0] = 256 * bits_of(cr[0x1E], 7, 7) + cr[0] + 5;
    n[1] = 256 * bits_of(cr[0x1E], 6, 6) + cr[1] + 1;
    n[2] = 256 * bits_of(cr[0x1E], 5, 5) + cr[2];
    n[3] = 32 * bits_of(cr[5], 7, 7) + bits_of(cr[3], 4, 0);
    n[3] = wide ? count_up(n[2], 64 * bits_of(cr[0x1A], 5, 4) + n[3], 8) : count_up(n[2], n[3], 6);
    n[4] = 256 * bits_of(cr[0x1E], 4, 4) + cr[4];
    n[5] = count_up(n[4], bits_of(cr[5], 4, 0), 5);
    n[6] = 1024 * bits_of(cr[0x1E], 3, 3) + 512 * bits_of(cr[7], 5, 5) + 256 * bits_of(cr[7], 0, 0)
        + cr[6] + 2;
    n[7] = 1024 * bits_of(cr[0x1E], 2, 2) + 512 * bits_of(cr[7], 6, 6) + 256 * bits_of(cr[7], 1, 1)
        + cr[0x12] + 1;
    n[8] = 1024 * bits_of(cr[0x1E], 1, 1) + 512 * bits_of(cr[9], 5, 5) + 256 * bits_of(cr[7], 3, 3)
        + cr[0x15];
    n[9] = wide ? count_up(n[8], 256 * bits_of(cr[0x1A], 7, 6) + cr[0x16], 10)
        : count_up(n[8], cr[0x16], 8);
    n[10] = 1024 * bits_of(cr[0x1E], 0, 0) + 512 * bits_of(cr[7], 7, 7)
        + 256 * bits_of(cr[7], 2, 2) + cr[0x10];
    n[11] = count_up(n[10], bits_of(cr[0x11], 3, 0), 4);
    n[12] = 512 * bits_of(cr[9], 6, 6) + 256 * bits_of(cr[7], 4, 4) + cr[0x18];
    n[13] = 256 * bits_of(cr[0x1B], 4, 4) + cr[0x13];
    n[14] = 524288 * bits_of(cr[0x1D], 4, 3) + 131072 * bits_of(cr[0x1B], 3, 2)
        + 65536 * bits_of(cr[0x1B], 0, 0) + 256u * cr[0x0C] + cr[0x0D];

    struct sc_timing t;
    memcpy(t.number, n, sizeof n);
    return t;
}

static struct sc_timing random_timing(bool wide)
{
    struct sc_timing t = { {
        5 + below(512), 1 + below(512), below(512), 0, below(512), 0,
        2 + below(2048), 1 + below(2048), below(2048), 0, below(2048), 0,
        below(1024), below(512), below(2097152),
    } };

    t.number[3] = t.number[2] + 1 + below(wide ? 256 : 64);
    t.number[5] = t.number[4] + 1 + below(32);
    t.number[9] = t.number[8] + 1 + below(wide ? 1024 : 256);
    t.number[11] = t.number[10] + 1 + below(16);
    return t;
}

static bool is_wide(const struct sc_file *f)
{
    return f->cr[0x1B] & 0xA0;
}

static bool same_timing(const struct sc_timing *a, const struct sc_timing *b)
{
    return !memcmp(a, b, sizeof *a);
}

static bool timing_read(void)
{
    for (int round = 0; round < 4000; round++) {
        struct sc_file f = random_file();
        struct sc_timing t, slow = slow_timing(&f);
        if (sc_timing_read(&f, &t) != 0 || !same_timing(&t, &slow))
            return false;
    }
    return true;
}

static bool timing_kept(void)
{
    for (int round = 0; round < 4000; round++) {
        struct sc_file f = random_file(), before = f;
        struct sc_timing t, read;
        sc_timing_read(&f, &t);
        if (sc_timing_write(&f, &t) != 0 || !same_file(&f, &before))
            return false;
        t = random_timing(is_wide(&f));
        if (sc_timing_write(&f, &t) != 0 || sc_timing_read(&f, &read) != 0)
            return false;
        if (!same_timing(&t, &read) || !sc_sound(&f) || is_wide(&f) != is_wide(&before))
            return false;
    }
    return true;
}

/* 02, 7/13: a timing write leaves static sync as it was; the lock doesn't bear on CR1A. */
static bool sync_kept(void)
{
    struct sc_file f = opened();

    if (poke(&f, 0x44, 0x80) != 0 || poke(&f, 0x68, 0x08) != 0 || in(&f, 0x3C9) != -9
        || poke(&f, 0x68, 0xF3) != 0 || in(&f, 0x3C9) != 0)
        return false;
    for (int round = 0; round < 4000; round++) {
        struct sc_file g = random_file();
        struct sc_timing t = random_timing(is_wide(&g));
        int before = g.cr[0x1A];
        if (sc_timing_write(&g, &t) != 0 || ((g.cr[0x1A] ^ before) & 0x0C))
            return false;
    }
    return true;
}

/* Point 26: each number at its least and greatest is written, one beyond gives 10. */
static bool point26(void)
{
    static const uint32_t least[SC_NUMBERS] = { 5, 1, 0, 1, 0, 1, 2, 1, 0, 1, 0, 1, 0, 0, 0 };
    static const uint32_t narrow[SC_NUMBERS] = { 512, 512, 512, 64, 512, 32, 2048, 2048, 2048, 256,
                                                 2048, 16, 1024, 512, 2097152 };

    for (int round = 0; round < 400; round++)
        for (int i = 0; i < SC_NUMBERS; i++) {
            struct sc_file f = random_file();
            bool wide = is_wide(&f), end = i == 3 || i == 5 || i == 9 || i == 11;
            struct sc_timing t = random_timing(wide), read;
            uint32_t low = least[i] + (end ? t.number[i - 1] : 0);
            uint32_t values = wide && (i == 3 || i == 9) ? 4 * narrow[i] : narrow[i];
            uint32_t tried[] = { low, low + values - 1, low - 1, low + values, 0xFFFFFFFF };
            for (int k = 0; k < 5; k++) {
                struct sc_file g = f;
                if (i == 2 || i == 4 || i == 8 || i == 10)
                    t.number[i + 1] = tried[k] + 1;
                t.number[i] = tried[k];
                int code = sc_timing_write(&g, &t);
                sc_timing_read(&g, &read);
                if (code != (k < 2 ? 0 : 10))
                    return false;
                if (code ? !same_file(&f, &g) : !same_timing(&t, &read))
                    return false;
            }
        }
    return true;
}

/* Point 27: the bits of each CR that the writer may move, narrow and wide. */
static bool point27(void)
{
    static const uint8_t moved[0x1F] = {
        0xFF, 0xFF, 0xFF, 0x1F, 0xFF, 0x9F, 0xFF, 0xFF,
        0x00, 0x60, 0x00, 0x00, 0xFF, 0xFF, 0x00, 0x00,
        0xFF, 0x0F, 0xFF, 0xFF, 0x00, 0xFF, 0xFF, 0x00,
        0xFF, 0x00, 0xF0, 0x1D, 0x00, 0x18, 0xFF,
    };

    for (int round = 0; round < 4000; round++) {
        struct sc_file f = random_file(), before = f;
        struct sc_timing t = random_timing(is_wide(&f));
        if (sc_timing_write(&f, &t) != 0)
            return false;
        for (int n = 0; n < 0x1F; n++)
            if ((f.cr[n] ^ before.cr[n]) & ~(n == 0x1A && !is_wide(&f) ? 0 : moved[n]))
                return false;
        memcpy(f.cr, before.cr, sizeof f.cr);
        if (!same_file(&f, &before))
            return false;
    }
    return true;
}

static bool point28(void)
{
    struct sc_file f, before;
    struct sc_timing t;

    sc_power_on(&f, chip);
    sc_timing_read(&f, &t);
    t.number[SC_OFFSET] = 40;
    if (sc_timing_write(&f, &t) != 0 || f.cr[0x13] != 40)
        return false;
    f.cr[0x11] = 0x80;
    before = f;
    sc_timing_read(&f, &t);
    if (sc_timing_write(&f, &t) != 8)
        return false;
    t.number[SC_H_TOTAL] = 4;
    if (sc_timing_write(&f, &t) != 8 || !same_file(&f, &before))
        return false;
    f.cr[0x1F] = 1;
    return sc_timing_write(&f, &t) == 12;
}

static bool point29(void)
{
    static const uint16_t presets[] = { 0x0000, 0x0A00, 0x3F3F, 0x4040, 0x7F7F, 0x007F, 0x7F00 };
    struct sc_file f = opened();
    struct sc_cursor c;

    poke16(&f, 0xE0, 0x0FFF);
    poke16(&f, 0xE8, 0xFFFF);
    poke16(&f, 0xE6, 0xFFFE);
    for (size_t i = 0; i < LENGTH(presets); i++) {
        int x = presets[i] >> 8, y = presets[i] & 0xFF;
        uint32_t width = x < 64 ? 64 - (uint32_t)x : 0, height = y < 64 ? 64 - (uint32_t)y : 0;
        poke16(&f, 0xE4, presets[i] | 0x8080);
        if (sc_cursor_read(&f, &c) != 0 || c.left != 4095 - x || c.top != -y || c.enabled)
            return false;
        if (c.width != width || c.height != height)
            return false;
    }
    poke16(&f, 0xE6, 1);
    return sc_cursor_read(&f, &c) == 0 && c.enabled && c.image == 8191u * 1024
        && peek16(&f, 0xE8) == 0x7FFC && peek16(&f, 0xE6) == 1;
}

static bool point30(void)
{
    struct sc_file f = opened();
    struct sc_window2 w;

    if (sc_window2_read(&f, &w) != 0 || !w.empty || w.fault || w.enabled || w.bottom != 0)
        return false;
    poke(&f, 4 * 0x06, 98);     /* V total 100 */
    poke(&f, 4 * 0x12, 79);     /* V display 80 */
    poke16(&f, 0xCC, 10);
    poke16(&f, 0xCE, 79);
    poke16(&f, 0xD0, 11);
    poke16(&f, 0xD2, 100);
    poke(&f, 0xD4, 0xFF);
    poke(&f, 0xD5, 0xC1);
    if (sc_window2_read(&f, &w) != 0 || w.empty || w.fault || !w.enabled || !w.format)
        return false;
    if (w.left != 10 || w.top != 79 || w.right != 11 || w.bottom != 80)
        return false;
    if (w.blt_scanlines[0] != 64 * 63 || w.blt_scanlines[1] != 64)
        return false;
    poke16(&f, 0xD2, 101);
    poke16(&f, 0xCE, 80);
    poke(&f, 0xD4, 0x40);
    if (sc_window2_read(&f, &w) != 0 || !w.empty || !w.fault || w.enabled || !w.format)
        return false;
    poke16(&f, 0xCE, 0);
    poke16(&f, 0xD0, 10);
    poke16(&f, 0xD2, 50);
    return sc_window2_read(&f, &w) == 0 && w.empty && !w.fault && w.bottom == 50 && w.top == 0;
}

static bool point31(void)
{
    static const struct sc_timing zeros;
    struct sc_file f = random_file();
    struct sc_timing t;
    struct sc_cursor c;
    struct sc_window2 w;

    f.pipe[SC_D4] = 0xFF;
    f.pipe[SC_E6] = 0x1101;
    f.pipe[SC_D2] = 0x1000;
    if (sc_timing_read(&f, &t) != 12 || !same_timing(&t, &zeros))
        return false;
    if (sc_cursor_read(&f, &c) != 12 || c.enabled
        || c.left || c.top || c.width || c.height || c.image)
        return false;
    return sc_window2_read(&f, &w) == 12 && !w.enabled && !w.format && !w.fault && w.empty
        && !w.left && !w.top && !w.right && !w.bottom && !w.blt_scanlines[0] && !w.blt_scanlines[1];
}

/* ---- 02, 6/13 ---- */

/* What the register at 100h plus twice the number stores; 10Ch by the chip. */
static int vport_bits(int number)
{
    static const uint16_t bits[] = { 0x1F00, 0x1F00, 0x3FFF, 0x3FFF, 0x03FF, 0x03FF, 0, 0x01FF };

    return number != 6 ? bits[number] : chip == SC_5462 ? 0xF3DF : 0x01FF;
}

/* What it reads if it stores this. */
static int vport_shown(int number, int stored)
{
    return chip == SC_5462 && number == 6 ? stored | 0x0C00 : stored;
}

/* Each register by itself: what it starts with, what it keeps of many values, no other moving. */
static bool vport_registers(void)
{
    for (int number = 0; number < SC_VPORTS; number++) {
        struct sc_file f = opened();
        int address = 0x100 + 2 * number;
        if (peek16(&f, address) != (chip == SC_5462 && number == 6 ? 0x0C90 : 0))
            return false;
        for (int round = 0; round < 2000; round++) {
            struct sc_file before = f;
            int value = round < 16 ? 1 << round : round == 16 ? 0xFFFF : (int)below(0x10000);
            int stored = value & vport_bits(number);
            if (poke16(&f, address, value) != 0
                || peek16(&f, address) != vport_shown(number, stored))
                return false;
            before.vport[number] = (uint16_t)stored;
            if (!same_file(&f, &before))
                return false;
        }
    }
    return true;
}

/* The lock and the palette's power-down don't bear on them; no port and no config road leads there. */
static bool vport_roads(void)
{
    struct sc_file f = opened();

    poke(&f, 0x44, 0x80);
    poke(&f, 0xB0, 0x80);
    for (int address = 0x100; address < 0x110; address += 2)
        if (poke16(&f, address, 0xFFFF) != 0 || peek16(&f, address) <= 0
            || ask(&f, SC_PORT_READ, 2, address, 0) != -4
            || ask(&f, SC_CONFIG_READ, 2, address, 0) != -4)
            return false;
    for (int address = 0x110; address < 0x120; address++)
        if (peek(&f, address) != -4 || poke(&f, address, 0) != -4
            || peek16(&f, address) != -4 || poke16(&f, address, 0) != -4)
            return false;
    return ask(&f, SC_CONFIG_WRITE, 2, 0x04, 1) == 0 && peek16(&f, 0x100) == -3;
}

static bool capture(void)
{
    static const struct sc_capture zeros;
    struct sc_file f = opened();
    struct sc_capture c;

    if (sc_capture_read(&f, &c) != 0 || memcmp(&c, &zeros, sizeof c))
        return false;
    for (int round = 0; round < 2000; round++) {
        for (int address = 0x108; address < 0x110; address += 2)
            if (poke16(&f, address, (int)below(0x10000)) != 0)
                return false;
        uint32_t top = chip == SC_5462 ? 0 : (uint32_t)peek16(&f, 0x10C);
        if (sc_capture_read(&f, &c) != 0 || c.x_start != (uint32_t)peek16(&f, 0x108)
            || c.x_stop != (uint32_t)peek16(&f, 0x10A) || c.y_start != top
            || c.y_stop != (uint32_t)peek16(&f, 0x10E))
            return false;
    }
    f.vport[SC_10C] = 0x8001;
    f.chip = SC_5464;
    return sc_capture_read(&f, &c) == 12 && !memcmp(&c, &zeros, sizeof c);
}

/* A refused restore leaves the current file and the buffer; its code, or -1. */
static int refused(struct sc_file *current, const struct sc_file *wanted, size_t room)
{
    uint8_t buffer[SC_PLAN_BYTES], found[SC_PLAN_BYTES];
    struct sc_file before = *current;
    size_t count;

    memset(buffer, 0xEE, sizeof buffer);
    memset(found, 0xEE, sizeof found);
    int code = sc_restore(current, wanted, buffer, room, &count);
    return count == 0 && same_file(current, &before) && !memcmp(buffer, found, sizeof found)
        ? code : -1;
}

/* 12, 15, 13, 11, each before the ones behind it. */
static bool restore_order(void)
{
    struct sc_file good = opened(), bad = unsound(), other, inside = good;
    struct sc_file far;

    sc_power_on(&other, chip == SC_5462 ? SC_5464 : SC_5462);
    inside.pointer.colour = SC_GREEN;
    far = other;
    far.pointer.colour = SC_GREEN;
    return refused(&bad, &far, 0) == 12 && refused(&good, &bad, 0) == 12
        && refused(&good, &far, 0) == 15 && refused(&good, &other, SC_PLAN_BYTES) == 15
        && refused(&good, &inside, 0) == 13 && refused(&good, &good, SC_PLAN_BYTES - 1) == 11;
}

/* Does the plan of a buffer, run from a file, answer 0 to each of its records? */
static bool all_done(struct sc_file f, const uint8_t *plan, size_t count)
{
    uint8_t replies[SC_PLAN_BYTES];

    if (sc_run(&f, plan, SC_RECORD_BYTES * count, replies, sizeof replies).count != count)
        return false;
    for (size_t i = 0; i < count; i++)
        if (replies[SC_REPLY_BYTES * i] != 0)
            return false;
    return true;
}

/*
 * A restore of any file from any file of its chip ends in it, with the line it had (02, 10/13); no
 * record of the plan is refused, and all are of kinds 0 to 5.
 */
static bool restored(void)
{
    uint8_t buffer[SC_PLAN_BYTES];

    for (int round = 0; round < 400; round++) {
        struct sc_file wanted = random_file(), current = random_file(), start = current;
        size_t count;
        wanted.pointer = pointer((int)below(256), below(2), SC_RED, 0, 0);
        if (sc_restore(&current, &wanted, buffer, sizeof buffer, &count) != 0
            || count > 1024 || !same_but_line(&current, &wanted) || current.line != start.line
            || !all_done(start, buffer, count))
            return false;
        for (size_t i = 0; i < count; i++)
            if (buffer[SC_RECORD_BYTES * i] > SC_MMIO_WRITE)
                return false;
    }
    return true;
}

/* ---- 02, 9/13 ---- */

static bool seen[256];

/* Marks the codes that accesses to a file draw, made at random from a few addresses of each kind. */
static void see_accesses(struct sc_file f)
{
    for (int i = 0; i < 4000; i++) {
        uint32_t kind = below(8), address = kind < 2 ? below(6) : kind < 4 ? 0x3B0 + below(0x30)
            : below(0x112);
        struct sc_record r = { (uint8_t)kind, (uint8_t)(1 + below(2)), (uint16_t)address,
                               kind & 1 ? below(0x100) : 0 };
        seen[sc_access(&f, &r).code] = true;
    }
}

/* The same of the timing writer and of restores: sound files or not, one chip or two, any room. */
static void see_calls(void)
{
    static uint8_t buffer[SC_PLAN_BYTES];
    enum sc_chip both[] = { SC_5462, SC_5464 };
    struct sc_file f = random_file(), g = below(8) ? f : unsound();
    struct sc_timing t = random_timing(is_wide(&f));
    struct sc_set empty = { 0 };
    size_t count;

    t.number[below(SC_NUMBERS)] += below(2) << 20;
    f.cr[0x11] |= (uint8_t)(below(2) << 7);
    seen[sc_timing_write(&f, &t)] = true;
    seen[sc_timing_write(&g, &t)] = true;
    sc_power_on(&f, both[below(2)]);
    f.pointer.colour = below(3) ? SC_RED : SC_GREEN;
    seen[sc_plan(&f, buffer, SC_PLAN_BYTES - below(2), &count)] = true;
    seen[sc_restore(&g, &f, buffer, SC_PLAN_BYTES - below(2), &count)] = true;
    seen[sc_short_plan(&g, &f, &empty, buffer, SC_PLAN_BYTES, &count)] = true;
}

/* The list of codes: 14 is unused, and all others are drawn. */
static bool code_list(void)
{
    memset(seen, 0, sizeof seen);
    for (int round = 0; round < 200; round++) {
        see_accesses(random_file());
        see_calls();
    }
    see_accesses(unsound());
    for (int code = 0; code < 256; code++)
        if (seen[code] != ((code <= SC_INSIDE_WIDER && code != 14) || code == SC_CHANGED_OUTSIDE))
            return false;
    return true;
}

/* ---- 02, 10/13 ---- */

/* What 3?Ah shows of a file, the slow way: the line counted down, the numbers counted up. */
static int slow_status(const struct sc_file *f)
{
    struct sc_timing t = slow_timing(f);
    uint32_t line = f->line;

    while (line >= t.number[SC_V_TOTAL])
        line -= t.number[SC_V_TOTAL];
    bool sync = line >= t.number[SC_V_SYNC_START] && line < t.number[SC_V_SYNC_END];
    return 8 * sync + (line >= t.number[SC_V_DISPLAY]);
}

/* A random file with a V total that is often small or the greatest, and V sync and V display within. */
static struct sc_file line_file(void)
{
    struct sc_file f = random_file();
    struct sc_timing t;
    uint32_t total = below(3) ? 2 + below(below(2) ? 20 : 2048) : 2049;
    uint32_t limit = below(4) && total < 2048 ? total : 2048;

    sc_timing_read(&f, &t);
    t.number[SC_V_TOTAL] = total;
    t.number[SC_V_DISPLAY] = 1 + below(limit);
    t.number[SC_V_SYNC_START] = below(limit);
    t.number[SC_V_SYNC_END] = t.number[SC_V_SYNC_START] + 1 + below(16);
    if (sc_timing_write(&f, &t) != 0) {
        printf("FAILED: a timing can't be written\n");
        exit(1);
    }
    return f;
}

/* Lines pass one by one or at once, from any line: the line alone moves. */
static bool lines_pass(void)
{
    for (int round = 0; round < 2000; round++) {
        struct sc_file f = line_file(), at_once = f, before = f;
        uint32_t total = slow_timing(&f).number[SC_V_TOTAL];
        uint32_t count = below(2) ? 1 + below(4000) : 0xFFFF - below(200), line = f.line;
        while (line >= total)
            line -= total;
        for (uint32_t i = 0; i < count; i++)
            line = line + 1 == total ? 0 : line + 1;
        if (pass(&at_once, count) != 0 || at_once.line != line || !same_but_line(&at_once, &before))
            return false;
        for (uint32_t i = 0; i < 40; i++)
            if (pass(&f, 1) != 0)
                return false;
        pass(&before, 40);
        if (!same_file(&f, &before))
            return false;
    }
    return true;
}

/* Reading 3?Ah: the bits by the reduced line; the toggle goes to index and nothing else moves. */
static bool status_shown(void)
{
    for (int round = 0; round < 6000; round++) {
        struct sc_file f = line_file(), before = f;
        int port = f.misc & 1 ? 0x3DA : 0x3BA;
        if (in(&f, port) != slow_status(&before))
            return false;
        before.data_next = false;
        if (!same_file(&f, &before))
            return false;
    }
    return true;
}

/* 140h and 141h: the reduced line, 16, 17, and on the 5462 nothing at all; nothing is stored. */
static bool line_shown(void)
{
    for (int round = 0; round < 2000; round++) {
        struct sc_file f = line_file(), before = f;
        bool held = chip == SC_5464;
        int line = (int)(f.line % slow_timing(&f).number[SC_V_TOTAL]);
        if (peek16(&f, 0x140) != (held ? line : -4) || peek(&f, 0x140) != (held ? -6 : -4)
            || poke16(&f, 0x140, 5) != (held ? -16 : -4) || poke(&f, 0x140, 5) != (held ? -16 : -4)
            || peek(&f, 0x141) != (held ? -17 : -4) || poke16(&f, 0x141, 5) != (held ? -17 : -4)
            || peek16(&f, 0x142) != -4 || peek16(&f, 0x13E) != -4
            || ask(&f, SC_MMIO_READ, 2, 0x140, 1) != -2 || !same_file(&f, &before))
            return false;
    }
    return true;
}

/* A total that is shortened and lengthened again, with reads in between, leaves the line. */
static bool line_kept(void)
{
    struct sc_file f = opened();
    bool held = chip == SC_5464;

    if (poke(&f, 0x18, 98) != 0 || pass(&f, 75) != 0 || poke(&f, 0x18, 48) != 0     /* 100, then 50 */
        || peek16(&f, 0x140) != (held ? 25 : -4) || in(&f, 0x3BA) != 0x01
        || poke(&f, 0x18, 98) != 0 || f.line != 75 || peek16(&f, 0x140) != (held ? 75 : -4))
        return false;
    return poke(&f, 0x18, 48) == 0 && pass(&f, 1) == 0 && f.line == 26
        && poke(&f, 0x18, 98) == 0 && peek16(&f, 0x140) == (held ? 26 : -4);
}

/* Kind 6 in its one form is done, with value 0, whatever is enabled; in any other it is 2. */
static bool lines_form(void)
{
    static const uint32_t values[] = { 0, 1, 2, 0xFFFF, 0x10000, 0x10001, 0xFFFF0001, 0xFFFFFFFF };
    static const uint16_t addresses[] = { 0, 1, 0x100, 0x140, 0x3BA, 0xFFFF };
    struct sc_file f = random_file(), u = unsound();

    for (int enabled = 0; enabled < 4; enabled++)
        for (int kind = 6; kind < 256; kind++)
            for (int width = 0; width < 256; width += width < 5 ? 1 : 50)
                for (size_t a = 0; a < LENGTH(addresses); a++)
                    for (size_t v = 0; v < LENGTH(values); v++) {
                        bool good = kind == 6 && width == 2 && addresses[a] == 0
                            && values[v] > 0 && values[v] <= 0xFFFF;
                        f.pci04 = (uint16_t)enabled;
                        if (ask(&f, kind, width, addresses[a], values[v]) != (good ? 0 : -2))
                            return false;
                    }
    return pass(&u, 1) == -12 && ask(&u, 6, 1, 0, 0) == -12;
}

/* A fragment of kind 6 is 2, and no line passes; the reply of a whole one is 0, 6 and six zeros. */
static bool lines_reply(void)
{
    static const uint8_t trace[8] = { 6, 2, 0, 0, 1, 0, 0, 0 };
    static const uint8_t wanted[8] = { 0, 6 }, cut[8] = { 2, 6 };

    for (size_t length = 1; length <= 8; length++) {
        uint8_t reply[8] = { 9, 9, 9, 9, 9, 9, 9, 9 };
        struct sc_file f = opened();
        bool whole = length == 8;
        if (sc_run(&f, trace, length, reply, 8).count != 1 || f.line != whole
            || memcmp(reply, whole ? wanted : cut, 8))
            return false;
    }
    return true;
}

static bool sound_lines(void)
{
    struct sc_file f = opened();

    for (uint32_t line = 0; line < 0x10000; line++) {
        f.line = (uint16_t)line;
        if (sc_sound(&f) != (line <= 2048))
            return false;
    }
    return pass(&f, 1) == -12;
}

/* ---- 02, 11/13 ---- */

static bool same_set(const struct sc_set *a, const struct sc_set *b)
{
    return !memcmp(a, b, sizeof *a);        /* of bools alone, so without padding */
}

/* One access beside an empty set: does it answer this code and name just what is wanted? */
static bool names(struct sc_file *f, int kind, int width, int address, int value, int code,
                  struct sc_set wanted)
{
    struct sc_record r = { (uint8_t)kind, (uint8_t)width, (uint16_t)address, (uint32_t)value };
    struct sc_set s = { 0 };

    return sc_access_kept(f, &s, &r).code == code && same_set(&s, &wanted);
}

static bool out_names(struct sc_file *f, int port, int value, int code, struct sc_set wanted)
{
    return names(f, SC_PORT_WRITE, 1, port, value, code, wanted);
}

static bool poke_names(struct sc_file *f, int address, int value, int code, struct sc_set wanted)
{
    return names(f, SC_MMIO_WRITE, 1, address, value, code, wanted);
}

static const struct sc_set nothing;

/* A write names its register alone, by either road: a new value, an equal one, all bits dropped. */
static bool set_registers(void)
{
    static const int values[] = { 0xFF, 0xFF, 0x00, 0x00 };
    struct sc_file f = opened();

    out(&f, 0x3C2, 1);
    for (int n = 0; n < 0x20; n++)
        for (size_t i = 0; i < LENGTH(values); i++) {
            struct sc_set sr = { 0 }, cr = { 0 }, gr = { 0 };
            sr.sr[n] = cr.cr[n] = gr.gr[n] = true;
            if (!out_names(&f, 0x3C4, n, 0, (struct sc_set){ .srx = true })
                || !out_names(&f, 0x3CE, n, 0, (struct sc_set){ .grx = true })
                || !out_names(&f, 0x3D4, n, 0, (struct sc_set){ .crx = true }))
                return false;
            if (sr_bits(n) && !out_names(&f, 0x3C5, values[i], 0, sr))
                return false;
            if (gr_bits(n) && !out_names(&f, 0x3CF, values[i], 0, gr))
                return false;
            if (cr_bits(n) && n != 0x11
                && (!out_names(&f, 0x3D5, values[i], 0, cr) || !poke_names(&f, 4 * n, values[i], 0, cr)))
                return false;
        }
    struct sc_set cr11 = { 0 }, b0 = { 0 }, e6 = { 0 }, v100 = { 0 };
    cr11.cr[0x11] = b0.pipe[SC_B0] = e6.pipe[SC_E6] = v100.vport[0] = true;
    return poke_names(&f, 0x44, 0x80, 0, cr11) && poke_names(&f, 0x44, 0x80, 0, cr11)
        && poke_names(&f, 0xB0, 0x77, 0, b0) && poke_names(&f, 0xB0, 0x88, 0, b0)
        && names(&f, SC_MMIO_WRITE, 2, 0xE6, 0xEEFE, 0, e6)
        && names(&f, SC_MMIO_WRITE, 2, 0x100, 0xE0FF, 0, v100)
        && out_names(&f, 0x3C2, 0x11, 0, (struct sc_set){ .misc = true })
        && poke_names(&f, 0x80, 0x11, 0, (struct sc_set){ .misc = true })
        && out_names(&f, 0x3C6, 0, 0, (struct sc_set){ .pixel_mask = true })
        && poke_names(&f, 0xA0, 0, 0, (struct sc_set){ .pixel_mask = true })
        && names(&f, SC_MMIO_WRITE, 2, 0x304, 3, 0, (struct sc_set){ .pci04 = true })
        && names(&f, SC_CONFIG_WRITE, 2, 0x04, 0xFFD8, 0, (struct sc_set){ .pci04 = true });
}

/* 3C0h names ARX or its ARn, and the toggle; code 1 and 3?Ah, at index too, the toggle only. */
static bool set_attribute(void)
{
    struct sc_file f = opened();

    for (int n = 0; n < 0x40; n++) {
        struct sc_set data = { .toggle = true };
        int bits = ar_bits(n & 0x1F);
        if (bits)
            data.ar[n & 0x1F] = true;
        if (!out_names(&f, 0x3C0, n, 0, (struct sc_set){ .arx = true, .toggle = true })
            || !out_names(&f, 0x3C0, 0, bits ? 0 : 1, data))
            return false;
    }
    return names(&f, SC_PORT_READ, 1, 0x3BA, 0, 0, (struct sc_set){ .toggle = true })
        && names(&f, SC_PORT_READ, 1, 0x3DA, 0, 5, nothing)
        && names(&f, SC_PORT_READ, 1, 0x3C0, 0, 0, nothing)
        && names(&f, SC_PORT_READ, 1, 0x3C1, 0, 1, nothing);
}

/* Addresses name the pointer; 3C9h pointer and marks, and at a blue write the entry. */
static bool set_palette(void)
{
    const struct sc_set moved = { .pointer = true }, stepped = { .pointer = true, .marks = true };
    struct sc_file f = opened();

    for (int i = 0; i < 512; i++) {
        bool bank = i & 1, reading = i % 3 == 1, mmio = i % 5 == 2;
        int data = mmio ? 0xAC : 0x3C9, step = mmio ? 4 : 1, kind = mmio ? SC_MMIO_WRITE : SC_PORT_WRITE;
        struct sc_set entry = stepped;
        *(bank ? &entry.bank[i / 2 % 16] : &entry.palette[i / 2]) = true;
        poke(&f, 0xB0, bank ? 0x08 : 0);
        if (!names(&f, kind, 1, data - (reading ? 2 : 1) * step, i / 2, 0, moved)
            || !names(&f, kind, 1, data, 9, 0, stepped) || !names(&f, kind - 1, 1, data, 0, 0, stepped)
            || !names(&f, kind, 1, data, 7, 0, entry) || !names(&f, kind - 1, 1, data - 2 * step, 0, 0, nothing)
            || !names(&f, kind - 1, 1, data - step, 0, 0, nothing))
            return false;
    }
    poke(&f, 0xB0, 0x80);
    if (!out_names(&f, 0x3C9, 1, 9, nothing) || !names(&f, SC_MMIO_READ, 1, 0xAC, 0, 9, nothing)
        || !out_names(&f, 0x3C8, 1, 0, moved))
        return false;
    poke(&f, 0xB0, 0);
    poke(&f, 0x68, 0x04);
    return out_names(&f, 0x3C9, 1, 9, nothing) && names(&f, SC_PORT_READ, 1, 0x3C9, 0, 9, nothing);
}

/* A locked CR7 write names CR7; refusals, code 1 but at 3C0h, kind 6 and other reads name nothing. */
static bool set_nothing(void)
{
    struct sc_file f = opened(), shut, bad = unsound();
    struct sc_set cr7 = { 0 };

    cr7.cr[0x07] = true;
    poke(&f, 0x44, 0x80);
    for (int n = 0; n < 7; n++)
        if (!poke_names(&f, 4 * n, 0, 8, nothing))
            return false;
    if (!poke_names(&f, 0x1C, 0xFF, 0, cr7) || !poke_names(&f, 0x1C, 0xEF, 0, cr7)
        || !names(&f, SC_LINES_PASS, 2, 0, 9, 0, nothing) || !names(&f, SC_LINES_PASS, 1, 0, 9, 2, nothing))
        return false;
    out(&f, 0x3C4, 0x05);
    out(&f, 0x3CE, 0x09);
    out(&f, 0x3B4, 0x1C);
    if (!out_names(&f, 0x3C5, 0, 1, nothing) || !out_names(&f, 0x3CF, 0, 1, nothing)
        || !out_names(&f, 0x3B5, 0, 1, nothing) || !out_names(&f, 0x3D5, 0, 5, nothing))
        return false;
    out(&f, 0x3C4, 0x06);
    out(&f, 0x3B4, 0x24);
    if (!out_names(&f, 0x3C5, 0, 7, nothing) || !out_names(&f, 0x3B5, 0, 7, nothing)
        || !names(&f, SC_CONFIG_WRITE, 2, 0x00, 0, 7, nothing) || !poke_names(&f, 0x300, 0, 6, nothing)
        || !poke_names(&f, 0x70, 0, 4, nothing) || !poke_names(&f, 0xC1, 0, 17, nothing)
        || !out_names(&f, 0x3C1, 0, 16, nothing) || !out_names(&f, 0x3C0, 0x100, 2, nothing))
        return false;
    shut = f;
    shut.pci04 = 0;
    return out_names(&shut, 0x3C0, 0, 3, nothing) && poke_names(&shut, 0x00, 0, 3, nothing)
        && poke_names(&bad, 0x04, 0, 12, nothing);
}

/* What an access names, the slow way: by its address, once it is known to be done. */
static struct sc_set slow_names(const struct sc_file *f, const struct sc_record *r, int code)
{
    bool mmio = r->kind >= SC_MMIO_READ, write = r->kind & 1;
    struct sc_set s = { 0 };
    int a = r->address, pixel = mmio ? 0xAC : 0x3C9, step = mmio ? 4 : 1;

    s.toggle = r->kind == SC_PORT_WRITE && a == 0x3C0 && code < 2;
    if (code != 0 || r->kind == SC_LINES_PASS)
        return s;
    s.toggle |= r->kind == SC_PORT_READ && (a == 0x3BA || a == 0x3DA);
    s.marks = r->kind >= SC_PORT_READ && a == pixel;
    s.pointer = s.marks
        || (write && r->kind > SC_CONFIG_WRITE && (a == pixel - step || a == pixel - 2 * step));
    if (!write)
        return s;
    if (s.marks && f->pointer.colour == 2)
        *(f->pipe[SC_B0] & 8 ? &s.bank[f->pointer.address & 15] : &s.palette[f->pointer.address]) = true;
    s.pci04 = r->kind == SC_CONFIG_WRITE || (mmio && a == 0x304);
    if (r->kind == SC_PORT_WRITE) {
        s.arx = a == 0x3C0 && !f->data_next;
        s.ar[f->arx % 32] = a == 0x3C0 && f->data_next;
        s.srx = a == 0x3C4;
        s.grx = a == 0x3CE;
        s.crx = a == 0x3B4 || a == 0x3D4;
        s.sr[f->srx] = a == 0x3C5;
        s.gr[f->grx] = a == 0x3CF;
        s.cr[f->crx] = a == 0x3B5 || a == 0x3D5;
        s.misc = a == 0x3C2;
        s.pixel_mask = a == 0x3C6;
    } else if (mmio) {
        static const uint16_t pipe[] = { 0xB0, 0xB8, 0xBC, 0xC0, 0xCC, 0xCE, 0xD0, 0xD2, 0xD4, 0xD5,
                                         0xE0, 0xE2, 0xE4, 0xE6, 0xE8 };
        if (a < 0x7C)
            s.cr[a / 4] = true;
        if (a >= 0x100 && a < 0x110)
            s.vport[(a - 0x100) / 2] = true;
        for (size_t i = 0; i < LENGTH(pipe); i++)
            s.pipe[i] = a == pipe[i];
        s.sr[0x0E] = a == 0x84;
        s.sr[0x1E] = a == 0x88;
        s.misc = a == 0x80;
        s.pixel_mask = a == 0xA0;
    }
    return s;
}

/* A record at a held place, as a rule; of any kind. */
static struct sc_record some_record(void)
{
    uint32_t kind = below(7);
    uint32_t address = kind < 2 ? 2 * below(3) : kind < 4 ? 0x3B0 + below(0x30)
        : kind == SC_LINES_PASS ? 0 : below(2) ? mmio8[below(LENGTH(mmio8))] : mmio16[below(LENGTH(mmio16))];
    int width = kind == SC_LINES_PASS ? 2 : held_width((int)kind, address);

    return (struct sc_record){ (uint8_t)kind, (uint8_t)(width && below(32) ? width : 1),
                               (uint16_t)address, kind & 1 || kind == SC_LINES_PASS ? below(256) : 0 };
}

/*
 * Beside any set: an access answers and leaves the file as without it, and the set is what it was and
 * what the access names; a run is its accesses; and outside the set nothing has changed.
 */
static bool set_grows(void)
{
    for (int round = 0; round < 300; round++) {
        struct sc_file f = random_file(), start = f, twin = f, run = f;
        struct sc_set s = { 0 }, by_run = { 0 };
        uint8_t trace[8 * 100 + 5] = { 0 }, replies[8 * 101];
        for (int i = 0; i < 100; i++) {
            struct sc_record r = some_record();
            struct sc_file before = f;
            struct sc_set old = s;
            struct sc_reply reply = sc_access_kept(&f, &s, &r), plain = sc_access(&twin, &r);
            struct sc_set wanted = slow_names(&before, &r, reply.code);
            for (size_t b = 0; b < sizeof wanted; b++)
                ((bool *)&wanted)[b] |= ((bool *)&old)[b];
            if (!same_set(&s, &wanted) || reply.code != plain.code || reply.value != plain.value
                || !same_file(&f, &twin))
                return false;
            memcpy(trace + 8 * i, (uint8_t[]){ r.kind, r.width, r.address & 0xFF, r.address >> 8,
                                               r.value & 0xFF, r.value >> 8 & 0xFF }, 6);
        }
        if (sc_run_kept(&run, &by_run, trace, sizeof trace, replies, sizeof replies).count != 101
            || !same_set(&s, &by_run) || !same_file(&run, &f))
            return false;
        uint8_t buffer[SC_PLAN_BYTES];
        size_t count;
        int code = sc_short_plan(&f, &start, &s, buffer, sizeof buffer, &count);
        if (code != (start.pointer.colour ? 13 : 0))
            return false;
    }
    return true;
}

/* A timing write names the registers of its pieces, CR1A only where the file is wide; refused none. */
static bool set_timing(void)
{
    for (int round = 0; round < 400; round++) {
        struct sc_file f = random_file(), twin;
        struct sc_set s = { 0 }, wanted = { 0 };
        struct sc_timing t = random_timing(is_wide(&f));
        for (int n = 0; n < 0x1F; n++)
            wanted.cr[n] = n <= 7 || n == 9 || n == 0x0C || n == 0x0D || (n >= 0x10 && n <= 0x13) || n == 0x15
                || n == 0x16 || n == 0x18 || n == 0x1B || n == 0x1D || n == 0x1E || (n == 0x1A && is_wide(&f));
        twin = f;
        if (sc_timing_write_kept(&f, &s, &t) != sc_timing_write(&twin, &t) || !same_file(&f, &twin)
            || !same_set(&s, &wanted))
            return false;
        t.number[SC_H_TOTAL] = 4;
        s = nothing;
        if (sc_timing_write_kept(&f, &s, &t) != 10 || !same_set(&s, &nothing))
            return false;
        f.cr[0x11] |= 0x80;
        if (sc_timing_write_kept(&f, &s, &t) != 8 || !same_set(&s, &nothing))
            return false;
    }
    return true;
}

/* A refused short plan or short restore leaves buffer, file and set; the plan's code, or -1. */
static int short_refused(const struct sc_file *current, const struct sc_file *saved, const struct sc_set *s,
                         size_t room)
{
    uint8_t buffer[SC_PLAN_BYTES], found[SC_PLAN_BYTES];
    struct sc_file file = *current;
    struct sc_set set = *s;
    size_t count = 1, count2 = 1;

    memset(buffer, 0xEE, sizeof buffer);
    memset(found, 0xEE, sizeof found);
    int code = sc_short_plan(current, saved, s, buffer, room, &count);
    bool same = sc_short_restore(&file, &set, saved, buffer, room, &count2) == code;
    return same && code != 0 && count == 0 && count2 == 0 && same_file(&file, current) && same_set(&set, s)
        && !memcmp(buffer, found, sizeof found) ? code : -1;
}

/* 12, 15, 13, 20, 11, each before the ones behind it; an empty set meets them too. */
static bool short_order(void)
{
    struct sc_file good = opened(), bad = unsound(), other, inside = good, far, moved = good;

    sc_power_on(&other, chip == SC_5462 ? SC_5464 : SC_5462);
    inside.pointer.colour = SC_GREEN;
    far = other;
    far.pointer.colour = SC_GREEN;
    moved.cr[0] = 1;
    return short_refused(&bad, &far, &nothing, 0) == 12 && short_refused(&moved, &bad, &nothing, 0) == 12
        && short_refused(&moved, &far, &nothing, 0) == 15 && short_refused(&good, &other, &nothing, 0) == 15
        && short_refused(&moved, &inside, &nothing, 0) == 13 && short_refused(&inside, &inside, &nothing, 0) == 13
        && short_refused(&moved, &good, &nothing, 0) == 20 && short_refused(&inside, &good, &nothing, 0) == 20
        && short_refused(&good, &good, &nothing, SC_PLAN_BYTES - 1) == 11;
}

/* Where a part stands in a file, and the member of the set that names it. */
struct part {
    size_t file, size, set;
};

static size_t list_parts(struct part *part)
{
    size_t count = 0;

#define ONE(member, name) \
    part[count++] = (struct part){ offsetof(struct sc_file, member), sizeof ((struct sc_file *)0)->member, \
                                   offsetof(struct sc_set, name) }
#define EACH(member, items) \
    for (size_t i = 0; i < (items); i++) \
        part[count++] = (struct part){ offsetof(struct sc_file, member) + i * sizeof ((struct sc_file *)0)->member[0], \
                                       sizeof ((struct sc_file *)0)->member[0], offsetof(struct sc_set, member) + i }
    ONE(pci04, pci04); ONE(misc, misc); ONE(srx, srx); ONE(crx, crx); ONE(grx, grx); ONE(arx, arx);
    ONE(pixel_mask, pixel_mask); ONE(data_next, toggle); ONE(pointer, pointer); ONE(last, marks);
    EACH(sr, 0x20); EACH(cr, 0x40); EACH(gr, 0x40); EACH(ar, 0x20); EACH(pipe, SC_PIPES); EACH(vport, SC_VPORTS);
    EACH(palette, 256); EACH(bank, 16);
#undef ONE
#undef EACH
    return count;
}

/* Each member of pointer and marks counts: 20 if it alone differs. */
static bool short_pointer(void)
{
    struct sc_file saved = opened(), f[7];

    for (size_t i = 0; i < LENGTH(f); i++)
        f[i] = saved;
    f[0].pointer = pointer(1, false, SC_RED, 0, 0);
    f[1].pointer = pointer(0, true, SC_RED, 0, 0);
    f[2].pointer = pointer(0, false, SC_GREEN, 0, 0);
    f[3].pointer = pointer(0, false, SC_GREEN, 9, 0);
    f[4].pointer = pointer(0, false, SC_BLUE, 0, 9);
    f[5].last.reading = true;
    f[6].last.colour = SC_RED;
    for (size_t i = 0; i < LENGTH(f); i++) {
        struct sc_set s = { .pointer = i >= 5, .marks = i < 5 };
        if (short_refused(&f[i], &saved, &s, SC_PLAN_BYTES) != 20)
            return false;
    }
    return true;
}

/* 20 exactly where a part differs that the set doesn't name; the line is no part. */
static bool short_outside(void)
{
    static struct part part[1024];
    size_t parts = list_parts(part);

    for (int round = 0; round < 6; round++) {
        struct sc_file saved = random_file(), other = random_file();
        saved.pointer = pointer((int)below(256), below(2), SC_RED, 0, 0);
        for (size_t i = 0; i < parts; i++) {
            struct sc_file current = saved;
            struct sc_set s = { 0 }, rest;
            uint8_t buffer[SC_PLAN_BYTES];
            size_t count;
            current.line = other.line;
            memcpy((char *)&current + part[i].file, (char *)&other + part[i].file, part[i].size);
            bool same = same_but_line(&current, &saved);
            memset(&rest, true, sizeof rest);
            ((bool *)&rest)[part[i].set] = false;
            ((bool *)&s)[part[i].set] = true;
            if (sc_short_plan(&current, &saved, &s, buffer, sizeof buffer, &count) != 0
                || sc_short_plan(&current, &saved, &rest, buffer, sizeof buffer, &count) != (same ? 0 : 20)
                || sc_short_plan(&current, &saved, &nothing, buffer, sizeof buffer, &count) != (same ? 0 : 20))
                return false;
        }
    }
    return true;
}

/* The saved file with the named parts as another file has them. */
static struct sc_file changed(const struct sc_file *saved, const struct sc_file *other, const struct sc_set *s)
{
    static struct part part[1024];
    size_t parts = list_parts(part);
    struct sc_file current = *saved;

    current.line = other->line;
    for (size_t i = 0; i < parts; i++)
        if (((const bool *)s)[part[i].set])
            memcpy((char *)&current + part[i].file, (const char *)other + part[i].file, part[i].size);
    return current;
}

/* A set of few things, or of many; it may also name what no file holds. */
static struct sc_set random_set(void)
{
    uint32_t odds = 1 + below(400);
    struct sc_set s;

    for (size_t i = 0; i < sizeof s; i++)
        ((bool *)&s)[i] = below(odds) == 0;
    return s;
}

/* Of any set: the plan ends in the saved file, each record done, within the bounds, and empties the set. */
static bool short_plans(void)
{
    uint8_t buffer[SC_PLAN_BYTES], again[SC_PLAN_BYTES], full[SC_PLAN_BYTES];

    for (int round = 0; round < 1500; round++) {
        struct sc_file saved = random_file(), other = random_file(), third = random_file();
        struct sc_set s = round % 8 ? random_set() : nothing, kept = s;
        size_t count, whole, repeated, named = sc_named(&s);
        saved.pointer = pointer((int)below(256), below(2), SC_RED, 0, 0);
        other.pci04 = (uint16_t)(below(8) & 7 ? 0x27 & chance() : 0);
        other.cr[0x11] |= (uint8_t)(below(2) << 7);
        struct sc_file current = changed(&saved, &other, &s), start = current;
        third = changed(&saved, &third, &s);
        sc_plan(&saved, full, sizeof full, &whole);
        if (sc_short_restore(&current, &s, &saved, buffer, sizeof buffer, &count) != 0
            || !same_but_line(&current, &saved) || current.line != start.line || !same_set(&s, &nothing)
            || !all_done(start, buffer, count) || count > whole || count > (named ? 32 + 4 * named : 16))
            return false;
        if (sc_short_plan(&third, &saved, &kept, again, sizeof again, &repeated) != 0 || repeated != count
            || memcmp(buffer, again, SC_RECORD_BYTES * count))
            return false;
        for (size_t i = 0; i < count; i++)
            if (buffer[SC_RECORD_BYTES * i] > SC_MMIO_WRITE)
                return false;
    }
    return true;
}

/* An accepted restore empties the set, a refused one leaves it; a plain run over a plan adds to it. */
static bool set_emptied(void)
{
    static uint8_t plan[SC_PLAN_BYTES], replies[SC_PLAN_BYTES];
    struct sc_file f = opened(), wanted = random_file(), inside = wanted;
    struct sc_set s = { .misc = true }, old = s, all;
    size_t count, held = 0;

    wanted.pointer = pointer(7, true, SC_RED, 0, 0);
    inside.pointer = pointer(7, true, SC_GREEN, 9, 0);
    if (sc_restore_kept(&f, &s, &inside, plan, sizeof plan, &count) != 13 || !same_set(&s, &old)
        || sc_restore_kept(&f, &s, &wanted, plan, sizeof plan - 1, &count) != 11 || !same_set(&s, &old)
        || sc_restore_kept(&f, &s, &wanted, plan, sizeof plan, &count) != 0 || !same_set(&s, &nothing))
        return false;
    memset(&all, true, sizeof all);
    for (int n = 0; n < 0x40; n++)
        held += (n < 0x20 && sr_bits(n)) + (cr_bits(n) != 0) + (gr_bits(n) != 0) + (n < 0x20 && ar_bits(n));
    held += 10 + SC_PIPES + SC_VPORTS + 256 + 16;
    sc_run_kept(&f, &s, plan, SC_RECORD_BYTES * count, replies, sizeof replies);
    return sc_named(&s) == held && sc_named(&all) == held && sc_named(&nothing) == 0;
}

/* ---- Soundness over many files ---- */

/* Sets one bit of a byte; is the file sound exactly if the bit is in the table? */
static bool bits_decide(size_t offset, int bits)
{
    for (int bit = 0; bit < 8; bit++) {
        struct sc_file f = opened();
        ((uint8_t *)&f)[offset] ^= (uint8_t)(1 << bit);
        if (sc_sound(&f) != ((bits >> bit & 1) != 0))
            return false;
    }
    return true;
}

static bool sound_bits(void)
{
    static const uint16_t pipe_bits[SC_PIPES] = {
        [SC_B0] = 0x88, [SC_B8] = 0xFF, [SC_BC] = 0xFF, [SC_D4] = 0xFF, [SC_D5] = 0x3F,
        [SC_C0] = 0x3F3F, [SC_CC] = 0x0FFF, [SC_CE] = 0x0FFF, [SC_D0] = 0x0FFF, [SC_D2] = 0x0FFF,
        [SC_E0] = 0x0FFF, [SC_E2] = 0x0FFF, [SC_E4] = 0x7F7F, [SC_E6] = 0x1101, [SC_E8] = 0x7FFC,
    };

    for (int n = 0; n < SC_SRS; n++)
        if (!bits_decide(offsetof(struct sc_file, sr) + (size_t)n, sr_bits(n)))
            return false;
    for (int n = 0; n < SC_CRS; n++)
        if (!bits_decide(offsetof(struct sc_file, cr) + (size_t)n, cr_bits(n)))
            return false;
    for (int n = 0; n < SC_GRS; n++)
        if (!bits_decide(offsetof(struct sc_file, gr) + (size_t)n, gr_bits(n)))
            return false;
    for (int n = 0; n < SC_ARS; n++)
        if (!bits_decide(offsetof(struct sc_file, ar) + (size_t)n, ar_bits(n)))
            return false;
    for (int i = 0; i < SC_PIPES; i++)
        for (int bit = 0; bit < 16; bit++) {
            struct sc_file f = opened();
            f.pipe[i] = (uint16_t)(1u << bit);
            if (sc_sound(&f) != ((pipe_bits[i] >> bit & 1) != 0))
                return false;
        }
    for (int i = 0; i < SC_VPORTS; i++)
        for (int bit = 0; bit < 16; bit++) {
            struct sc_file f = opened();
            f.vport[i] ^= (uint16_t)(1u << bit);
            if (sc_sound(&f) != ((vport_bits(i) >> bit & 1) != 0))
                return false;
        }
    return bits_decide(offsetof(struct sc_file, misc), 0xEF)
        && bits_decide(offsetof(struct sc_file, srx), 0x1F)
        && bits_decide(offsetof(struct sc_file, crx), 0x3F)
        && bits_decide(offsetof(struct sc_file, grx), 0x3F)
        && bits_decide(offsetof(struct sc_file, arx), 0x3F)
        && bits_decide(offsetof(struct sc_file, pixel_mask), 0xFF)
        && bits_decide(offsetof(struct sc_file, palette) + 767, 0xFF)
        && bits_decide(offsetof(struct sc_file, bank) + 47, 0xFF);
}

static bool sound_pci04(void)
{
    for (uint32_t value = 0; value < 0x10000; value++) {
        struct sc_file f = opened();
        f.pci04 = (uint16_t)value;
        if (sc_sound(&f) != ((value & ~0x27u) == 0))
            return false;
    }
    return true;
}

/* Accesses keep a file sound, and a run answers what single accesses do. */
static bool sound_kept(void)
{
    static uint8_t trace[8 * 4096], replies[8 * 4096];

    for (int round = 0; round < 200; round++) {
        struct sc_file f = opened(), g = f;
        for (size_t i = 0; i < 4096; i++) {
            uint8_t *b = trace + 8 * i;
            uint32_t kind = i % 64 ? below(8) : 1;
            bool write = kind & 1 || kind == SC_LINES_PASS, wide = below(4) == 0;
            uint32_t address = i % 64 == 0 ? 4 : kind < 2 ? below(6) : kind < 4
                ? 0x3B0 + below(0x30) : kind == SC_LINES_PASS ? below(8) / 7 * below(0x400)
                : below(16) ? below(0x142) : 0x300 + below(6);
            b[0] = (uint8_t)kind;
            b[1] = i % 64 ? (uint8_t)(1 + wide) : 2;
            b[2] = (uint8_t)address;
            b[3] = (uint8_t)(address >> 8);
            b[4] = i % 64 == 0 ? 3 : write ? (uint8_t)chance() : 0;
            b[5] = write && wide ? (uint8_t)chance() : 0;
            b[6] = b[7] = 0;
        }
        if (sc_run(&f, trace, sizeof trace, replies, sizeof replies).count != 4096 || !sc_sound(&f))
            return false;
        for (size_t i = 0; i < 4096; i++) {
            struct sc_record r = sc_record_from(trace + 8 * i);
            uint8_t bytes[8];
            struct sc_reply reply = sc_access(&g, &r);
            sc_reply_to(&reply, bytes);
            bool in_list = reply.code <= 9 || reply.code == SC_OTHER_DIRECTION
                || reply.code == SC_INSIDE_WIDER;
            if (!in_list || memcmp(bytes, replies + 8 * i, 8))
                return false;
        }
        if (!same_file(&f, &g))
            return false;
    }
    return true;
}

int main(int words, char **word)
{
    static const struct check checks[] = {
        { "point 1", "a reply's bytes", point1 },
        { "point 2", "a fragment's reply", point2 },
        { "point 3", "what a run hands back", point3 },
        { "point 4", "places of a reply buffer", point4 },
        { "point 5", "a run's own code", point5 },
        { "point 7", "3 before 4, config never 3", point7 },
        { "point 8", "16 by space, address and direction, before 5", point8 },
        { "point 9", "PCI00 and PCI02 written", point9 },
        { "point 10", "3?Ah of the other base", point10 },
        { "point 11", "width 2 at a port", point11 },
        { "point 12", "width 1 at 16 bits, 17 at odd halves, D4h", point12 },
        { "point 13", "every address, no alias", point13 },
        { "point 14", "every index, its bits or code 1", point14 },
        { "point 15", "index registers drop high bits", point15 },
        { "point 16", "CRs by MMIO", point16 },
        { "point 17", "CR7 under the lock", point17 },
        { "point 18", "MMIO closed through 304h", point18 },
        { "point 19", "reads that move nothing", point19 },
        { "point 20", "attribute reads, CR24, CR26", point20 },
        { "point 21", "B0 chooses at the store and at each read", point21 },
        { "point 22", "reads and writes mixed in one colour", point22 },
        { "point 23", "the mode", point23 },
        { "point 24", "power-down", point24 },
        { "02, 7/13", "static sync stops the palette", static_sync },
        { "point 25", "pointers that are sound", point25 },
        { "point 26", "every number's range", point26 },
        { "point 27", "bits the timing writer leaves", point27 },
        { "point 28", "the timing writer's order of codes", point28 },
        { "02, 1/13", "B0 shows the last pixel data access", last_access },
        { "point 29", "the cursor", point29 },
        { "point 30", "window 2", point30 },
        { "point 31", "readers of an unsound file", point31 },
        { "02, 6/13", "V-Port registers, each by itself", vport_registers },
        { "02, 6/13", "V-Port registers have one road", vport_roads },
        { "02, 6/13", "capture geometry", capture },
        { "02, 6/13", "a restore's order of codes", restore_order },
        { "02, 6/13", "a restore ends in the wanted file", restored },
        { "02, 9/13", "the list of codes: 14 is unused", code_list },
        { "02, 10/13", "lines pass, one by one or at once", lines_pass },
        { "02, 10/13", "3?Ah shows V sync and V display by the line", status_shown },
        { "02, 10/13", "140h shows the line, on the 5464", line_shown },
        { "02, 10/13", "a total shortened for a while leaves the line", line_kept },
        { "02, 10/13", "kind 6 has one form, and no space need be on", lines_form },
        { "02, 10/13", "the reply to kind 6, and to a fragment of it", lines_reply },
        { "02, 10/13", "sound up to line 2,048", sound_lines },
        { "02, 11/13", "a write names its register, an equal value too", set_registers },
        { "02, 11/13", "3C0h and 3?Ah name the toggle", set_attribute },
        { "02, 11/13", "pointer, marks and entry", set_palette },
        { "02, 11/13", "CR7 under the lock; what names nothing", set_nothing },
        { "02, 11/13", "the set grows by what each access names", set_grows },
        { "02, 11/13", "what a timing write names", set_timing },
        { "02, 11/13", "a short plan's order of codes", short_order },
        { "02, 11/13", "20 where a part differs outside the set", short_outside },
        { "02, 11/13", "20 by each member of pointer and marks", short_pointer },
        { "02, 11/13", "short plans end in the saved file, and are short", short_plans },
        { "02, 11/13", "a restore empties the set", set_emptied },
        { "timing", "reads as counted up from the table", timing_read },
        { "timing", "written back changes nothing; written is read", timing_kept },
        { "02, 7/13", "CR1A under no lock; a timing write keeps static sync", sync_kept },
        { "sound", "every bit by the table", sound_bits },
        { "sound", "every PCI04", sound_pci04 },
        { "sound", "kept by every access; a run is its accesses", sound_kept },
    };

    return run_checks(checks, LENGTH(checks), words > 1 ? word[1] : NULL);
}
