#include "sedgecoil.h"

#include <string.h>

/* 01 "Places", stored bits. A mask of 0: the number stores nothing. */
static const uint8_t sr_mask[SC_SRS] = {
    [0x00] = 0x03, [0x01] = 0x3D, [0x02] = 0x0F, [0x03] = 0x3F, [0x04] = 0x0E, [0x07] = 0x01,
    [0x09] = 0xFF, [0x0A] = 0xFF, [0x0B] = 0xFF, [0x0C] = 0xFF, [0x0D] = 0xFF, [0x0E] = 0xFF,
    [0x14] = 0xFF, [0x15] = 0xFF,
    [0x1B] = 0x7F, [0x1C] = 0x7F, [0x1D] = 0x7F, [0x1E] = 0x7F,
};

static const uint8_t cr_mask[SC_CRS] = {
    [0x00] = 0xFF, [0x01] = 0xFF, [0x02] = 0xFF, [0x03] = 0xFF,
    [0x04] = 0xFF, [0x05] = 0xFF, [0x06] = 0xFF, [0x07] = 0xFF,
    [0x08] = 0x7F, [0x09] = 0xFF, [0x0A] = 0x3F, [0x0B] = 0x7F,
    [0x0C] = 0xFF, [0x0D] = 0xFF, [0x0E] = 0xFF, [0x0F] = 0xFF,
    [0x10] = 0xFF, [0x11] = 0xFF, [0x12] = 0xFF, [0x13] = 0xFF,
    [0x14] = 0x7F, [0x15] = 0xFF, [0x16] = 0xFF, [0x17] = 0xEF,
    [0x18] = 0xFF, [0x19] = 0xFF, [0x1A] = 0xFF, [0x1B] = 0xFF,
    [0x1D] = 0x18, [0x1E] = 0xFF,
};

static const uint8_t gr_mask[SC_GRS] = {
    [0x00] = 0x0F, [0x01] = 0x0F, [0x02] = 0x0F, [0x03] = 0x1F, [0x04] = 0x03,
    [0x05] = 0x7B, [0x06] = 0x0F, [0x07] = 0x0F, [0x08] = 0xFF,
};

static const uint8_t ar_mask[SC_ARS] = {
    [0x00] = 0x3F, [0x01] = 0x3F, [0x02] = 0x3F, [0x03] = 0x3F,
    [0x04] = 0x3F, [0x05] = 0x3F, [0x06] = 0x3F, [0x07] = 0x3F,
    [0x08] = 0x3F, [0x09] = 0x3F, [0x0A] = 0x3F, [0x0B] = 0x3F,
    [0x0C] = 0x3F, [0x0D] = 0x3F, [0x0E] = 0x3F, [0x0F] = 0x3F,
    [0x10] = 0xEF, [0x11] = 0xFF, [0x12] = 0x3F, [0x13] = 0x0F, [0x14] = 0x0F,
};

static const struct {
    uint8_t offset;
    uint8_t width;
    uint16_t mask;
} pipes[SC_PIPES] = {
    [SC_B0] = { 0xB0, 1, 0x0088 }, [SC_B8] = { 0xB8, 1, 0x00FF }, [SC_BC] = { 0xBC, 1, 0x00FF },
    [SC_C0] = { 0xC0, 2, 0x3F3F }, [SC_CC] = { 0xCC, 2, 0x0FFF }, [SC_CE] = { 0xCE, 2, 0x0FFF },
    [SC_D0] = { 0xD0, 2, 0x0FFF }, [SC_D2] = { 0xD2, 2, 0x0FFF }, [SC_D4] = { 0xD4, 1, 0x00FF },
    [SC_D5] = { 0xD5, 1, 0x003F }, [SC_E0] = { 0xE0, 2, 0x0FFF }, [SC_E2] = { 0xE2, 2, 0x0FFF },
    [SC_E4] = { 0xE4, 2, 0x7F7F }, [SC_E6] = { 0xE6, 2, 0x1101 }, [SC_E8] = { 0xE8, 2, 0x7FFC },
};

struct vport {
    uint16_t mask;
    uint16_t besides;   /* what it reads, whatever it stores */
    uint16_t start;     /* what it stores at power-on */
};

/* 02, 6/13: the V-Port registers, 10Ch as the 5464 has it. */
static const struct vport vports[SC_VPORTS] = {
    [SC_BUFFER0_X] = { 0x1F00, 0, 0 }, [SC_BUFFER1_X] = { 0x1F00, 0, 0 },
    [SC_BUFFER0_Y] = { 0x3FFF, 0, 0 }, [SC_BUFFER1_Y] = { 0x3FFF, 0, 0 },
    [SC_X_START] = { 0x03FF, 0, 0 }, [SC_X_STOP] = { 0x03FF, 0, 0 },
    [SC_10C] = { 0x01FF, 0, 0 }, [SC_Y_STOP] = { 0x01FF, 0, 0 },
};

/* 02, 6/13: 10Ch on the 5462, "storing F3DFh; bits 11 and 10 read 1, bit 5 reads 0". */
static const struct vport vport_control = { 0xF3DF, 0x0C00, 0x0090 };

static const struct vport *vport(enum sc_chip chip, size_t number)
{
    return chip == SC_5462 && number == SC_10C ? &vport_control : &vports[number];
}

enum {
    MISC_MASK = 0xEF,
    SRX_MASK = 0x1F,
    CRX_MASK = 0x3F,
    GRX_MASK = 0x3F,
    ARX_MASK = 0x3F,
    PCI04_MASK = 0x0027
};

/* 01 "Places": what reads as a constant, and the bits that steer. */
enum {
    SR6_READS = 0x12,
    PCI00_READS = 0x1013,
    PCI02_READS_5462 = 0x00D0,
    PCI02_READS_5464 = 0x00D4,
    MISC_COLOUR = 0x01,     /* MISC[0]: '?' is D */
    ARX_INDEX = 0x1F,       /* ARX[4:0] */
    CR7_UNLOCKED = 0x10,    /* CR7[4], writable while CR11[7]=1 */
    CR11_LOCK = 0x80,
    CR1A_STATIC_SYNC = 0x0C,    /* CR1A[3], CR1A[2] */
    CR1B_WIDE = 0xA0,       /* CR1B[7], CR1B[5] */
    STATUS_SYNC = 0x08,
    STATUS_BLANK = 0x01,
    B0_POWER_DOWN = 0x80,
    B0_BANK = 0x08,
    B0_READING = 0x04
};

void sc_power_on(struct sc_file *f, enum sc_chip chip)
{
    *f = (struct sc_file){ .chip = chip, .last = { .colour = SC_BLUE } };
    for (size_t i = 0; i < SC_VPORTS; i++)
        f->vport[i] = vport(chip, i)->start;
}

/* ---- Soundness ---- */

static bool bytes_within(const uint8_t *byte, const uint8_t *mask, size_t count)
{
    for (size_t i = 0; i < count; i++)
        if (byte[i] & ~mask[i])
            return false;
    return true;
}

/* 01 "Places": no bit outside the table. The palette, the bank and the pixel mask have none. */
static bool bits_sound(const struct sc_file *f)
{
    for (size_t i = 0; i < SC_PIPES; i++)
        if (f->pipe[i] & ~pipes[i].mask)
            return false;
    for (size_t i = 0; i < SC_VPORTS; i++)
        if (f->vport[i] & ~vport(f->chip, i)->mask)
            return false;
    return !(f->pci04 & ~PCI04_MASK) && !(f->misc & ~MISC_MASK)
        && !(f->srx & ~SRX_MASK) && !(f->crx & ~CRX_MASK)
        && !(f->grx & ~GRX_MASK) && !(f->arx & ~ARX_MASK)
        && bytes_within(f->sr, sr_mask, SC_SRS) && bytes_within(f->cr, cr_mask, SC_CRS)
        && bytes_within(f->gr, gr_mask, SC_GRS) && bytes_within(f->ar, ar_mask, SC_ARS);
}

/* 01 "The palette pointer": held red is 0 at red, held green before blue is due. */
static bool pointer_sound(const struct sc_pointer *p)
{
    return p->colour < SC_COLOURS
        && (p->held[SC_GREEN] == 0 || p->colour == SC_BLUE)
        && (p->held[SC_RED] == 0 || p->colour != SC_RED);
}

bool sc_sound(const struct sc_file *f)
{
    return bits_sound(f) && pointer_sound(&f->pointer) && f->last.colour < SC_COLOURS
        && f->line <= SC_LAST_LINE;
}

/* ---- The timing's numbers ---- */

struct piece {
    uint8_t cr, low, bits;
};

enum { PIECES = 5, PLAIN = -1 };

/* 01 "Timing", the table: pieces high bits first; a bias, or the start that an end follows. */
static const struct field {
    uint8_t bias;
    int8_t start;
    struct piece piece[PIECES];     /* unused ones have no bits */
} fields[SC_NUMBERS] = {
    [SC_H_TOTAL] = { 5, PLAIN, { { 0x1E, 7, 1 }, { 0x00, 0, 8 } } },
    [SC_H_DISPLAY] = { 1, PLAIN, { { 0x1E, 6, 1 }, { 0x01, 0, 8 } } },
    [SC_H_BLANK_START] = { 0, PLAIN, { { 0x1E, 5, 1 }, { 0x02, 0, 8 } } },
    [SC_H_BLANK_END] = { 0, SC_H_BLANK_START, { { 0x1A, 4, 2 }, { 0x05, 7, 1 }, { 0x03, 0, 5 } } },
    [SC_H_SYNC_START] = { 0, PLAIN, { { 0x1E, 4, 1 }, { 0x04, 0, 8 } } },
    [SC_H_SYNC_END] = { 0, SC_H_SYNC_START, { { 0x05, 0, 5 } } },
    [SC_V_TOTAL] = { 2, PLAIN, { { 0x1E, 3, 1 }, { 0x07, 5, 1 }, { 0x07, 0, 1 }, { 0x06, 0, 8 } } },
    [SC_V_DISPLAY] = { 1, PLAIN,
                       { { 0x1E, 2, 1 }, { 0x07, 6, 1 }, { 0x07, 1, 1 }, { 0x12, 0, 8 } } },
    [SC_V_BLANK_START] = { 0, PLAIN,
                           { { 0x1E, 1, 1 }, { 0x09, 5, 1 }, { 0x07, 3, 1 }, { 0x15, 0, 8 } } },
    [SC_V_BLANK_END] = { 0, SC_V_BLANK_START, { { 0x1A, 6, 2 }, { 0x16, 0, 8 } } },
    [SC_V_SYNC_START] = { 0, PLAIN,
                          { { 0x1E, 0, 1 }, { 0x07, 7, 1 }, { 0x07, 2, 1 }, { 0x10, 0, 8 } } },
    [SC_V_SYNC_END] = { 0, SC_V_SYNC_START, { { 0x11, 0, 4 } } },
    [SC_LINE_COMPARE] = { 0, PLAIN, { { 0x09, 6, 1 }, { 0x07, 4, 1 }, { 0x18, 0, 8 } } },
    [SC_OFFSET] = { 0, PLAIN, { { 0x1B, 4, 1 }, { 0x13, 0, 8 } } },
    [SC_SCREEN_START] = { 0, PLAIN, { { 0x1D, 3, 2 }, { 0x1B, 2, 2 }, { 0x1B, 0, 1 },
                                      { 0x0C, 0, 8 }, { 0x0D, 0, 8 } } },
};

/* 01 "Timing": CR1A's pieces count only if CR1B[5] or CR1B[7] is 1. */
static unsigned piece_bits(const struct sc_file *f, const struct piece *p)
{
    return p->cr == 0x1A && !(f->cr[0x1B] & CR1B_WIDE) ? 0 : p->bits;
}

/* How many values the pieces hold: 2^n. */
static uint32_t span(const struct sc_file *f, const struct field *field)
{
    unsigned bits = 0;

    for (size_t i = 0; i < PIECES; i++)
        bits += piece_bits(f, &field->piece[i]);
    return UINT32_C(1) << bits;
}

static uint32_t gather(const struct sc_file *f, const struct field *field)
{
    uint32_t value = 0;

    for (size_t i = 0; i < PIECES; i++) {
        const struct piece *p = &field->piece[i];
        unsigned bits = piece_bits(f, p);
        value = value << bits | (f->cr[p->cr] >> p->low & ((1u << bits) - 1));
    }
    return value;
}

/* 01 "Timing": the smallest number greater than its start with those low n bits. */
static uint32_t end_after(uint32_t start, uint32_t low, uint32_t values)
{
    return start + 1 + ((low - start - 1) & (values - 1));
}

/* A number as the registers hold it; an end also goes by its start, which is 0 for the others. */
static uint32_t read_number(const struct sc_file *f, enum sc_number i, uint32_t start)
{
    const struct field *field = &fields[i];
    uint32_t value = gather(f, field);

    return field->start == PLAIN ? value + field->bias : end_after(start, value, span(f, field));
}

/* ---- The line, 02, 10/13 ---- */

static uint32_t v_total(const struct sc_file *f)
{
    return read_number(f, SC_V_TOTAL, 0);
}

/*
 * "The line rises modulo the V total of that moment; a line beyond a shortened total is first
 * reduced by it."
 */
static void pass_lines(struct sc_file *f, uint32_t count)
{
    uint32_t total = v_total(f);

    f->line = (uint16_t)((f->line % total + count) % total);
}

/* "Both reads show the line reduced by the total and store nothing of it." */
static uint16_t shown_line(const struct sc_file *f)
{
    return (uint16_t)(f->line % v_total(f));
}

/* 3?Ah: bit 3 "at or past V sync start and before V sync end", bit 0 "at or past V display". */
static uint16_t read_status(const struct sc_file *f)
{
    uint32_t line = shown_line(f);
    uint32_t start = read_number(f, SC_V_SYNC_START, 0);
    uint32_t end = read_number(f, SC_V_SYNC_END, start);
    uint32_t display = read_number(f, SC_V_DISPLAY, 0);

    return (line >= start && line < end ? STATUS_SYNC : 0) | (line >= display ? STATUS_BLANK : 0);
}

/* ---- Where an access goes ---- */

enum unit {
    NOWHERE, PCI00, PCI02, PCI04, MISC, SRX, CRX, GRX, ARX, SR, CR, GR, AR,
    ATTRIBUTE, STATUS, PIXEL_MASK, READ_ADDRESS, WRITE_ADDRESS, PIXEL, PIPE, VPORT, LINE
};

struct place {
    enum unit unit;
    uint8_t width;
    uint8_t number;
};

static struct place at8(enum unit unit, uint8_t number)
{
    return (struct place){ unit, 1, number };
}

static struct place at16(enum unit unit)
{
    return (struct place){ unit, 2, 0 };
}

/* 01 "Places": config 00h, 02h, 04h, and the same three at MMIO 300h. */
static struct place config_place(uint16_t address)
{
    switch (address) {
    case 0x00: return at16(PCI00);
    case 0x02: return at16(PCI02);
    case 0x04: return at16(PCI04);
    default: return at8(NOWHERE, 0);
    }
}

/* 01 "Places", ports; a data port goes to the register its index names. */
static struct place port_place(const struct sc_file *f, uint16_t address, bool write)
{
    switch (address) {
    case 0x3C0: return at8(write ? ATTRIBUTE : ARX, 0);
    case 0x3C1: return at8(write ? NOWHERE : AR, f->arx & ARX_INDEX);
    case 0x3C2: return at8(write ? MISC : NOWHERE, 0);
    case 0x3C4: return at8(SRX, 0);
    case 0x3C5: return at8(SR, f->srx);
    case 0x3C6: return at8(PIXEL_MASK, 0);
    case 0x3C7: return at8(READ_ADDRESS, 0);
    case 0x3C8: return at8(WRITE_ADDRESS, 0);
    case 0x3C9: return at8(PIXEL, 0);
    case 0x3CC: return at8(write ? NOWHERE : MISC, 0);
    case 0x3CE: return at8(GRX, 0);
    case 0x3CF: return at8(GR, f->grx);
    case 0x3B4: case 0x3D4: return at8(CRX, 0);
    case 0x3B5: case 0x3D5: return at8(CR, f->crx);
    case 0x3BA: case 0x3DA: return at8(write ? NOWHERE : STATUS, 0);
    default: return at8(NOWHERE, 0);
    }
}

/* 01 "Places": the pipeline registers at their offsets. */
static struct place pipe_place(uint16_t address)
{
    for (uint8_t i = 0; i < SC_PIPES; i++)
        if (pipes[i].offset == address)
            return (struct place){ PIPE, pipes[i].width, i };
    return at8(NOWHERE, 0);
}

/* 02, 6/13: the V-Port registers, 16 bits each. */
static struct place vport_place(uint16_t offset)
{
    if (offset % 2 == 0 && offset / 2 < SC_VPORTS)
        return (struct place){ VPORT, 2, (uint8_t)(offset / 2) };
    return at8(NOWHERE, 0);
}

/* 02, 10/13: "On the 5464 a 16-bit read of MMIO 140h gives the line, CSL; a write gets 16." */
static struct place line_place(const struct sc_file *f, bool write)
{
    return f->chip == SC_5464 && !write ? at16(LINE) : at8(NOWHERE, 0);
}

/* 01 "Places", MMIO: CRn at 4n where CRn stores anything (CR24 and CR26 do not). */
static struct place mmio_place(const struct sc_file *f, uint16_t address, bool write)
{
    switch (address) {
    case 0x80: return at8(MISC, 0);
    case 0x84: return at8(SR, 0x0E);
    case 0x88: return at8(SR, 0x1E);
    case 0xA0: return at8(PIXEL_MASK, 0);
    case 0xA4: return at8(READ_ADDRESS, 0);
    case 0xA8: return at8(WRITE_ADDRESS, 0);
    case 0xAC: return at8(PIXEL, 0);
    case 0x140: return line_place(f, write);
    }
    if (address >= 0x300)
        return config_place(address - 0x300);
    if (address >= 0x100)
        return vport_place(address - 0x100);
    if (address % 4 == 0 && address / 4 < SC_CRS && cr_mask[address / 4])
        return at8(CR, address / 4);
    return pipe_place(address);
}

static bool is_write(const struct sc_record *r)
{
    return r->kind & 1;
}

static struct place place_of(const struct sc_file *f, const struct sc_record *r)
{
    switch (r->kind) {
    case SC_CONFIG_READ: case SC_CONFIG_WRITE: return config_place(r->address);
    case SC_PORT_READ: case SC_PORT_WRITE: return port_place(f, r->address, is_write(r));
    default: return mmio_place(f, r->address, is_write(r));
    }
}

/* ---- The palette ---- */

/* 01 "The palette pointer": 3C7h and 3C8h written. */
static void point(struct sc_pointer *p, uint8_t address, bool reading)
{
    *p = (struct sc_pointer){ .address = address, .reading = reading };
}

/* 01 "The palette pointer": to the next colour; after blue to the next address, nothing held. */
static void step(struct sc_pointer *p)
{
    if (p->colour == SC_BLUE)
        point(p, p->address + 1, p->reading);
    else
        p->colour++;
}

/* 01 "The palette pointer": B0[3] chooses the bank of 16 or the palette of 256. */
static uint8_t *entry(struct sc_file *f)
{
    if (f->pipe[SC_B0] & B0_BANK)
        return f->bank[f->pointer.address % SC_BANK_ENTRIES];
    return f->palette[f->pointer.address];
}

/* 02, 1/13: "keep the last 3C9h access, direction and colour", the colour before the step. */
static void mark(struct sc_file *f, bool reading)
{
    f->last = (struct sc_last){ .reading = reading, .colour = f->pointer.colour };
}

/* 02, 7/13: "the palette down if B0[7], CR1A[3] or CR1A[2] is 1". */
static bool powered_down(const struct sc_file *f)
{
    return (f->pipe[SC_B0] & B0_POWER_DOWN) || (f->cr[0x1A] & CR1A_STATIC_SYNC);
}

static uint8_t read_pixel(struct sc_file *f, uint16_t *value)
{
    if (powered_down(f))
        return SC_POWERED_DOWN;
    *value = entry(f)[f->pointer.colour];
    mark(f, true);
    step(&f->pointer);
    return SC_DONE;
}

static uint8_t write_pixel(struct sc_file *f, uint8_t value)
{
    struct sc_pointer *p = &f->pointer;

    if (powered_down(f))
        return SC_POWERED_DOWN;
    if (p->colour == SC_BLUE) {
        uint8_t *e = entry(f);
        e[SC_RED] = p->held[SC_RED];
        e[SC_GREEN] = p->held[SC_GREEN];
        e[SC_BLUE] = value;
    } else {
        p->held[p->colour] = value;
    }
    mark(f, false);
    step(p);
    return SC_DONE;
}

/* 02, 1/13: bit 2 "whether the last palette access was a read", bits 1:0 "which colour". */
static uint16_t read_b0(const struct sc_file *f)
{
    return f->pipe[SC_B0] | (f->last.reading ? B0_READING : 0) | f->last.colour;
}

/* ---- One register read or written ---- */

/* 01 "Accesses and replies", code 1: an index that names no held register. */
static uint8_t load(const uint8_t *bank, const uint8_t *mask, uint8_t number, uint16_t *value)
{
    if (!mask[number])
        return SC_NO_REGISTER;
    *value = bank[number];
    return SC_DONE;
}

static uint8_t store(uint8_t *bank, const uint8_t *mask, uint8_t number, uint8_t value)
{
    if (!mask[number])
        return SC_NO_REGISTER;
    bank[number] = value & mask[number];
    return SC_DONE;
}

/* 01 "Places": SR6 reads 12. */
static uint8_t read_sr(const struct sc_file *f, uint8_t number, uint16_t *value)
{
    if (number != 0x06)
        return load(f->sr, sr_mask, number, value);
    *value = SR6_READS;
    return SC_DONE;
}

static uint8_t write_sr(struct sc_file *f, uint8_t number, uint8_t value)
{
    if (number == 0x06)
        return SC_READ_ONLY;
    return store(f->sr, sr_mask, number, value);
}

/* 01 "Places": CR24 shows the toggle, CR26 ARX. */
static uint8_t read_cr(const struct sc_file *f, uint8_t number, uint16_t *value)
{
    switch (number) {
    case 0x24: *value = f->data_next ? 0x80 : 0x00; return SC_DONE;
    case 0x26: *value = f->arx; return SC_DONE;
    default: return load(f->cr, cr_mask, number, value);
    }
}

/* 01 "Places", the lock: CR0 to CR6 answer 8, CR7 stores bit 4 only. */
static uint8_t write_cr(struct sc_file *f, uint8_t number, uint8_t value)
{
    bool locked = f->cr[0x11] & CR11_LOCK;

    if (number == 0x24 || number == 0x26)
        return SC_READ_ONLY;
    if (locked && number <= 0x06)
        return SC_LOCKED;
    if (locked && number == 0x07)
        value = (f->cr[0x07] & ~CR7_UNLOCKED) | (value & CR7_UNLOCKED);
    return store(f->cr, cr_mask, number, value);
}

/* 01 "Places": a 3C0h write is index or data by the toggle, and flips it either way. */
static uint8_t write_attribute(struct sc_file *f, uint8_t value)
{
    f->data_next = !f->data_next;
    if (!f->data_next)
        return store(f->ar, ar_mask, f->arx & ARX_INDEX, value);
    f->arx = value & ARX_MASK;
    return SC_DONE;
}

/* 01 "Places" and "The palette pointer": a read that passed the checks 2 to 6. */
static uint8_t read_place(struct sc_file *f, struct place at, uint16_t *value)
{
    switch (at.unit) {
    case SR: return read_sr(f, at.number, value);
    case CR: return read_cr(f, at.number, value);
    case GR: return load(f->gr, gr_mask, at.number, value);
    case AR: return load(f->ar, ar_mask, at.number, value);
    case PIXEL: return read_pixel(f, value);
    case PCI00: *value = PCI00_READS; break;
    case PCI02: *value = f->chip == SC_5462 ? PCI02_READS_5462 : PCI02_READS_5464; break;
    case PCI04: *value = f->pci04; break;
    case MISC: *value = f->misc; break;
    case SRX: *value = f->srx; break;
    case CRX: *value = f->crx; break;
    case GRX: *value = f->grx; break;
    case ARX: *value = f->arx; break;
    case STATUS: *value = read_status(f); f->data_next = false; break;
    case LINE: *value = shown_line(f); break;
    case PIXEL_MASK: *value = f->pixel_mask; break;
    case READ_ADDRESS: *value = f->pointer.reading ? 3 : 0; break;
    case WRITE_ADDRESS: *value = f->pointer.address; break;
    case PIPE: *value = at.number == SC_B0 ? read_b0(f) : f->pipe[at.number]; break;
    case VPORT: *value = f->vport[at.number] | vport(f->chip, at.number)->besides; break;
    case ATTRIBUTE: case NOWHERE: return SC_NOT_HELD;           /* never a read's */
    }
    return SC_DONE;
}

/* 01 "Places" and "The palette pointer": a write that passed the checks 2 to 6. */
static uint8_t write_place(struct sc_file *f, struct place at, uint16_t value)
{
    switch (at.unit) {
    case SR: return write_sr(f, at.number, value);
    case CR: return write_cr(f, at.number, value);
    case GR: return store(f->gr, gr_mask, at.number, value);
    case AR: return store(f->ar, ar_mask, at.number, value);
    case ATTRIBUTE: return write_attribute(f, value);
    case PIXEL: return write_pixel(f, value);
    case PCI00: case PCI02: return SC_READ_ONLY;
    case PCI04: f->pci04 = value & PCI04_MASK; break;
    case MISC: f->misc = value & MISC_MASK; break;
    case SRX: f->srx = value & SRX_MASK; break;
    case CRX: f->crx = value & CRX_MASK; break;
    case GRX: f->grx = value & GRX_MASK; break;
    case PIXEL_MASK: f->pixel_mask = value; break;
    case READ_ADDRESS: point(&f->pointer, value, true); break;
    case WRITE_ADDRESS: point(&f->pointer, value, false); break;
    case PIPE: f->pipe[at.number] = value & pipes[at.number].mask; break;
    case VPORT: f->vport[at.number] = value & vport(f->chip, at.number)->mask; break;
    case ARX: case STATUS: case LINE: case NOWHERE: return SC_NOT_HELD;     /* never a write's */
    }
    return SC_DONE;
}

/* ---- One access, and a run ---- */

/*
 * 01 "Accesses and replies", code 2, the fragment apart; 02, 10/13: kind 6 has "width 2, address 0,
 * value 1 to 65,535".
 */
static bool malformed(const struct sc_record *r)
{
    if (r->kind == SC_LINES_PASS)
        return r->width != 2 || r->address != 0 || r->value < 1 || r->value > 0xFFFF;
    if (r->kind > SC_LINES_PASS || r->width < 1 || r->width > 2)
        return true;
    if (is_write(r))
        return (r->value >> (8 * r->width)) != 0;
    return r->value != 0;
}

/* 01 "Accesses and replies", code 3: PCI04[0] opens the ports, PCI04[1] MMIO; config is open. */
static bool space_off(const struct sc_file *f, const struct sc_record *r)
{
    switch (r->kind) {
    case SC_PORT_READ: case SC_PORT_WRITE: return !(f->pci04 & 1);
    case SC_MMIO_READ: case SC_MMIO_WRITE: return !(f->pci04 & 2);
    default: return false;
    }
}

/* 01 "Accesses and replies", code 5: 3B?h while MISC[0]=1, 3D?h while it is 0. */
static bool other_base(const struct sc_file *f, const struct sc_record *r)
{
    if (r->kind != SC_PORT_READ && r->kind != SC_PORT_WRITE)
        return false;
    switch (r->address) {
    case 0x3B4: case 0x3B5: case 0x3BA: return f->misc & MISC_COLOUR;
    case 0x3D4: case 0x3D5: case 0x3DA: return !(f->misc & MISC_COLOUR);
    default: return false;
    }
}

/*
 * 02 2/13, an address with no place: 16 if it is held in the other direction, 17 if it falls inside
 * a wider register, held in either, 4 if there is nothing at all.
 */
static uint8_t not_held(const struct sc_file *f, const struct sc_record *r)
{
    struct sc_record other = *r, below = *r, other_below;

    other.kind ^= 1;
    if (place_of(f, &other).unit != NOWHERE)
        return SC_OTHER_DIRECTION;
    if (r->address == 0)
        return SC_NOT_HELD;
    below.address--;
    other_below = below;
    other_below.kind ^= 1;
    if (place_of(f, &below).width > 1 || place_of(f, &other_below).width > 1)
        return SC_INSIDE_WIDER;
    return SC_NOT_HELD;
}

/* 01 "Accesses and replies": the checks in their order, on a file known to be sound. */
static uint8_t perform(struct sc_file *f, const struct sc_record *r, uint16_t *value)
{
    if (malformed(r))
        return SC_MALFORMED;
    if (r->kind == SC_LINES_PASS) {
        pass_lines(f, r->value);
        return SC_DONE;
    }
    if (space_off(f, r))
        return SC_SPACE_OFF;
    struct place at = place_of(f, r);
    if (at.unit == NOWHERE)
        return not_held(f, r);
    if (other_base(f, r))
        return SC_OTHER_BASE;
    if (r->width != at.width)
        return SC_WRONG_WIDTH;
    return is_write(r) ? write_place(f, at, r->value) : read_place(f, at, value);
}

static struct sc_reply refusal(uint8_t code, const struct sc_record *r)
{
    return (struct sc_reply){ .code = code, .kind = r->kind, .address = r->address };
}

static struct sc_reply access_sound(struct sc_file *f, const struct sc_record *r)
{
    struct sc_reply reply = refusal(SC_DONE, r);

    reply.code = perform(f, r, &reply.value);
    return reply;
}

struct sc_reply sc_access(struct sc_file *f, const struct sc_record *r)
{
    return sc_sound(f) ? access_sound(f, r) : refusal(SC_UNSOUND, r);
}

struct sc_record sc_record_from(const uint8_t b[SC_RECORD_BYTES])
{
    return (struct sc_record){
        .kind = b[0],
        .width = b[1],
        .address = (uint16_t)(b[2] | b[3] << 8),
        .value = b[4] | (uint32_t)b[5] << 8 | (uint32_t)b[6] << 16 | (uint32_t)b[7] << 24,
    };
}

void sc_reply_to(const struct sc_reply *reply, uint8_t b[SC_REPLY_BYTES])
{
    b[0] = reply->code;
    b[1] = reply->kind;
    b[2] = reply->address & 0xFF;
    b[3] = reply->address >> 8;
    b[4] = reply->value & 0xFF;
    b[5] = reply->value >> 8;
    b[6] = 0;
    b[7] = 0;
}

/* 01 "Accesses and replies": missing bytes count as zero, the fragment has code 2. */
static struct sc_reply fragment(const uint8_t *bytes, size_t length)
{
    uint8_t whole[SC_RECORD_BYTES] = { 0 };

    memcpy(whole, bytes, length);
    struct sc_record r = sc_record_from(whole);
    return refusal(SC_MALFORMED, &r);
}

/* Soundness is checked once: every access keeps it. */
struct sc_progress sc_run(struct sc_file *f, const uint8_t *trace, size_t length,
                          uint8_t *replies, size_t room)
{
    struct sc_progress p = { SC_DONE, 0, trace, length };

    if (!sc_sound(f)) {
        p.code = SC_UNSOUND;
        return p;
    }
    for (; p.rest_length > 0 && p.count < room / SC_REPLY_BYTES; p.count++) {
        bool whole = p.rest_length >= SC_RECORD_BYTES;
        size_t taken = whole ? SC_RECORD_BYTES : p.rest_length;
        struct sc_reply reply;

        if (whole) {
            struct sc_record r = sc_record_from(p.rest);
            reply = access_sound(f, &r);
        } else {
            reply = fragment(p.rest, taken);
        }
        sc_reply_to(&reply, replies + SC_REPLY_BYTES * p.count);
        p.rest += taken;
        p.rest_length -= taken;
    }
    return p;
}

/* ---- Timing ---- */

/* The low n bits of the value, lowest piece first; all other bits stay. */
static void scatter(struct sc_file *f, const struct field *field, uint32_t value)
{
    for (size_t i = PIECES; i-- > 0;) {
        const struct piece *p = &field->piece[i];
        unsigned bits = piece_bits(f, p);
        unsigned ones = (1u << bits) - 1;
        f->cr[p->cr] = (f->cr[p->cr] & ~(ones << p->low)) | (value & ones) << p->low;
        value >>= bits;
    }
}

static bool in_range(const struct sc_file *f, const struct sc_timing *t, size_t i)
{
    const struct field *field = &fields[i];
    uint32_t least = field->start == PLAIN ? field->bias : t->number[field->start] + 1;

    return t->number[i] >= least && t->number[i] - least < span(f, field);
}

/* A start stands before its end in the table, so it is known when the end needs it. */
uint8_t sc_timing_read(const struct sc_file *f, struct sc_timing *t)
{
    *t = (struct sc_timing){ 0 };
    if (!sc_sound(f))
        return SC_UNSOUND;
    for (size_t i = 0; i < SC_NUMBERS; i++) {
        int8_t start = fields[i].start;
        t->number[i] = read_number(f, i, start == PLAIN ? 0 : t->number[start]);
    }
    return SC_DONE;
}

uint8_t sc_timing_write(struct sc_file *f, const struct sc_timing *t)
{
    if (!sc_sound(f))
        return SC_UNSOUND;
    if (f->cr[0x11] & CR11_LOCK)
        return SC_LOCKED;
    for (size_t i = 0; i < SC_NUMBERS; i++)
        if (!in_range(f, t, i))
            return SC_OUT_OF_RANGE;
    for (size_t i = 0; i < SC_NUMBERS; i++)
        scatter(f, &fields[i], t->number[i] - fields[i].bias);
    return SC_DONE;
}

/* ---- Cursor and window 2 ---- */

static uint32_t shown(uint32_t preset)
{
    return preset < 64 ? 64 - preset : 0;
}

uint8_t sc_cursor_read(const struct sc_file *f, struct sc_cursor *c)
{
    uint32_t x_preset = f->pipe[SC_E4] >> 8 & 0x7F;
    uint32_t y_preset = f->pipe[SC_E4] & 0x7F;

    *c = (struct sc_cursor){ 0 };
    if (!sc_sound(f))
        return SC_UNSOUND;
    c->enabled = f->pipe[SC_E6] & 1;
    c->left = (int32_t)f->pipe[SC_E0] - (int32_t)x_preset;
    c->top = (int32_t)f->pipe[SC_E2] - (int32_t)y_preset;
    c->width = shown(x_preset);
    c->height = shown(y_preset);
    c->image = UINT32_C(1024) * (f->pipe[SC_E8] >> 2 & 0x1FFF);
    return SC_DONE;
}

uint8_t sc_window2_read(const struct sc_file *f, struct sc_window2 *w)
{
    struct sc_timing t;
    uint32_t d2 = f->pipe[SC_D2];

    *w = (struct sc_window2){ .empty = true };
    if (sc_timing_read(f, &t) != SC_DONE)
        return SC_UNSOUND;
    w->enabled = f->pipe[SC_D4] & 0x80;
    w->format = f->pipe[SC_D4] & 0x40;
    w->left = f->pipe[SC_CC];
    w->top = f->pipe[SC_CE];
    w->right = f->pipe[SC_D0];
    w->bottom = d2 < t.number[SC_V_DISPLAY] ? d2 : t.number[SC_V_DISPLAY];
    w->empty = w->right <= w->left || w->bottom <= w->top;
    w->fault = d2 > t.number[SC_V_TOTAL];
    w->blt_scanlines[0] = 64 * (f->pipe[SC_D4] & 0x3F);
    w->blt_scanlines[1] = 64 * (f->pipe[SC_D5] & 0x3F);
    return SC_DONE;
}

uint8_t sc_capture_read(const struct sc_file *f, struct sc_capture *c)
{
    *c = (struct sc_capture){ 0 };
    if (!sc_sound(f))
        return SC_UNSOUND;
    c->x_start = f->vport[SC_X_START];
    c->x_stop = f->vport[SC_X_STOP];
    c->y_start = f->chip == SC_5462 ? 0 : f->vport[SC_10C];
    c->y_stop = f->vport[SC_Y_STOP];
    return SC_DONE;
}

/*
 * ---- Plan ----
 * Written with the proved plan in sight: it is no measure of a plan's bytes, but what the wrong
 * plans of tests/mistakes.py are copies of, and what bench/ counts beside the proved one.
 */

/* One record at the end of a plan; the plan's new end. */
static uint8_t *put(uint8_t *end, uint8_t kind, uint8_t width, uint16_t address, uint16_t value)
{
    const uint8_t record[SC_RECORD_BYTES] = {
        kind, width, address & 0xFF, address >> 8, value & 0xFF, value >> 8,
    };

    memcpy(end, record, sizeof record);
    return end + sizeof record;
}

static uint8_t *put_port(uint8_t *end, uint16_t address, uint8_t value)
{
    return put(end, SC_PORT_WRITE, 1, address, value);
}

static uint8_t *put_mmio(uint8_t *end, uint16_t address, uint8_t value)
{
    return put(end, SC_MMIO_WRITE, 1, address, value);
}

/* A 3?Ah read under the wanted MISC: the toggle at index. */
static uint8_t *put_status(uint8_t *end, const struct sc_file *w)
{
    return put(end, SC_PORT_READ, 1, w->misc & MISC_COLOUR ? 0x3DA : 0x3BA, 0);
}

/* 01 "Mistakes that look right": what the start may shut or turn is set before it is relied on.
 * 02, 7/13: static sync too, "whatever the start holds". */
static uint8_t *put_opening(uint8_t *end, const struct sc_file *w)
{
    end = put(end, SC_CONFIG_WRITE, 2, 0x04, 0x0003);
    end = put_mmio(end, 0x44, 0);
    end = put_mmio(end, 0x68, 0);
    end = put_mmio(end, 0x80, w->misc);
    return put_status(end, w);
}

/* The named entries of the palette or, with B0[3]=1, of the bank: the address steps by itself. */
static uint8_t *put_entries(uint8_t *end, uint8_t b0, const uint8_t (*entry)[SC_COLOURS],
                            const bool *named, size_t count)
{
    end = put_mmio(end, 0xB0, b0);
    for (size_t i = 0; i < count; i++) {
        if (!named[i])
            continue;
        if (i == 0 || !named[i - 1])
            end = put_mmio(end, 0xA8, (uint8_t)i);
        for (size_t colour = 0; colour < SC_COLOURS; colour++)
            end = put_mmio(end, 0xAC, entry[i][colour]);
    }
    return end;
}

/* 02, 1/13: behind the entries the last access is write, blue; the pointer is before red. */
static uint8_t *put_last(uint8_t *end, const struct sc_last *last)
{
    if (!last->reading && last->colour == SC_BLUE)
        return end;
    for (unsigned i = 0; i <= last->colour; i++)
        end = last->reading ? put(end, SC_MMIO_READ, 1, 0xAC, 0) : put_mmio(end, 0xAC, 0);
    return end;
}

/* Index and data of every named register of a group that stores anything. */
static uint8_t *put_group(uint8_t *end, uint16_t index, uint16_t data, const uint8_t *bank,
                          const uint8_t *mask, const bool *named, uint8_t count)
{
    for (uint8_t i = 0; i < count; i++)
        if (mask[i] && named[i]) {
            end = put_port(end, index, i);
            end = put_port(end, data, bank[i]);
        }
    return end;
}

/* CR11, CR1A and B0 wait for the closing. */
static uint8_t *put_registers(uint8_t *end, const struct sc_file *w, const struct sc_set *s)
{
    for (uint8_t i = 0; i < SC_CRS; i++)
        if (cr_mask[i] && s->cr[i] && i != 0x11 && i != 0x1A)
            end = put_mmio(end, 4 * i, w->cr[i]);
    for (uint8_t i = SC_B0 + 1; i < SC_PIPES; i++)
        if (s->pipe[i])
            end = put(end, SC_MMIO_WRITE, pipes[i].width, pipes[i].offset, w->pipe[i]);
    for (uint8_t i = 0; i < SC_VPORTS; i++)
        if (s->vport[i])
            end = put(end, SC_MMIO_WRITE, 2, 0x100 + 2 * i, w->vport[i]);
    if (s->pixel_mask)
        end = put_mmio(end, 0xA0, w->pixel_mask);
    end = put_group(end, 0x3C4, 0x3C5, w->sr, sr_mask, s->sr, SC_SRS);
    end = put_group(end, 0x3CE, 0x3CF, w->gr, gr_mask, s->gr, SC_GRS);
    return put_group(end, 0x3C0, 0x3C0, w->ar, ar_mask, s->ar, SC_ARS);
}

/* The index written to 3C0h leaves the toggle at data. */
static uint8_t *put_indices(uint8_t *end, const struct sc_file *w)
{
    end = put_port(end, 0x3C4, w->srx);
    end = put_port(end, 0x3CE, w->grx);
    end = put_port(end, w->misc & MISC_COLOUR ? 0x3D4 : 0x3B4, w->crx);
    end = put_port(end, 0x3C0, w->arx);
    return w->data_next ? end : put_status(end, w);
}

static uint8_t *put_closing(uint8_t *end, const struct sc_file *w)
{
    end = put_mmio(end, w->pointer.reading ? 0xA4 : 0xA8, w->pointer.address);
    end = put_mmio(end, 0xB0, w->pipe[SC_B0]);
    end = put_mmio(end, 0x68, w->cr[0x1A]);
    end = put_mmio(end, 0x44, w->cr[0x11]);
    return put(end, SC_CONFIG_WRITE, 2, 0x04, w->pci04);
}

/* Opening, indices and closing are always there: the named registers in between need them. */
static size_t put_plan(uint8_t *buffer, const struct sc_file *w, const struct sc_set *s)
{
    uint8_t *end = put_opening(buffer, w);

    end = put_entries(end, 0, w->palette, s->palette, SC_PALETTE_ENTRIES);
    end = put_entries(end, B0_BANK, w->bank, s->bank, SC_BANK_ENTRIES);
    end = put_last(end, &w->last);
    end = put_registers(end, w, s);
    end = put_indices(end, w);
    end = put_closing(end, w);
    return (size_t)(end - buffer) / SC_RECORD_BYTES;
}

uint8_t sc_plan(const struct sc_file *wanted, uint8_t *buffer, size_t room, size_t *count)
{
    struct sc_set all;

    memset(&all, true, sizeof all);
    *count = 0;
    if (!sc_sound(wanted))
        return SC_UNSOUND;
    if (wanted->pointer.colour != SC_RED)
        return SC_NOT_BEFORE_RED;
    if (room < SC_PLAN_BYTES)
        return SC_SHORT_BUFFER;
    *count = put_plan(buffer, wanted, &all);
    return SC_DONE;
}

uint8_t sc_restore(struct sc_file *current, const struct sc_file *wanted,
                   uint8_t *buffer, size_t room, size_t *count)
{
    uint8_t replies[SC_PLAN_BYTES], code;

    *count = 0;
    if (!sc_sound(current) || !sc_sound(wanted))
        return SC_UNSOUND;
    if (current->chip != wanted->chip)
        return SC_OTHER_CHIP;
    code = sc_plan(wanted, buffer, room, count);
    if (code != SC_DONE)
        return code;
    sc_run(current, buffer, SC_RECORD_BYTES * *count, replies, sizeof replies);
    return SC_DONE;
}

/* ---- The set, and short plans; 02, 11/13 ---- */

static size_t count_named(const bool *named, const uint8_t *mask, size_t count)
{
    size_t sum = 0;

    for (size_t i = 0; i < count; i++)
        sum += named[i] && (!mask || mask[i]);
    return sum;
}

size_t sc_named(const struct sc_set *s)
{
    return (size_t)s->pci04 + s->misc + s->srx + s->crx + s->grx + s->arx + s->pixel_mask
        + s->toggle + s->pointer + s->marks
        + count_named(s->sr, sr_mask, SC_SRS) + count_named(s->cr, cr_mask, SC_CRS)
        + count_named(s->gr, gr_mask, SC_GRS) + count_named(s->ar, ar_mask, SC_ARS)
        + count_named(s->pipe, NULL, SC_PIPES) + count_named(s->vport, NULL, SC_VPORTS)
        + count_named(s->palette, NULL, SC_PALETTE_ENTRIES)
        + count_named(s->bank, NULL, SC_BANK_ENTRIES);
}

/* A done 3C9h access moves pointer and marks; a write at blue stores the entry. */
static void name_pixel(struct sc_set *s, const struct sc_file *f, bool write)
{
    bool stores = write && f->pointer.colour == SC_BLUE, bank = f->pipe[SC_B0] & B0_BANK;

    s->pointer = s->marks = true;
    if (stores && bank)
        s->bank[f->pointer.address % SC_BANK_ENTRIES] = true;
    else if (stores)
        s->palette[f->pointer.address] = true;
}

/* A done 3C0h write names ARX or the ARn that it has stored, and the toggle. */
static void name_attribute(struct sc_set *s, const struct sc_file *f)
{
    s->toggle = true;
    if (f->data_next)
        s->ar[f->arx & ARX_INDEX] = true;
    else
        s->arx = true;
}

/* What a done write to a place has stored into or moved; the file is the one before it. */
static void name_written(struct sc_set *s, const struct sc_file *f, struct place at)
{
    switch (at.unit) {
    case SR: s->sr[at.number] = true; break;
    case CR: s->cr[at.number] = true; break;
    case GR: s->gr[at.number] = true; break;
    case AR: s->ar[at.number] = true; break;
    case ATTRIBUTE: name_attribute(s, f); break;
    case PIXEL: name_pixel(s, f, true); break;
    case PCI04: s->pci04 = true; break;
    case MISC: s->misc = true; break;
    case SRX: s->srx = true; break;
    case CRX: s->crx = true; break;
    case GRX: s->grx = true; break;
    case PIXEL_MASK: s->pixel_mask = true; break;
    case READ_ADDRESS: case WRITE_ADDRESS: s->pointer = true; break;
    case PIPE: s->pipe[at.number] = true; break;
    case VPORT: s->vport[at.number] = true; break;
    case PCI00: case PCI02: case ARX: case STATUS: case LINE: case NOWHERE: break;
    }
}

/* Two reads move something: 3?Ah the toggle, where it was at index too, and 3C9h. */
static void name_read(struct sc_set *s, const struct sc_file *f, struct place at)
{
    if (at.unit == STATUS)
        s->toggle = true;
    if (at.unit == PIXEL)
        name_pixel(s, f, false);
}

/* Code 1 flips the toggle at 3C0h, and does nothing elsewhere; other refusals and kind 6 neither. */
static void name_access(struct sc_set *s, const struct sc_file *f, const struct sc_record *r,
                        uint8_t code)
{
    if (code > SC_NO_REGISTER || r->kind == SC_LINES_PASS)
        return;
    struct place at = place_of(f, r);
    if (code == SC_NO_REGISTER)
        s->toggle |= at.unit == ATTRIBUTE;
    else if (is_write(r))
        name_written(s, f, at);
    else
        name_read(s, f, at);
}

struct sc_reply sc_access_kept(struct sc_file *f, struct sc_set *s, const struct sc_record *r)
{
    struct sc_file before = *f;
    struct sc_reply reply = sc_access(f, r);

    name_access(s, &before, r, reply.code);
    return reply;
}

/* Record by record, so that each is named by the file before it. */
struct sc_progress sc_run_kept(struct sc_file *f, struct sc_set *s, const uint8_t *trace,
                               size_t length, uint8_t *replies, size_t room)
{
    struct sc_file before = *f;
    struct sc_progress p = sc_run(f, trace, length, replies, room);

    for (size_t i = 0; SC_RECORD_BYTES * (i + 1) <= length && i < p.count; i++) {
        struct sc_record r = sc_record_from(trace + SC_RECORD_BYTES * i);
        sc_access_kept(&before, s, &r);
    }
    return p;
}

/* The registers of the table's pieces; CR1A only where its pieces count. */
uint8_t sc_timing_write_kept(struct sc_file *f, struct sc_set *s, const struct sc_timing *t)
{
    uint8_t code = sc_timing_write(f, t);

    if (code != SC_DONE)
        return code;
    for (size_t i = 0; i < SC_NUMBERS; i++)
        for (size_t j = 0; j < PIECES; j++) {
            const struct piece *p = &fields[i].piece[j];
            s->cr[p->cr] |= piece_bits(f, p) > 0;
        }
    return code;
}

uint8_t sc_restore_kept(struct sc_file *current, struct sc_set *s, const struct sc_file *wanted,
                        uint8_t *buffer, size_t room, size_t *count)
{
    uint8_t code = sc_restore(current, wanted, buffer, room, count);

    if (code == SC_DONE)
        *s = (struct sc_set){ 0 };
    return code;
}

static bool bytes_same(const bool *named, const void *a, const void *b, size_t size, size_t count)
{
    for (size_t i = 0; i < count; i++)
        if (!named[i] && memcmp((const char *)a + size * i, (const char *)b + size * i, size))
            return false;
    return true;
}

static bool pointers_same(const struct sc_pointer *a, const struct sc_pointer *b)
{
    return a->address == b->address && a->reading == b->reading && a->colour == b->colour
        && a->held[SC_RED] == b->held[SC_RED] && a->held[SC_GREEN] == b->held[SC_GREEN];
}

/* Is everything the same that the set doesn't name? The line is outside. */
static bool same_outside(const struct sc_file *a, const struct sc_file *b, const struct sc_set *s)
{
    return (s->pci04 || a->pci04 == b->pci04) && (s->misc || a->misc == b->misc)
        && (s->srx || a->srx == b->srx) && (s->crx || a->crx == b->crx)
        && (s->grx || a->grx == b->grx) && (s->arx || a->arx == b->arx)
        && (s->pixel_mask || a->pixel_mask == b->pixel_mask)
        && (s->toggle || a->data_next == b->data_next)
        && (s->pointer || pointers_same(&a->pointer, &b->pointer))
        && (s->marks || (a->last.reading == b->last.reading && a->last.colour == b->last.colour))
        && bytes_same(s->sr, a->sr, b->sr, 1, SC_SRS) && bytes_same(s->cr, a->cr, b->cr, 1, SC_CRS)
        && bytes_same(s->gr, a->gr, b->gr, 1, SC_GRS) && bytes_same(s->ar, a->ar, b->ar, 1, SC_ARS)
        && bytes_same(s->pipe, a->pipe, b->pipe, sizeof *a->pipe, SC_PIPES)
        && bytes_same(s->vport, a->vport, b->vport, sizeof *a->vport, SC_VPORTS)
        && bytes_same(s->palette, a->palette, b->palette, SC_COLOURS, SC_PALETTE_ENTRIES)
        && bytes_same(s->bank, a->bank, b->bank, SC_COLOURS, SC_BANK_ENTRIES);
}

/*
 * The full plan's stages over what the set names. An entry is always loaded, the first if no other
 * is: the marks are made from write, blue, and the pointer from red. Nothing for an empty set.
 */
static size_t put_short(uint8_t *buffer, const struct sc_file *w, const struct sc_set *s)
{
    struct sc_set more = *s;

    if (sc_named(s) == 0)
        return 0;
    if (!count_named(s->palette, NULL, SC_PALETTE_ENTRIES)
        && !count_named(s->bank, NULL, SC_BANK_ENTRIES))
        more.palette[0] = true;
    return put_plan(buffer, w, &more);
}

uint8_t sc_short_plan(const struct sc_file *current, const struct sc_file *saved,
                      const struct sc_set *s, uint8_t *buffer, size_t room, size_t *count)
{
    *count = 0;
    if (!sc_sound(current) || !sc_sound(saved))
        return SC_UNSOUND;
    if (current->chip != saved->chip)
        return SC_OTHER_CHIP;
    if (saved->pointer.colour != SC_RED)
        return SC_NOT_BEFORE_RED;
    if (!same_outside(current, saved, s))
        return SC_CHANGED_OUTSIDE;
    if (room < SC_PLAN_BYTES)
        return SC_SHORT_BUFFER;
    *count = put_short(buffer, saved, s);
    return SC_DONE;
}

uint8_t sc_short_restore(struct sc_file *current, struct sc_set *s, const struct sc_file *saved,
                         uint8_t *buffer, size_t room, size_t *count)
{
    uint8_t replies[SC_PLAN_BYTES];
    uint8_t code = sc_short_plan(current, saved, s, buffer, room, count);

    if (code != SC_DONE)
        return code;
    sc_run(current, buffer, SC_RECORD_BYTES * *count, replies, sizeof replies);
    *s = (struct sc_set){ 0 };
    return SC_DONE;
}
