/* 01 "Marked examples" P1 to P11, the example of 01 "The replay program", and what 02 names. */
#include "check.h"
#include "replay.h"

static bool p1(void)
{
    struct sc_file f;

    sc_power_on(&f, chip);
    return in(&f, 0x3CC) == -3 && ask(&f, 9, 1, 0x3CC, 0) == -2;
}

static bool p2(void)
{
    struct sc_file f = opened();

    return ask(&f, SC_CONFIG_WRITE, 2, 0x04, 0xFFFF) == 0
        && ask(&f, SC_CONFIG_READ, 2, 0x04, 0) == 0x0027;
}

static bool p3(void)
{
    struct sc_file f = opened();

    return out(&f, 0x3C2, 0xFF) == 0 && in(&f, 0x3CC) == 0xEF && peek(&f, 0x80) == 0xEF;
}

static bool p4(void)
{
    struct sc_file f = opened();

    return poke(&f, 4 * 0x11, 0x80) == 0 && poke(&f, 0x00, 0x5F) == -8
        && poke(&f, 0x1C, 0xFF) == 0 && peek(&f, 0x1C) == 0x10;
}

static bool p5(void)
{
    struct sc_file f = opened();

    return out(&f, 0x3C2, 0x01) == 0 && in(&f, 0x3B4) == -5 && out(&f, 0x3B4, 0) == -5
        && peek16(&f, 0x00) == -6 && poke16(&f, 0x00, 0) == -6
        && peek(&f, 0x70) == -4 && poke(&f, 0x70, 0) == -4;
}

/* 02 2/13: 3CCh and, with MISC[0]=1, 3BAh written; config 05h and C1h; 3CAh. */
static bool request2(void)
{
    struct sc_file f = opened();

    return out(&f, 0x3CC, 0) == -16 && out(&f, 0x3C2, 0x01) == 0 && out(&f, 0x3BA, 0) == -16
        && ask(&f, SC_CONFIG_READ, 1, 5, 0) == -17 && peek(&f, 0xC1) == -17
        && poke(&f, 0xC1, 0) == -17 && in(&f, 0x3CA) == -4;
}

/* 02, 6/13: PCI02, and 10Ch at power-on, with all bits written, and with none. */
static bool request6(void)
{
    struct sc_file f = opened();
    bool old = chip == SC_5462;

    return ask(&f, SC_CONFIG_READ, 2, 0x02, 0) == (old ? 0x00D0 : 0x00D4)
        && peek16(&f, 0x10C) == (old ? 0x0C90 : 0)
        && poke16(&f, 0x10C, 0xFFFF) == 0 && peek16(&f, 0x10C) == (old ? 0xFFDF : 0x01FF)
        && poke16(&f, 0x10C, 0) == 0 && peek16(&f, 0x10C) == (old ? 0x0C00 : 0)
        && peek(&f, 0x10D) == -17 && peek16(&f, 0x110) == -4;
}

static bool p6(void)
{
    struct sc_file f = opened();

    return out(&f, 0x3C0, 0x15) == 0 && out(&f, 0x3C0, 0x07) == -1
        && in_at(&f, 0x3B4, 0x24) == 0x00;
}

static bool p7(void)
{
    struct sc_file f = opened();

    out(&f, 0x3C8, 0xFF);
    for (int i = 1; i <= 3; i++)
        if (out(&f, 0x3C9, i) != 0)
            return false;
    return !memcmp(f.palette[255], "\1\2\3", 3) && in(&f, 0x3C8) == 0x00;
}

static bool p8(void)
{
    struct sc_file f = opened();

    return poke(&f, 0xB0, 0xFF) == 0 && peek(&f, 0xB0) == 0x8A && in(&f, 0x3C9) == -9;
}

/* 02, 7/13: CR1A[3] and CR1A[2], each by itself; 3C7h and 3C8h work all the same. */
static bool request7(void)
{
    for (int sync = 0x04; sync <= 0x08; sync += 0x04) {
        struct sc_file f = opened();
        if (poke(&f, 0x68, sync) != 0 || in(&f, 0x3C9) != -9 || out(&f, 0x3C9, 1) != -9
            || peek(&f, 0xAC) != -9 || poke(&f, 0xAC, 1) != -9 || out(&f, 0x3C7, 5) != 0
            || in(&f, 0x3C7) != 3 || out(&f, 0x3C8, 6) != 0 || in(&f, 0x3C8) != 6
            || poke(&f, 0x68, 0xF3) != 0 || in(&f, 0x3C9) != 0)
            return false;
    }
    return true;
}

/* IBM mode 12h, with PCI04=0003h. */
static struct sc_file mode12(void)
{
    static const uint8_t cr[][2] = {
        { 0x00, 0x5F }, { 0x01, 0x4F }, { 0x02, 0x50 }, { 0x03, 0x82 }, { 0x04, 0x54 },
        { 0x05, 0x80 }, { 0x06, 0x0B }, { 0x07, 0x3E }, { 0x09, 0x40 }, { 0x10, 0xEA },
        { 0x11, 0x8C }, { 0x12, 0xDF }, { 0x13, 0x28 }, { 0x15, 0xE7 }, { 0x16, 0x04 },
        { 0x18, 0xFF },
    };
    struct sc_file f = opened();

    for (size_t i = 0; i < sizeof cr / sizeof cr[0]; i++)
        if (poke(&f, 4 * cr[i][0], cr[i][1]) != 0) {
            printf("FAILED: CR%X can't be written\n", cr[i][0]);
            exit(1);
        }
    return f;
}

static bool p9(void)
{
    static const struct sc_timing wanted = {
        { 100, 80, 80, 98, 84, 96, 525, 480, 487, 516, 490, 492, 1023, 40, 0 }
    };
    struct sc_file f = mode12();
    struct sc_timing t;

    return sc_timing_read(&f, &t) == 0 && !memcmp(&t, &wanted, sizeof t);
}

/* 02, 10/13: 3BAh at power-on; a wait for retrace in mode 12h; the line that 140h gives. */
static bool request10(void)
{
    static const struct { int line, status; } seen[] = {
        { 0, 0x00 }, { 479, 0x00 }, { 480, 0x01 }, { 489, 0x01 }, { 490, 0x09 }, { 491, 0x09 },
        { 492, 0x01 }, { 524, 0x01 }, { 525, 0x00 }, { 525 + 490, 0x09 }, { 525 + 492, 0x01 },
    };
    struct sc_file f = opened();
    int line = 0;

    if (in(&f, 0x3BA) != 0x08 || pass(&f, 1) != 0 || in(&f, 0x3BA) != 0x09)
        return false;
    f = mode12();
    for (size_t i = 0; i < sizeof seen / sizeof seen[0]; i++) {
        if (seen[i].line > line && pass(&f, (uint32_t)(seen[i].line - line)) != 0)
            return false;
        line = seen[i].line;
        if (in(&f, 0x3BA) != seen[i].status
            || peek16(&f, 0x140) != (chip == SC_5464 ? line % 525 : -4))
            return false;
    }
    return true;
}

/* Writes an H blank of so many clocks from clock 80 on; the code. */
static int write_h_blank(struct sc_file *f, uint32_t clocks)
{
    struct sc_timing t, back;
    struct sc_file before = *f;

    sc_timing_read(f, &t);
    t.number[SC_H_BLANK_START] = 80;
    t.number[SC_H_BLANK_END] = 80 + clocks;
    int code = sc_timing_write(f, &t);
    sc_timing_read(f, &back);
    bool right = code == 0 ? !memcmp(&t, &back, sizeof t) : same_file(&before, f);
    return right ? code : -1;
}

static bool p10(void)
{
    struct sc_file f = opened();

    if (write_h_blank(&f, 65) != 10 || write_h_blank(&f, 64) != 0)
        return false;
    poke(&f, 4 * 0x1B, 0x20);
    return write_h_blank(&f, 257) == 10 && write_h_blank(&f, 256) == 0;
}

static bool p11(void)
{
    struct sc_file f = opened();
    struct sc_cursor c;

    return poke16(&f, 0xE0, 0x0005) == 0 && poke16(&f, 0xE4, 0x0A00) == 0
        && sc_cursor_read(&f, &c) == 0 && c.left == -5 && c.width == 54;
}

/* Does the program print this, and nothing else, for these bytes? */
static bool prints(const uint8_t *trace, size_t length, const char *wanted)
{
    char printed[512];
    FILE *input = tmpfile(), *output = tmpfile();

    if (!input || !output || fwrite(trace, 1, length, input) != length)
        return false;
    rewind(input);
    bool done = replay(chip, input, output);
    rewind(output);
    size_t count = fread(printed, 1, sizeof printed, output);
    fclose(input);
    fclose(output);
    return done && count == strlen(wanted) && !memcmp(printed, wanted, count);
}

static bool replay_example(void)
{
    static const uint8_t trace[] = {
        0x01, 0x02, 0x04, 0x00, 0x03, 0x00, 0x00, 0x00,
        0x03, 0x01, 0xC2, 0x03, 0x01, 0x00, 0x00, 0x00,
        0x05, 0x01, 0x00, 0x00, 0x5F, 0x00, 0x00, 0x00,
        0x04, 0x01, 0x00, 0x00, 0x00, 0x00, 0x00, 0x00,
    };

    return prints(trace, sizeof trace,
                  "0 0 0000\n1 0 0000\n2 0 0000\n3 0 005F\n"
                  "timing 100 1 0 64 0 32 2 1 0 256 0 16 0 0 0\n");
}

static bool replay_empty(void)
{
    return prints((const uint8_t *)"", 0, "timing 5 1 0 64 0 32 2 1 0 256 0 16 0 0 0\n");
}

static bool replay_fragment(void)
{
    return prints((const uint8_t *)"\0\2", 2,
                  "0 2 0000\ntiming 5 1 0 64 0 32 2 1 0 256 0 16 0 0 0\n");
}

int main(void)
{
    static const struct check checks[] = {
        { "P1", "a closed port, a kind over 6", p1 },
        { "P2", "PCI04 keeps 0027h", p2 },
        { "P3", "MISC keeps EFh", p3 },
        { "P4", "the lock of CR0 and CR7", p4 },
        { "P5", "the other base, a width, an address", p5 },
        { "P6", "an attribute data write that names nothing", p6 },
        { "P7", "entry 255 written", p7 },
        { "P8", "B0 read back, power-down", p8 },
        { "P9", "IBM mode 12h", p9 },
        { "P10", "the widest H blank", p10 },
        { "P11", "the cursor left of the screen", p11 },
        { "02 2/13", "three kinds of nothing held", request2 },
        { "02 6/13", "PCI02 and 10Ch by the chip", request6 },
        { "02 7/13", "static sync stops the palette", request7 },
        { "02 10/13", "lines pass, and retrace comes", request10 },
        { "replay", "the example", replay_example },
        { "replay", "an empty trace", replay_empty },
        { "replay", "a fragment alone", replay_fragment },
    };

    return run_checks(checks, sizeof checks / sizeof checks[0], NULL);
}
