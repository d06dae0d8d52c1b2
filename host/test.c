/* Tests of the header, the device model and the image: prints what fails, and ends with 'N passed, M failed'. */
#include "device.h"

#include <stdio.h>
#include <string.h>

static int passed, failed;

static void check(int holds, const char *what)
{
    if (holds) {
        passed++;
        return;
    }
    failed++;
    printf("FAILED: %s\n", what);
}

/* ---- The header's sizes and offsets are the library's ---- */

static void check_layout(void)
{
    sedgecoil_file file;

    check(sedgecoil_layout(0) == SEDGECOIL_REGISTERS, "how many registers");
    check(sedgecoil_layout(1) == SEDGECOIL_REST, "how many bytes behind them");
    check(sedgecoil_layout(2) == SEDGECOIL_SET, "how many bytes a set has");
    check(sedgecoil_layout(3) == SEDGECOIL_IMAGE, "how many bytes an image has");
    check(sedgecoil_layout(4) == SEDGECOIL_VERSION, "the image's version");
    check(sedgecoil_layout(5) == offsetof(sedgecoil_file, palette) - offsetof(sedgecoil_file, line),
          "where the palette begins");
    check(sedgecoil_layout(6) == offsetof(sedgecoil_file, bank) - offsetof(sedgecoil_file, line),
          "where the bank begins");
    check(sedgecoil_layout(7) == SEDGECOIL_TIMING_COUNT, "how many timing numbers");
    check(sedgecoil_layout(8) == SEDGECOIL_CURSOR_COUNT, "how many numbers a cursor has");
    check(sedgecoil_layout(9) == SEDGECOIL_WINDOW_COUNT, "how many a window has");
    check(sedgecoil_layout(10) == SEDGECOIL_CAPTURE_COUNT, "how many a capture window has");
    check(sedgecoil_layout(11) == SEDGECOIL_REACH_COUNT, "how many a reach has");
    check(sedgecoil_layout(12) == 0 && sedgecoil_layout(UINT32_MAX) == 0, "nothing else is counted");
    check(sizeof file == 2 * sedgecoil_layout(0) + sedgecoil_layout(1), "the struct has no padding");
    check(offsetof(sedgecoil_file, line) == sizeof file.registers, "the rest begins behind the registers");
}

static void enable(sedgecoil_file *file)
{
    sedgecoil_access(file, SEDGECOIL_CONFIG_WRITE, 2, 0x04, 3);
}

/* Each byte of the state, moved by an access. */
static void check_fields(void)
{
    sedgecoil_file file;

    check(sedgecoil_power_on(&file, SEDGECOIL_5464) == 0 && file.chip == SEDGECOIL_5464, "power on");
    check(sedgecoil_power_on(&file, 2) == SEDGECOIL_MALFORMED && file.chip == SEDGECOIL_5464, "no such chip");
    enable(&file);
    check(file.registers[6] == 3, "PCI04 is register 6");
    sedgecoil_access(&file, SEDGECOIL_PORT_WRITE, 1, 0x3C7, 0x21);
    check(file.address == 0x21 && file.reading == 1, "the pointer's address and mode");
    sedgecoil_access(&file, SEDGECOIL_PORT_WRITE, 1, 0x3C8, 0x42);
    check(file.address == 0x42 && file.reading == 0, "the pointer written");
    sedgecoil_access(&file, SEDGECOIL_PORT_WRITE, 1, 0x3C9, 0x11);
    check(file.next == 1 && file.red == 0x11 && file.marks == 0, "red is held");
    sedgecoil_access(&file, SEDGECOIL_PORT_WRITE, 1, 0x3C9, 0x22);
    check(file.next == 2 && file.green == 0x22 && file.marks == 1, "green is held");
    sedgecoil_access(&file, SEDGECOIL_PORT_WRITE, 1, 0x3C9, 0x33);
    check(file.palette[0x42][0] == 0x11 && file.palette[0x42][1] == 0x22 && file.palette[0x42][2] == 0x33,
          "an entry is painted");
    check(file.address == 0x43 && file.next == 0 && file.marks == 2, "the pointer moves on");
    sedgecoil_access(&file, SEDGECOIL_MMIO_WRITE, 1, 0xB0, 0x08);
    sedgecoil_access(&file, SEDGECOIL_PORT_WRITE, 1, 0x3C8, 0x15);
    for (int i = 1; i <= 3; i++)
        sedgecoil_access(&file, SEDGECOIL_PORT_WRITE, 1, 0x3C9, (uint32_t)i);
    check(file.bank[5][0] == 1 && file.bank[5][1] == 2 && file.bank[5][2] == 3, "an entry of the bank");
    sedgecoil_access(&file, SEDGECOIL_PORT_WRITE, 1, 0x3C0, 0x01);
    check(file.toggle == 1, "the toggle");
    sedgecoil_access(&file, SEDGECOIL_LINES_PASS, 2, 0, 1);
    check(file.line <= 2048, "the line");
}

/* ---- Timing, cursor, window 2, capture and reach ---- */

static const uint32_t mode[SEDGECOIL_TIMING_COUNT] = {100, 80,  80,  98,  84,   96, 525,    480,
                                                      487, 516, 490, 492, 1023, 40, 0x12345};

static void check_timing(uint8_t chip)
{
    static const uint32_t outside[] = {4, 517, 65535, 65536 + 5, UINT32_MAX};
    uint32_t numbers[SEDGECOIL_TIMING_COUNT], bad[SEDGECOIL_TIMING_COUNT];
    sedgecoil_file file, before;
    int refused = 1;

    sedgecoil_power_on(&file, chip);
    enable(&file);
    check(sedgecoil_timing_write(&file, mode) == SEDGECOIL_DONE, "a timing is written");
    check(sedgecoil_timing(&file, numbers) == SEDGECOIL_DONE && memcmp(numbers, mode, sizeof mode) == 0,
          "and read back");
    check(file.registers[25] == 95, "CR0 is register 25, and H total less 5");
    before = file;
    for (size_t i = 0; i < sizeof outside / sizeof *outside; i++) {
        memcpy(bad, mode, sizeof bad);
        bad[SEDGECOIL_H_TOTAL] = outside[i];
        refused = refused && sedgecoil_timing_write(&file, bad) == SEDGECOIL_OUT_OF_RANGE
                  && memcmp(&file, &before, sizeof file) == 0;
    }
    check(refused, "a number out of its range");
    sedgecoil_access(&file, SEDGECOIL_MMIO_WRITE, 1, 0x44, 0x80);
    before = file;
    check(sedgecoil_timing_write(&file, bad) == SEDGECOIL_LOCKED && memcmp(&file, &before, sizeof file) == 0,
          "while CR11[7] is set");
    file.line = 2049;
    before = file;
    check(sedgecoil_timing_write(&file, mode) == SEDGECOIL_NOT_SOUND && memcmp(&file, &before, sizeof file) == 0,
          "into an unsound file");
    check(sedgecoil_timing(&file, numbers) == SEDGECOIL_NOT_SOUND && memcmp(numbers, mode, sizeof mode) == 0,
          "nor read from one");
}

static void check_geometry(uint8_t chip)
{
    static const uint16_t writes[][2] = {{0xE0, 5},   {0xE2, 7},   {0xE4, 0x0A14}, {0xE6, 1},    {0xE8, 4},
                                         {0xCC, 10},  {0xCE, 20},  {0xD0, 30},     {0xD2, 4000}, {0x108, 11},
                                         {0x10A, 12}, {0x10C, 13}, {0x10E, 14}};
    static const int32_t cursor[SEDGECOIL_CURSOR_COUNT] = {1, -5, -13, 54, 44, 1024};
    static const uint32_t window[SEDGECOIL_WINDOW_COUNT] = {1, 1, 10, 20, 30, 480, 0, 1, 64, 128};
    uint32_t capture[SEDGECOIL_CAPTURE_COUNT] = {11, 12, chip == SEDGECOIL_5464 ? 13 : 0, 14};
    int32_t c[SEDGECOIL_CURSOR_COUNT];
    uint32_t w[SEDGECOIL_WINDOW_COUNT], v[SEDGECOIL_CAPTURE_COUNT];
    sedgecoil_file file;

    sedgecoil_power_on(&file, chip);
    enable(&file);
    sedgecoil_timing_write(&file, mode);
    for (size_t i = 0; i < sizeof writes / sizeof *writes; i++)
        sedgecoil_access(&file, SEDGECOIL_MMIO_WRITE, 2, writes[i][0], writes[i][1]);
    sedgecoil_access(&file, SEDGECOIL_MMIO_WRITE, 1, 0xD4, 0xC1);
    sedgecoil_access(&file, SEDGECOIL_MMIO_WRITE, 1, 0xD5, 0x02);
    check(sedgecoil_cursor(&file, c) == SEDGECOIL_DONE && memcmp(c, cursor, sizeof c) == 0,
          "the cursor, left and top below 0");
    check(sedgecoil_window(&file, w) == SEDGECOIL_DONE && memcmp(w, window, sizeof w) == 0, "window 2");
    check(sedgecoil_capture(&file, v) == SEDGECOIL_DONE && memcmp(v, capture, sizeof v) == 0, "the capture window");
    file.toggle = 2;
    check(sedgecoil_cursor(&file, c) == SEDGECOIL_NOT_SOUND && memcmp(c, cursor, sizeof c) == 0
              && sedgecoil_window(&file, w) == SEDGECOIL_NOT_SOUND && memcmp(w, window, sizeof w) == 0
              && sedgecoil_capture(&file, v) == SEDGECOIL_NOT_SOUND && memcmp(v, capture, sizeof v) == 0,
          "of an unsound file nothing");
}

static int reaches(const sedgecoil_file *file, uint8_t kind, uint8_t width, uint16_t address, uint32_t value,
                   const size_t wanted[SEDGECOIL_REACH_COUNT])
{
    size_t numbers[SEDGECOIL_REACH_COUNT];

    return sedgecoil_reach(file, kind, width, address, value, numbers) == SEDGECOIL_DONE
           && memcmp(numbers, wanted, sizeof numbers) == 0;
}

static void check_reach(uint8_t chip)
{
    static const size_t nothing[SEDGECOIL_REACH_COUNT] = {0}, word[] = {95, 0x0FFF, 0, 0, 0, 0, 0, 0, 0},
                        pointer[] = {0, 0, 1, 0, 0, 0, 0, 0, 0}, step[] = {0, 0, 1, 0, 1, 0, 0, 0, 0},
                        paint[] = {0, 0, 1, 0, 1, 0, 1, 0, 0x42}, toggle[] = {0, 0, 0, 1, 0, 0, 0, 0, 0},
                        line[] = {0, 0, 0, 0, 0, 1, 0, 0, 0}, bank[] = {0, 0, 1, 0, 1, 0, 0, 1, 2};
    size_t numbers[SEDGECOIL_REACH_COUNT];
    sedgecoil_file file, before;

    sedgecoil_power_on(&file, chip);
    check(reaches(&file, SEDGECOIL_MMIO_WRITE, 2, 0xE0, 1, nothing), "a refused access reaches nothing");
    enable(&file);
    before = file;
    check(reaches(&file, SEDGECOIL_MMIO_WRITE, 2, 0xE0, 1, word), "a register's bits");
    check(reaches(&file, SEDGECOIL_MMIO_READ, 2, 0xE0, 0, nothing), "a plain read reaches nothing");
    check(reaches(&file, SEDGECOIL_PORT_READ, 1, 0x3BA, 0, toggle), "the toggle");
    check(reaches(&file, SEDGECOIL_PORT_WRITE, 1, 0x3C8, 0x42, pointer), "the pointer");
    check(reaches(&file, SEDGECOIL_LINES_PASS, 2, 0, 1, line), "the line");
    check(memcmp(&file, &before, sizeof file) == 0, "and the file stays");
    sedgecoil_access(&file, SEDGECOIL_PORT_WRITE, 1, 0x3C8, 0x42);
    check(reaches(&file, SEDGECOIL_PORT_WRITE, 1, 0x3C9, 1, step), "pointer and marks");
    sedgecoil_access(&file, SEDGECOIL_PORT_WRITE, 1, 0x3C9, 1);
    sedgecoil_access(&file, SEDGECOIL_PORT_WRITE, 1, 0x3C9, 2);
    check(reaches(&file, SEDGECOIL_PORT_WRITE, 1, 0x3C9, 3, paint), "an entry of the palette");
    sedgecoil_access(&file, SEDGECOIL_MMIO_WRITE, 1, 0xB0, 0x08);
    check(reaches(&file, SEDGECOIL_PORT_WRITE, 1, 0x3C9, 3, bank), "an entry of the bank");
    file.chip = 2;
    memset(numbers, 0xEE, sizeof numbers);
    check(sedgecoil_reach(&file, SEDGECOIL_PORT_WRITE, 1, 0x3C9, 3, numbers) == SEDGECOIL_NOT_SOUND
              && numbers[0] == numbers[8] && numbers[8] != 2,
          "of an unsound file nothing");
}

/* ---- The device model ---- */

/* What the bus cuts at the ports: a word to an index is index and data. */
static void check_ports(void)
{
    static const uint16_t pairs[][2] = {{0x3C4, 0x0F02}, {0x3CE, 0x0A05}, {0x3B4, 0x5513}};
    device d;

    device_reset(&d, SEDGECOIL_5464);
    check(device_port_read(&d, 0x3C4, 2) == 0xFFFF, "while the ports are off nothing answers");
    device_config_write(&d, 0x04, 3, 2);
    for (size_t i = 0; i < sizeof pairs / sizeof *pairs; i++) {
        device_port_write(&d, pairs[i][0], pairs[i][1], 2);
        check(device_port_read(&d, pairs[i][0], 1) == (pairs[i][1] & 0xFF), "outw to an index port: the index");
        check(device_port_read(&d, pairs[i][0] + 1u, 1) == pairs[i][1] >> 8, "and the data");
        check(device_port_read(&d, pairs[i][0], 2) == pairs[i][1], "inw from it");
    }
    check(sedgecoil_code(sedgecoil_access(&d.file, SEDGECOIL_PORT_WRITE, 2, 0x3C4, 0x0F02)) == SEDGECOIL_WRONG_WIDTH,
          "uncut it is refused");
    device_port_read(&d, 0x3BA, 1);
    device_port_write(&d, 0x3C0, 0x0712, 2);
    check(d.file.toggle == 1 && device_port_read(&d, 0x3C0, 1) == 0x12,
          "outw to 3C0h: the index, and 3C1h isn't written");
    device_port_write(&d, 0x3C0, 0x05, 1);
    check(d.file.toggle == 0 && device_port_read(&d, 0x3C0, 2) == 0x0512, "then the data; inw has both");
    device_port_write(&d, 0x3C6, 0x110022FF, 4);
    check(device_port_read(&d, 0x3C6, 1) == 0xFF && d.file.address == 0 && d.file.reading == 0 && d.file.red == 0x11,
          "outl to 3C6h: mask, both addresses, data");
    check(device_port_read(&d, 0x300, 4) == 0xFFFFFFFF, "nothing answers there");
    check(device_port_read(&d, 0xFFFE, 4) == 0xFFFFFFFF && device_port_read(&d, 0x103C4, 1) == 0xFF,
          "nor past the last port");
}

/* In the other two spaces a register has one byte or two. */
static void check_config(void)
{
    device d;

    check(device_reset(&d, 2) == SEDGECOIL_MALFORMED && device_reset(&d, SEDGECOIL_5464) == SEDGECOIL_DONE,
          "a chip at power-on");
    check(device_config_read(&d, 0x00, 4) == 0x00D41013, "the ids as a dword");
    check(device_config_read(&d, 0x02, 2) == 0x00D4 && device_config_read(&d, 0x03, 1) == 0x00
              && device_config_read(&d, 0x00, 1) == 0x13,
          "as a word and as bytes");
    device_config_write(&d, 0x00, 0xFFFFFFFF, 4);
    check(device_config_read(&d, 0x00, 4) == 0x00D41013, "they are not written");
    check(device_mmio_read(&d, 0xE0, 4) == 0xFFFFFFFF, "while MMIO is off nothing answers");
    device_config_write(&d, 0x04, 0x23, 1);
    check(device_config_read(&d, 0x04, 2) == 0x0023, "the command word by its low byte");
    device_config_write(&d, 0x04, 0xFFFF0003, 4);
    check(device_config_read(&d, 0x04, 4) == 0xFFFF0003, "and in a dword, of which nothing holds the rest");
    check(device_config_read(&d, 0x3D, 1) == 0xFF, "no such byte of configuration");
}

static void check_mmio(void)
{
    device d;

    device_reset(&d, SEDGECOIL_5464);
    device_config_write(&d, 0x04, 2, 4);
    device_mmio_write(&d, 0xE0, 0x01230456, 4);
    check(device_mmio_read(&d, 0xE0, 2) == 0x0456 && device_mmio_read(&d, 0xE0, 4) == 0x01230456,
          "a dword is two words");
    device_mmio_write(&d, 0xE1, 0x0A, 1);
    check(device_mmio_read(&d, 0xE0, 2) == 0x0A56 && device_mmio_read(&d, 0xE1, 1) == 0x0A, "the high half of a word");
    device_mmio_write(&d, 0xE0, 0x99, 1);
    check(device_mmio_read(&d, 0xE0, 2) == 0x0A99, "and the low");
    device_mmio_write(&d, 0xE1, 0x7788, 2);
    check(device_mmio_read(&d, 0xE0, 4) == 0x01770899, "a word across two registers");
    device_mmio_write(&d, 0xD4, 0x1582, 2);
    check(device_mmio_read(&d, 0xD4, 1) == 0x82 && device_mmio_read(&d, 0xD5, 1) == 0x15
              && device_mmio_read(&d, 0xD4, 2) == 0x1582,
          "a word is two registers of a byte");
    device_mmio_write(&d, 0xD2, 0x33440222, 4);
    check(device_mmio_read(&d, 0xD2, 4) == 0x33440222, "a dword is a word and two bytes");
    device_mmio_write(&d, 0x30, 0xAABBCCDD, 4);
    check(device_mmio_read(&d, 0x30, 4) == 0xFFFFFFDD && device_mmio_read(&d, 0x30, 2) == 0xFFDD,
          "a byte with nothing behind it");
    check(device_mmio_read(&d, 0x100E0, 2) == 0xFFFF, "past the last address");
}

/* Scanlines pass, and a snapshot brings all back. */
static void check_snapshot(void)
{
    uint8_t image[SEDGECOIL_IMAGE];
    device d, other;

    device_reset(&d, SEDGECOIL_5464);
    device_config_write(&d, 0x04, 3, 2);
    check(sedgecoil_timing_write(&d.file, mode) == SEDGECOIL_DONE && d.file.line == 0, "a mode");
    device_tick(&d, 481);
    check(d.file.line == 481 && device_port_read(&d, 0x3BA, 1) == 0x01 && device_mmio_read(&d, 0x140, 2) == 481,
          "past the display");
    device_tick(&d, 525 * 1000 + 9);
    check(d.file.line == 490 && device_port_read(&d, 0x3BA, 1) == 0x09, "in the sync, a thousand frames later");
    check(device_save(&d, image) == SEDGECOIL_DONE, "a snapshot");
    other = d;
    device_tick(&d, 100);
    device_mmio_write(&d, 0xE0, 0, 4);
    check(memcmp(&d, &other, sizeof d) != 0 && device_load(&d, image, sizeof image) == SEDGECOIL_DONE
              && memcmp(&d, &other, sizeof d) == 0,
          "and back");
    image[0] ^= 1;
    check(device_load(&d, image, sizeof image) == SEDGECOIL_NOT_SOUND && memcmp(&d, &other, sizeof d) == 0,
          "a damaged one is refused");
}

/* ---- The image ---- */

/* A file that accesses have moved in every part. */
static void used_file(sedgecoil_file *file, uint8_t chip)
{
    sedgecoil_power_on(file, chip);
    enable(file);
    for (uint32_t i = 0; i < 0x110; i++) {
        sedgecoil_access(file, SEDGECOIL_MMIO_WRITE, 1, (uint16_t)i, i * 7 & 0x7F);
        sedgecoil_access(file, SEDGECOIL_MMIO_WRITE, 2, (uint16_t)i, i * 331 & 0xFFFF);
    }
    sedgecoil_access(file, SEDGECOIL_MMIO_WRITE, 1, 0x68, 0x00);
    sedgecoil_access(file, SEDGECOIL_MMIO_WRITE, 1, 0xB0, 0x00);
    sedgecoil_access(file, SEDGECOIL_PORT_WRITE, 1, 0x3C8, 0);
    for (uint32_t i = 0; i < 600; i++)
        sedgecoil_access(file, SEDGECOIL_PORT_WRITE, 1, 0x3C9, i & 0xFF);
    sedgecoil_access(file, SEDGECOIL_PORT_WRITE, 1, 0x3C9, 0x5A);
    check(file->next == 1 && file->red == 0x5A && file->palette[199][2] == 0x57, "a file with colours, in mid-colour");
}

static int is_sound(const sedgecoil_file *file)
{
    sedgecoil_file copy = *file;

    return sedgecoil_code(sedgecoil_access(&copy, SEDGECOIL_CONFIG_READ, 2, 0, 0)) != SEDGECOIL_NOT_SOUND;
}

static void check_saved(uint8_t chip)
{
    sedgecoil_file file, back, other;
    uint8_t image[SEDGECOIL_IMAGE + 1], set[SEDGECOIL_SET], set_back[SEDGECOIL_SET];

    used_file(&file, chip);
    for (int i = 0; i < SEDGECOIL_SET; i++)
        set[i] = i % 3 == 0;
    memset(image, 0xEE, sizeof image);
    check(sedgecoil_save(&file, set, image, SEDGECOIL_IMAGE - 1) == SEDGECOIL_SHORT_BUFFER && image[0] == 0xEE,
          "no room");
    check(sedgecoil_save(&file, set, image, sizeof image) == 0 && image[SEDGECOIL_IMAGE] == 0xEE, "saved");
    check(memcmp(image, "SGCL\1\1\0\0", 8) == 0, "the image's first bytes");
    check(memcmp(image + 8, &file, sizeof file) == 0, "registers and rest as they stand");
    sedgecoil_power_on(&back, SEDGECOIL_5462);
    memset(set_back, 0xEE, sizeof set_back);
    check(sedgecoil_load(&back, set_back, image, SEDGECOIL_IMAGE) == 0, "loaded");
    check(memcmp(&back, &file, sizeof file) == 0 && memcmp(set, set_back, sizeof set) == 0, "the same file and set");
    check(sedgecoil_save(&file, NULL, image, sizeof image) == 0 && image[5] == 0, "saved without a set");
    check(sedgecoil_load(&back, set_back, image, SEDGECOIL_IMAGE) == 0 && memcmp(set, set_back, sizeof set) == 0,
          "then the set stays");
    file.chip = 7;
    other = file;
    check(sedgecoil_save(&file, NULL, image, sizeof image) == SEDGECOIL_NOT_SOUND, "an unsound file isn't saved");
    check(sedgecoil_code(sedgecoil_access(&file, SEDGECOIL_CONFIG_READ, 2, 0, 0)) == SEDGECOIL_NOT_SOUND
              && memcmp(&file, &other, sizeof file) == 0,
          "nor accessed");
}

/* Every byte of an image as every other byte, and every shorter image: refused with all as it was, or a sound file. */
static void check_damaged(uint8_t chip)
{
    sedgecoil_file file, back, other;
    uint8_t image[SEDGECOIL_IMAGE], set[SEDGECOIL_SET] = {0}, set_back[SEDGECOIL_SET];
    int sound = 1, as_it_was = 1, heading = 0, shorter = 1;

    used_file(&file, chip);
    sedgecoil_power_on(&other, chip ^ 1);
    sedgecoil_save(&file, set, image, sizeof image);
    for (size_t length = 0; length < sizeof image; length++) {
        back = other;
        shorter = shorter && sedgecoil_load(&back, NULL, image, length) == SEDGECOIL_NOT_SOUND
                  && memcmp(&back, &other, sizeof back) == 0;
    }
    check(shorter, "a shorter image is refused");
    for (size_t at = 0; at < sizeof image; at++)
        for (unsigned change = 1; change < 256; change++) {
            image[at] ^= (uint8_t)change;
            back = other;
            memset(set_back, 0x55, sizeof set_back);
            if (sedgecoil_load(&back, set_back, image, sizeof image) == SEDGECOIL_DONE) {
                sound = sound && is_sound(&back) && memcmp(&back, image + 8, sizeof back) == 0;
            } else {
                as_it_was = as_it_was && memcmp(&back, &other, sizeof back) == 0 && set_back[0] == 0x55
                            && set_back[SEDGECOIL_SET - 1] == 0x55;
                heading += at < 8;
            }
            image[at] ^= (uint8_t)change;
        }
    check(sound, "a damaged image that loads is the sound file that it says");
    check(as_it_was, "one that is refused leaves file and set");
    check(heading == 8 * 255 - 1, "of the first eight bytes only whether a set is kept may differ");
}

/* ---- Runs, plans, restores and the set ---- */

static void check_plans(uint8_t chip)
{
    static uint8_t plan[SEDGECOIL_PLAN], replies[SEDGECOIL_PLAN];
    sedgecoil_file wanted, file, saved;
    size_t count = 7, ran = 0, bad = 0;

    used_file(&wanted, chip);
    sedgecoil_access(&wanted, SEDGECOIL_PORT_WRITE, 1, 0x3C8, 0);
    sedgecoil_power_on(&file, chip);
    check(sedgecoil_plan(&wanted, plan, sizeof plan - 1, &count) == SEDGECOIL_SHORT_BUFFER && count == 0,
          "a plan without room");
    check(sedgecoil_plan(&wanted, plan, sizeof plan, &count) == 0 && count > 0, "a plan");
    check(sedgecoil_run(&file, plan, 8 * count, replies, sizeof replies, &ran) == 0 && ran == count, "it runs");
    for (size_t i = 0; i < ran; i++)
        bad += replies[8 * i] != 0;
    check(bad == 0, "each record is accepted");
    file.line = wanted.line;
    check(memcmp(&file, &wanted, sizeof file) == 0, "and leads to the file");
    sedgecoil_power_on(&file, chip ^ 1);
    saved = file;
    check(sedgecoil_restore(&file, &wanted, plan, sizeof plan, &count) == SEDGECOIL_OTHER_CHIP
              && memcmp(&file, &saved, sizeof file) == 0,
          "another chip");
    sedgecoil_power_on(&file, chip);
    check(sedgecoil_restore(&file, &wanted, plan, sizeof plan, &count) == 0, "a restore");
    file.line = wanted.line;
    check(memcmp(&file, &wanted, sizeof file) == 0, "to the file");
}

static void check_short_plans(uint8_t chip)
{
    static uint8_t plan[SEDGECOIL_PLAN];
    sedgecoil_file file, saved;
    uint8_t set[SEDGECOIL_SET] = {0};
    size_t count;

    used_file(&file, chip);
    sedgecoil_access(&file, SEDGECOIL_PORT_WRITE, 1, 0x3C8, 0);
    saved = file;
    sedgecoil_note(&file, set, SEDGECOIL_MMIO_WRITE, 2, 0xE0, 0x123);
    sedgecoil_access(&file, SEDGECOIL_MMIO_WRITE, 2, 0xE0, 0x123);
    check(memchr(set, 1, sizeof set) != NULL && file.registers[95] == 0x123, "a note and its access");
    check(sedgecoil_short_plan(&file, &saved, set, plan, sizeof plan, &count) == 0 && count < 64, "a short plan");
    file.registers[96] ^= 1;
    check(sedgecoil_short_plan(&file, &saved, set, plan, sizeof plan, &count) == SEDGECOIL_CHANGED_OUTSIDE,
          "a change outside the set");
    file.registers[96] ^= 1;
    check(sedgecoil_short_restore(&file, &saved, set, plan, sizeof plan, &count) == 0
              && memchr(set, 1, sizeof set) == NULL,
          "a short restore");
    file.line = saved.line;
    check(memcmp(&file, &saved, sizeof file) == 0, "to the saved file");
}

/* A code from 2 up leaves every byte, of a set whose bytes are no 0 or 1 too. */
static void check_refusals(uint8_t chip)
{
    static uint8_t buffer[SEDGECOIL_PLAN], set[SEDGECOIL_SET], set_before[SEDGECOIL_SET];
    sedgecoil_file file, wanted, before;
    uint8_t trace[8] = {SEDGECOIL_CONFIG_READ, 2};
    size_t count = 7;

    memset(set, 2, sizeof set);
    memcpy(set_before, set, sizeof set);
    memset(buffer, 0xEE, sizeof buffer);
    used_file(&file, chip);
    wanted = file;
    check(sedgecoil_restore(&file, &wanted, buffer, sizeof buffer, &count) == SEDGECOIL_NOT_BEFORE_RED && count == 0,
          "a restore in mid-colour");
    count = 7;
    check(sedgecoil_short_restore(&file, &wanted, set, buffer, sizeof buffer, &count) == SEDGECOIL_NOT_BEFORE_RED
              && count == 0,
          "a short one");
    sedgecoil_power_on(&wanted, chip ^ 1);
    wanted.next = 1;
    check(sedgecoil_restore(&file, &wanted, buffer, 0, &count) == SEDGECOIL_OTHER_CHIP,
          "the chip is asked before the colour");
    wanted.chip = 2;
    check(sedgecoil_restore(&file, &wanted, buffer, 0, &count) == SEDGECOIL_NOT_SOUND, "and whether it is one");
    file.registers[0] = 0xFFFF;
    before = file;
    count = 7;
    check(sedgecoil_run(&file, trace, sizeof trace, buffer, sizeof buffer, &count) == SEDGECOIL_NOT_SOUND && count == 0,
          "a run over an unsound file");
    check(sedgecoil_note(&file, set, SEDGECOIL_CONFIG_READ, 2, 0, 0) == SEDGECOIL_NOT_SOUND, "a note");
    check(sedgecoil_plan(&file, buffer, sizeof buffer, &count) == SEDGECOIL_NOT_SOUND, "a plan");
    check(memcmp(&file, &before, sizeof file) == 0 && memcmp(set, set_before, sizeof set) == 0 && buffer[0] == 0xEE
              && memcmp(buffer, buffer + 1, sizeof buffer - 1) == 0,
          "each leaves every byte");
}

int main(void)
{
    check_layout();
    check_fields();
    check_ports();
    check_config();
    check_mmio();
    check_snapshot();
    for (uint8_t chip = SEDGECOIL_5462; chip <= SEDGECOIL_5464; chip++) {
        check_timing(chip);
        check_geometry(chip);
        check_reach(chip);
        check_saved(chip);
        check_damaged(chip);
        check_plans(chip);
        check_short_plans(chip);
        check_refusals(chip);
    }
    printf("%d passed, %d failed\n", passed, failed);
    return failed != 0;
}
