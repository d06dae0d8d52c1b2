#include "device.h"

enum { CONFIG = SEDGECOIL_CONFIG_READ, PORT = SEDGECOIL_PORT_READ, MMIO = SEDGECOIL_MMIO_READ };

/* The last address that an access can name, and the most lines that one can let pass. */
enum { LAST = 0xFFFF, MOST_LINES = 0xFFFF };

uint32_t device_reset(device *d, uint8_t chip)
{
    return sedgecoil_power_on(&d->file, chip);
}

/* What an access answered was done: 0, and 1, whose index names no register. */
static int is_done(uint32_t answer)
{
    return sedgecoil_code(answer) <= SEDGECOIL_NO_REGISTER;
}

static uint32_t ask_read(device *d, uint8_t space, uint64_t address, uint8_t width)
{
    return sedgecoil_access(&d->file, space, width, (uint16_t)address, 0);
}

/* A write's kind is the read's and one more. */
static uint32_t ask_write(device *d, uint8_t space, uint64_t address, uint8_t width, uint32_t value)
{
    return sedgecoil_access(&d->file, (uint8_t)(space + 1), width, (uint16_t)address, value);
}

/* Whether a word may stand here: uncut the library answers 6, and 17 inside a wider one, with the file as it was. */
static int is_word(uint8_t space, uint64_t address, unsigned left)
{
    return space != PORT && left >= 2 && address % 2 == 0 && address < LAST;
}

/* A byte: of a register of two it is one half. */
static uint8_t read_byte(device *d, uint8_t space, uint64_t address)
{
    uint32_t answer;

    if (address > LAST)
        return 0xFF;
    answer = ask_read(d, space, address, 1);
    if (is_done(answer))
        return (uint8_t)sedgecoil_value(answer);
    if (space == PORT)
        return 0xFF;
    answer = ask_read(d, space, address - address % 2, 2);
    return is_done(answer) ? (uint8_t)(sedgecoil_value(answer) >> 8 * (address % 2)) : 0xFF;
}

/* The other half is written as it reads. */
static void write_byte(device *d, uint8_t space, uint64_t address, uint8_t value)
{
    unsigned shift = 8 * (address % 2);
    uint32_t was;

    if (address > LAST || is_done(ask_write(d, space, address, 1, value)) || space == PORT)
        return;
    was = ask_read(d, space, address - address % 2, 2);
    if (is_done(was))
        ask_write(d, space, address - address % 2, 2,
                  (sedgecoil_value(was) & ~(0xFFu << shift)) | (uint32_t)value << shift);
}

static uint32_t read_cut(device *d, uint8_t space, uint64_t address, unsigned size)
{
    uint32_t value = 0, answer;

    for (unsigned at = 0; at < size && at < 4;) {
        if (is_word(space, address + at, size - at) && is_done(answer = ask_read(d, space, address + at, 2))) {
            value |= (uint32_t)sedgecoil_value(answer) << 8 * at;
            at += 2;
        } else {
            value |= (uint32_t)read_byte(d, space, address + at) << 8 * at;
            at += 1;
        }
    }
    return value;
}

static void write_cut(device *d, uint8_t space, uint64_t address, unsigned size, uint32_t value)
{
    for (unsigned at = 0; at < size && at < 4;) {
        if (is_word(space, address + at, size - at)
            && is_done(ask_write(d, space, address + at, 2, value >> 8 * at & 0xFFFF))) {
            at += 2;
        } else {
            write_byte(d, space, address + at, (uint8_t)(value >> 8 * at));
            at += 1;
        }
    }
}

uint32_t device_config_read(void *opaque, uint64_t address, unsigned size)
{
    return read_cut(opaque, CONFIG, address, size);
}

void device_config_write(void *opaque, uint64_t address, uint32_t value, unsigned size)
{
    write_cut(opaque, CONFIG, address, size, value);
}

uint32_t device_port_read(void *opaque, uint64_t address, unsigned size)
{
    return read_cut(opaque, PORT, address, size);
}

void device_port_write(void *opaque, uint64_t address, uint32_t value, unsigned size)
{
    write_cut(opaque, PORT, address, size, value);
}

uint32_t device_mmio_read(void *opaque, uint64_t address, unsigned size)
{
    return read_cut(opaque, MMIO, address, size);
}

void device_mmio_write(void *opaque, uint64_t address, uint32_t value, unsigned size)
{
    write_cut(opaque, MMIO, address, size, value);
}

void device_tick(device *d, uint32_t lines)
{
    while (lines > 0) {
        uint32_t some = lines < MOST_LINES ? lines : MOST_LINES;

        sedgecoil_access(&d->file, SEDGECOIL_LINES_PASS, 2, 0, some);
        lines -= some;
    }
}

uint32_t device_save(const device *d, uint8_t image[SEDGECOIL_IMAGE])
{
    return sedgecoil_save(&d->file, NULL, image, SEDGECOIL_IMAGE);
}

uint32_t device_load(device *d, const uint8_t *image, size_t length)
{
    return sedgecoil_load(&d->file, NULL, image, length);
}
