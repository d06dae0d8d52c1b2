/*
 * The register file of the CL-GD5462 and CL-GD5464 for a host in C: the proved library behind a
 * plain struct. C99, usable from C++; link crates/host/out/libhost.a, which 'rt lib' in crates/host
 * proves and makes, and which is x86-64.
 *
 * A file is a struct that the host owns and lends. Nothing is allocated and nothing is global, so
 * two files never touch, and threads need a lock only where they share one.
 *
 * What the caller must see to, and the contracts assume: a pointer points to a whole struct, array
 * or buffer of the size that is said; what is written overlaps nothing else that the call is lent;
 * no other thread writes any of it before the call is back. What the bytes are is no duty: a struct
 * that is no sound file is refused with 12, and stays as it was.
 *
 * A code is one of the list below. From 2 up it is a refusal: file, set, numbers and buffer stay as
 * they were, and a count is 0.
 */
#ifndef SEDGECOIL_H
#define SEDGECOIL_H

#include <stddef.h>
#include <stdint.h>

#ifdef __cplusplus
extern "C" {
#endif

enum {
    SEDGECOIL_REGISTERS = 108,
    SEDGECOIL_REST = 826,   /* the bytes of a file behind its registers */
    SEDGECOIL_SET = 383,    /* the bytes of a set */
    SEDGECOIL_IMAGE = 1433, /* the bytes of a saved file */
    SEDGECOIL_VERSION = 1,  /* of an image */
    SEDGECOIL_PLAN = 8192   /* bytes: room for every plan */
};

/* The fifteen timing numbers in 01's order: character clocks across, scanlines down. */
enum {
    SEDGECOIL_H_TOTAL,
    SEDGECOIL_H_DISPLAY,
    SEDGECOIL_H_BLANK_START,
    SEDGECOIL_H_BLANK_END,
    SEDGECOIL_H_SYNC_START,
    SEDGECOIL_H_SYNC_END,
    SEDGECOIL_V_TOTAL,
    SEDGECOIL_V_DISPLAY,
    SEDGECOIL_V_BLANK_START,
    SEDGECOIL_V_BLANK_END,
    SEDGECOIL_V_SYNC_START,
    SEDGECOIL_V_SYNC_END,
    SEDGECOIL_LINE_COMPARE,
    SEDGECOIL_OFFSET,
    SEDGECOIL_SCREEN_START,
    SEDGECOIL_TIMING_COUNT
};

/* The cursor in pixels and scanlines. Left and top may be below 0; enabled is 0 or 1. */
enum {
    SEDGECOIL_CURSOR_ENABLED,
    SEDGECOIL_CURSOR_LEFT,
    SEDGECOIL_CURSOR_TOP,
    SEDGECOIL_CURSOR_WIDTH,
    SEDGECOIL_CURSOR_HEIGHT,
    SEDGECOIL_CURSOR_ADDRESS,
    SEDGECOIL_CURSOR_COUNT
};

/* Window 2: right and bottom are not included. Enabled, video, empty and fault are 0 or 1. */
enum {
    SEDGECOIL_WINDOW_ENABLED,
    SEDGECOIL_WINDOW_VIDEO,
    SEDGECOIL_WINDOW_LEFT,
    SEDGECOIL_WINDOW_TOP,
    SEDGECOIL_WINDOW_RIGHT,
    SEDGECOIL_WINDOW_BOTTOM,
    SEDGECOIL_WINDOW_EMPTY,
    SEDGECOIL_WINDOW_FAULT,
    SEDGECOIL_WINDOW_START,
    SEDGECOIL_WINDOW_STOP,
    SEDGECOIL_WINDOW_COUNT
};

/* The capture window as stored: pixel clocks across, incoming scanlines down. */
enum {
    SEDGECOIL_CAPTURE_X_START,
    SEDGECOIL_CAPTURE_X_STOP,
    SEDGECOIL_CAPTURE_Y_START,
    SEDGECOIL_CAPTURE_Y_STOP,
    SEDGECOIL_CAPTURE_COUNT
};

/*
 * What an access may change: bits of one register, by its number in the file's registers (no bits,
 * no register); and, each 0 or 1, the pointer, the toggle, the marks, the line, an entry of the
 * palette or of the bank. The registers stand in the order of crates/file/specs/Registers.antt.
 */
enum {
    SEDGECOIL_REACH_REGISTER,
    SEDGECOIL_REACH_BITS,
    SEDGECOIL_REACH_POINTER,
    SEDGECOIL_REACH_TOGGLE,
    SEDGECOIL_REACH_MARKS,
    SEDGECOIL_REACH_LINE,
    SEDGECOIL_REACH_PALETTE,
    SEDGECOIL_REACH_BANK,
    SEDGECOIL_REACH_ENTRY,
    SEDGECOIL_REACH_COUNT
};

enum { SEDGECOIL_5462 = 0, SEDGECOIL_5464 = 1 };

/* Kinds of an access. The last lets so many scanlines pass as its value says, at width 2 and address 0. */
enum {
    SEDGECOIL_CONFIG_READ = 0,
    SEDGECOIL_CONFIG_WRITE = 1,
    SEDGECOIL_PORT_READ = 2,
    SEDGECOIL_PORT_WRITE = 3,
    SEDGECOIL_MMIO_READ = 4,
    SEDGECOIL_MMIO_WRITE = 5,
    SEDGECOIL_LINES_PASS = 6
};

enum {
    SEDGECOIL_DONE = 0,
    SEDGECOIL_NO_REGISTER = 1, /* the index names no held register; no refusal */
    SEDGECOIL_MALFORMED = 2,
    SEDGECOIL_SPACE_OFF = 3, /* PCI04 has the space off */
    SEDGECOIL_NOT_HELD = 4,
    SEDGECOIL_OTHER_HALF = 5, /* 3B?h or 3D?h, and MISC[0] has the other */
    SEDGECOIL_WRONG_WIDTH = 6,
    SEDGECOIL_READ_ONLY = 7,
    SEDGECOIL_LOCKED = 8, /* CR11[7] */
    SEDGECOIL_PALETTE_DOWN = 9,
    SEDGECOIL_OUT_OF_RANGE = 10, /* a timing number */
    SEDGECOIL_SHORT_BUFFER = 11,
    SEDGECOIL_NOT_SOUND = 12,
    SEDGECOIL_NOT_BEFORE_RED = 13,
    SEDGECOIL_OTHER_CHIP = 15,
    SEDGECOIL_OTHER_DIRECTION = 16,
    SEDGECOIL_INSIDE_WIDER = 17,
    SEDGECOIL_CHANGED_OUTSIDE = 20 /* a file changed outside its set */
};

/* A file. Made by sedgecoil_power_on or sedgecoil_load; a struct of zeros is a sound 5462 too, not as at power-on. */
typedef struct sedgecoil_file {
    uint16_t registers[SEDGECOIL_REGISTERS];
    uint16_t line;           /* the scanline that the display is at */
    uint8_t address;         /* the palette pointer */
    uint8_t reading;         /* its mode: 0 or 1 */
    uint8_t next;            /* its next colour: 0 red, 1 green, 2 blue */
    uint8_t red, green;      /* what it holds */
    uint8_t marks;           /* of the last pixel data access: its colour, and 4 more for a read */
    uint8_t toggle;          /* 1: the next write of 3C0h is data */
    uint8_t chip;            /* SEDGECOIL_5462 or SEDGECOIL_5464 */
    uint8_t palette[256][3]; /* red, green, blue */
    uint8_t bank[16][3];     /* the cursor's and the border's colours */
} sedgecoil_file;

/* ---- The library's own functions: a file in its two parts. The inline ones below lend both. ---- */

/*
 * How much of each thing the library has, to hold this header against it: registers, bytes of the
 * rest, of a set and of an image, an image's version, where palette and bank begin in the rest; the
 * numbers of a timing, a cursor, a window, a capture window and a reach; 0 for any other `what`.
 */
uint32_t sedgecoil_layout(uint32_t what);
uint32_t sedgecoil_power_on_parts(uint16_t *registers, uint8_t *rest, uint8_t chip);
uint32_t sedgecoil_access_parts(uint16_t *registers, uint8_t *rest, uint64_t record);
uint32_t sedgecoil_timing_parts(const uint16_t *registers, const uint8_t *rest, uint32_t *numbers);
uint32_t sedgecoil_timing_write_parts(uint16_t *registers, const uint8_t *rest, const uint32_t *numbers);
uint32_t sedgecoil_cursor_parts(const uint16_t *registers, const uint8_t *rest, int32_t *numbers);
uint32_t sedgecoil_window_parts(const uint16_t *registers, const uint8_t *rest, uint32_t *numbers);
uint32_t sedgecoil_capture_parts(const uint16_t *registers, const uint8_t *rest, uint32_t *numbers);
uint32_t sedgecoil_reach_parts(const uint16_t *registers, const uint8_t *rest, uint64_t record, size_t *numbers);
uint32_t sedgecoil_save_parts(const uint16_t *registers, const uint8_t *rest, const uint8_t *set, uint8_t kept,
                              uint8_t *buffer, size_t room);
uint32_t sedgecoil_load_parts(uint16_t *registers, uint8_t *rest, uint8_t *set, const uint8_t *image, size_t length);
uint32_t sedgecoil_run_parts(uint16_t *registers, uint8_t *rest, const uint8_t *trace, size_t length, uint8_t *replies,
                             size_t room, size_t *count);
uint32_t sedgecoil_note_parts(const uint16_t *registers, const uint8_t *rest, uint8_t *set, uint64_t record);
uint32_t sedgecoil_plan_parts(const uint16_t *registers, const uint8_t *rest, uint8_t *buffer, size_t room,
                              size_t *count);
uint32_t sedgecoil_restore_parts(uint16_t *registers, uint8_t *rest, const uint16_t *wanted, const uint8_t *others,
                                 uint8_t *buffer, size_t room, size_t *count);
uint32_t sedgecoil_short_plan_parts(const uint16_t *registers, const uint8_t *rest, const uint16_t *saved,
                                    const uint8_t *others, const uint8_t *set, uint8_t *buffer, size_t room,
                                    size_t *count);
uint32_t sedgecoil_short_restore_parts(uint16_t *registers, uint8_t *rest, const uint16_t *saved, const uint8_t *others,
                                       uint8_t *set, uint8_t *buffer, size_t room, size_t *count);

static inline uint8_t *sedgecoil_rest(sedgecoil_file *file)
{
    return (uint8_t *)file + offsetof(sedgecoil_file, line);
}

static inline const uint8_t *sedgecoil_rest_of(const sedgecoil_file *file)
{
    return (const uint8_t *)file + offsetof(sedgecoil_file, line);
}

/* An access as one number: the eight bytes of a trace's record, the first one lowest. */
static inline uint64_t sedgecoil_record(uint8_t kind, uint8_t width, uint16_t address, uint32_t value)
{
    return kind | (uint64_t)width << 8 | (uint64_t)address << 16 | (uint64_t)value << 32;
}

/* ---- What a host calls ---- */

/* The file at power-on. 0, or 2 for a chip that is none. */
static inline uint32_t sedgecoil_power_on(sedgecoil_file *file, uint8_t chip)
{
    return sedgecoil_power_on_parts(file->registers, sedgecoil_rest(file), chip);
}

/*
 * One access; a read is asked with value 0. The answer is its code and, of a read that is done, what
 * was read, in one number, which is no code itself: sedgecoil_code and sedgecoil_value take them out.
 * Codes 0 to 9, 12, 16 and 17. Lines pass 1 to 65535 at once.
 */
static inline uint32_t sedgecoil_access(sedgecoil_file *file, uint8_t kind, uint8_t width, uint16_t address,
                                        uint32_t value)
{
    return sedgecoil_access_parts(file->registers, sedgecoil_rest(file), sedgecoil_record(kind, width, address, value));
}

static inline unsigned sedgecoil_code(uint32_t answer)
{
    return answer >> 16;
}

static inline uint16_t sedgecoil_value(uint32_t answer)
{
    return (uint16_t)answer;
}

/* The fifteen timing numbers. 0, or 12 with the numbers as they were. */
static inline uint32_t sedgecoil_timing(const sedgecoil_file *file, uint32_t numbers[SEDGECOIL_TIMING_COUNT])
{
    return sedgecoil_timing_parts(file->registers, sedgecoil_rest_of(file), numbers);
}

/*
 * Writes them into the registers: 0; or 12, 8 while CR11[7] is set, 10 for a number that is out of
 * its range, each with the file as it was. What is written is read back.
 */
static inline uint32_t sedgecoil_timing_write(sedgecoil_file *file, const uint32_t numbers[SEDGECOIL_TIMING_COUNT])
{
    return sedgecoil_timing_write_parts(file->registers, sedgecoil_rest_of(file), numbers);
}

/* The hardware cursor. 0, or 12 with the numbers as they were; so the next two. */
static inline uint32_t sedgecoil_cursor(const sedgecoil_file *file, int32_t numbers[SEDGECOIL_CURSOR_COUNT])
{
    return sedgecoil_cursor_parts(file->registers, sedgecoil_rest_of(file), numbers);
}

/* Window 2. */
static inline uint32_t sedgecoil_window(const sedgecoil_file *file, uint32_t numbers[SEDGECOIL_WINDOW_COUNT])
{
    return sedgecoil_window_parts(file->registers, sedgecoil_rest_of(file), numbers);
}

/* The V-Port's capture window. */
static inline uint32_t sedgecoil_capture(const sedgecoil_file *file, uint32_t numbers[SEDGECOIL_CAPTURE_COUNT])
{
    return sedgecoil_capture_parts(file->registers, sedgecoil_rest_of(file), numbers);
}

/* What an access may change, before it is made. 0, or 12 with the numbers as they were. */
static inline uint32_t sedgecoil_reach(const sedgecoil_file *file, uint8_t kind, uint8_t width, uint16_t address,
                                       uint32_t value, size_t numbers[SEDGECOIL_REACH_COUNT])
{
    return sedgecoil_reach_parts(file->registers, sedgecoil_rest_of(file),
                                 sedgecoil_record(kind, width, address, value), numbers);
}

/*
 * A run over a trace of 8-byte records into whole 8-byte places for replies, until records or
 * places end: `count` replies to the first records. A last fragment is answered 2 and counts, so that
 * 8 * count may be more than `length`. A reply is code, kind, two bytes of address, two of value and
 * two zeros. 0, or 12 with count 0.
 */
static inline uint32_t sedgecoil_run(sedgecoil_file *file, const uint8_t *trace, size_t length, uint8_t *replies,
                                     size_t room, size_t *count)
{
    return sedgecoil_run_parts(file->registers, sedgecoil_rest(file), trace, length, replies, room, count);
}

/*
 * Notes in a set what an access may change: to be called before the access, with the same words. A
 * set is SEDGECOIL_SET bytes, one for each thing: the registers, 256 entries of the palette, 16 of the
 * bank, the pointer, the marks, the toggle. The host clears it where it keeps a file to come back to;
 * only sedgecoil_short_restore clears it by itself. A run and a timing write note nothing: behind
 * one, fill the set with 1, and all is brought back. 0, or 12 with the set as it was.
 */
static inline uint32_t sedgecoil_note(const sedgecoil_file *file, uint8_t *set, uint8_t kind, uint8_t width,
                                      uint16_t address, uint32_t value)
{
    return sedgecoil_note_parts(file->registers, sedgecoil_rest_of(file), set,
                                sedgecoil_record(kind, width, address, value));
}

/*
 * A plan of a file: so many 8-byte records in a buffer of SEDGECOIL_PLAN bytes that lead to it from
 * every sound file of its chip, but for the line, which no plan moves. 0; or 12, 13, 11 with count 0
 * and the buffer as it was.
 */
static inline uint32_t sedgecoil_plan(const sedgecoil_file *file, uint8_t *buffer, size_t room, size_t *count)
{
    return sedgecoil_plan_parts(file->registers, sedgecoil_rest_of(file), buffer, room, count);
}

/* Writes a plan of the wanted file and runs it from this one. 0; or 12, 15, 13, 11, count 0 and the rest as it was. */
static inline uint32_t sedgecoil_restore(sedgecoil_file *file, const sedgecoil_file *wanted, uint8_t *buffer,
                                         size_t room, size_t *count)
{
    return sedgecoil_restore_parts(file->registers, sedgecoil_rest(file), wanted->registers, sedgecoil_rest_of(wanted),
                                   buffer, room, count);
}

/*
 * A short plan, from a file back to the one that was saved, by the set since then. 0; or 12, 15, 13,
 * 20 where the file differs outside the set, 11, with count 0 and the buffer as it was.
 */
static inline uint32_t sedgecoil_short_plan(const sedgecoil_file *file, const sedgecoil_file *saved, const uint8_t *set,
                                            uint8_t *buffer, size_t room, size_t *count)
{
    return sedgecoil_short_plan_parts(file->registers, sedgecoil_rest_of(file), saved->registers,
                                      sedgecoil_rest_of(saved), set, buffer, room, count);
}

/* A restore by it, with its codes. Where it is done the set is empty, else all is as it was. */
static inline uint32_t sedgecoil_short_restore(sedgecoil_file *file, const sedgecoil_file *saved, uint8_t *set,
                                               uint8_t *buffer, size_t room, size_t *count)
{
    return sedgecoil_short_restore_parts(file->registers, sedgecoil_rest(file), saved->registers,
                                         sedgecoil_rest_of(saved), set, buffer, room, count);
}

/*
 * Saves a file, and the set that is kept with it if one is (else NULL), into the first
 * SEDGECOIL_IMAGE bytes of a buffer. 0; 12, or 11 for a buffer without room, with it as it was.
 */
static inline uint32_t sedgecoil_save(const sedgecoil_file *file, const uint8_t *set, uint8_t *buffer, size_t room)
{
    static const uint8_t none[SEDGECOIL_SET] = {0};

    return sedgecoil_save_parts(file->registers, sedgecoil_rest_of(file), set ? set : none, set != NULL, buffer, room);
}

/*
 * Takes an image back, and the set if it keeps one and `set` isn't NULL; one that it doesn't keep
 * leaves `set`. An image is 'SGCL', the version, 1 where it keeps a set and else 0, two zeros, and
 * behind them file and set as they stand. 0, or 12 for another length than SEDGECOIL_IMAGE, other
 * first bytes or an unsound file, with file and set as they were. What was saved loads to the same
 * file.
 */
static inline uint32_t sedgecoil_load(sedgecoil_file *file, uint8_t *set, const uint8_t *image, size_t length)
{
    uint8_t other[SEDGECOIL_SET] = {0};

    return sedgecoil_load_parts(file->registers, sedgecoil_rest(file), set ? set : other, image, length);
}

#ifdef __cplusplus
}
#endif

#endif
