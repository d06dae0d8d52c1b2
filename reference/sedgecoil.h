/*
 * The register file of document 01 ("01" below), as plain C99 without dependencies.
 *
 * A file is a plain struct, changed in place. Every function says in one line which section of 01
 * it follows. A refusal (a code from 2 up) leaves the file as it was.
 */
#ifndef SEDGECOIL_H
#define SEDGECOIL_H

#include <stdbool.h>
#include <stddef.h>
#include <stdint.h>

/* 01 "Accesses and replies": the codes this part of the build can answer. */
enum sc_code {
    SC_DONE = 0,
    SC_NO_REGISTER = 1,
    SC_MALFORMED = 2,
    SC_SPACE_OFF = 3,
    SC_NOT_HELD = 4,
    SC_OTHER_BASE = 5,
    SC_WRONG_WIDTH = 6,
    SC_READ_ONLY = 7,
    SC_LOCKED = 8,
    SC_POWERED_DOWN = 9,
    SC_OUT_OF_RANGE = 10,
    SC_SHORT_BUFFER = 11,
    SC_UNSOUND = 12,
    SC_NOT_BEFORE_RED = 13,
    SC_OTHER_CHIP = 15,         /* 02, 6/13 */
    SC_OTHER_DIRECTION = 16,    /* 02 2/13 */
    SC_INSIDE_WIDER = 17,
    SC_CHANGED_OUTSIDE = 20     /* 02, 11/13 */
};

/* 01 "Accesses and replies": byte 0 of a record. */
enum sc_kind {
    SC_CONFIG_READ,
    SC_CONFIG_WRITE,
    SC_PORT_READ,
    SC_PORT_WRITE,
    SC_MMIO_READ,
    SC_MMIO_WRITE,
    SC_LINES_PASS       /* 02, 10/13 */
};

enum { SC_RECORD_BYTES = 8, SC_REPLY_BYTES = 8, SC_PLAN_BYTES = 8192 };

struct sc_record {
    uint8_t kind;
    uint8_t width;
    uint16_t address;
    uint32_t value;
};

struct sc_reply {
    uint8_t code;
    uint8_t kind;
    uint16_t address;
    uint16_t value;
};

/* 01 "Places": the 15 pipeline registers, in the order of their offsets. */
enum sc_pipe {
    SC_B0, SC_B8, SC_BC, SC_C0, SC_CC, SC_CE, SC_D0, SC_D2,
    SC_D4, SC_D5, SC_E0, SC_E2, SC_E4, SC_E6, SC_E8,
    SC_PIPES
};

/* 02, 6/13: "Make the chip a choice when a file is created". */
enum sc_chip { SC_5462, SC_5464, SC_CHIPS };

/* 02, 6/13 and 001: the 8 V-Port registers, 16 bits each, at 100h, 102h and so on to 10Eh. */
enum sc_vport {
    SC_BUFFER0_X, SC_BUFFER1_X, SC_BUFFER0_Y, SC_BUFFER1_Y, SC_X_START, SC_X_STOP,
    SC_10C,             /* Capture Y Start on the 5464, V-Port Control on the 5462 */
    SC_Y_STOP,
    SC_VPORTS
};

/* 01 "The palette pointer". */
enum { SC_RED, SC_GREEN, SC_BLUE, SC_COLOURS };

struct sc_pointer {
    uint8_t address;
    bool reading;       /* the mode: set by 3C7h, cleared by 3C8h */
    uint8_t colour;     /* the next colour */
    uint8_t held[2];    /* red, green */
};

/* 02, 1/13: the last pixel data access that was done. */
struct sc_last {
    bool reading;
    uint8_t colour;
};

/* 02, 10/13: "The line starts at 0, is sound up to 2,048". */
enum { SC_LAST_LINE = 2048 };

/* Each array spans its whole index range; a number that stores nothing stays 0. */
enum { SC_SRS = 0x20, SC_CRS = 0x40, SC_GRS = 0x40, SC_ARS = 0x20 };
enum { SC_PALETTE_ENTRIES = 256, SC_BANK_ENTRIES = 16 };

struct sc_file {
    enum sc_chip chip;  /* no access changes it */
    uint16_t pci04;
    uint8_t misc;
    uint8_t srx, crx, grx, arx;
    uint8_t pixel_mask;
    bool data_next;     /* the attribute toggle: the next 3C0h write is data */
    uint16_t line;      /* outside the sameness that plan and restore bring about */
    uint8_t sr[SC_SRS], cr[SC_CRS], gr[SC_GRS], ar[SC_ARS];
    uint16_t pipe[SC_PIPES];
    uint16_t vport[SC_VPORTS];
    struct sc_pointer pointer;
    struct sc_last last;
    uint8_t palette[SC_PALETTE_ENTRIES][SC_COLOURS];
    uint8_t bank[SC_BANK_ENTRIES][SC_COLOURS];
};

/*
 * 02, 11/13: "the set of exactly those registers, palette entries, pointer, marks and toggle that an
 * access, timing write or modeline has stored into (an equal value too) or moved". A member for each
 * part of a file, the chip and the line apart; what it names where nothing is held is ignored.
 */
struct sc_set {
    bool pci04, misc, srx, crx, grx, arx, pixel_mask;
    bool toggle, pointer, marks;
    bool sr[SC_SRS], cr[SC_CRS], gr[SC_GRS], ar[SC_ARS];
    bool pipe[SC_PIPES], vport[SC_VPORTS];
    bool palette[SC_PALETTE_ENTRIES], bank[SC_BANK_ENTRIES];
};

/* 01 "Timing": the fifteen numbers in table order. */
enum sc_number {
    SC_H_TOTAL, SC_H_DISPLAY, SC_H_BLANK_START, SC_H_BLANK_END, SC_H_SYNC_START, SC_H_SYNC_END,
    SC_V_TOTAL, SC_V_DISPLAY, SC_V_BLANK_START, SC_V_BLANK_END, SC_V_SYNC_START, SC_V_SYNC_END,
    SC_LINE_COMPARE, SC_OFFSET, SC_SCREEN_START,
    SC_NUMBERS
};

struct sc_timing {
    uint32_t number[SC_NUMBERS];
};

/* 01 "Cursor and window 2". */
struct sc_cursor {
    bool enabled;
    int32_t left, top;
    uint32_t width, height;     /* as shown */
    uint32_t image;             /* the image's address */
};

struct sc_window2 {
    bool enabled, format, empty, fault;
    uint32_t left, top, right, bottom;
    uint32_t blt_scanlines[2];  /* from D4 and D5 */
};

/* 02, 6/13: the capture window; x counts pixel clocks, y incoming scanlines. */
struct sc_capture {
    uint32_t x_start, x_stop, y_start, y_stop;
};

/* What a run did, and the part of the trace it has not read. */
struct sc_progress {
    uint8_t code;
    size_t count;
    const uint8_t *rest;
    size_t rest_length;
};

/*
 * 01 "Places": all stored bits and entries 0, toggle at index, pointer at 0, write mode, red;
 * 02, 1/13: "power-on is write, blue"; 02, 6/13: the 5462's 10Ch "reads 0C90h at power-on".
 */
void sc_power_on(struct sc_file *f, enum sc_chip chip);

/* 01 "The palette pointer", last sentence, 02, 1/13, 6/13 and 10/13: is the file sound, by its chip? */
bool sc_sound(const struct sc_file *f);

/* 01 "Accesses and replies": the 8 bytes of a record read, the 8 bytes of a reply written. */
struct sc_record sc_record_from(const uint8_t bytes[SC_RECORD_BYTES]);
void sc_reply_to(const struct sc_reply *reply, uint8_t bytes[SC_REPLY_BYTES]);

/* 01 "Accesses and replies": one access. An unsound file replies 12 and stays. */
struct sc_reply sc_access(struct sc_file *f, const struct sc_record *r);

/*
 * 01 "Accesses and replies": a run until the records or the whole 8-byte places end. Reply bytes
 * past 8 times the count stay. An unsound file: 12, count 0, the whole trace handed back.
 */
struct sc_progress sc_run(struct sc_file *f, const uint8_t *trace, size_t length,
                          uint8_t *replies, size_t room);

/* 01 "Timing": 0 and the fifteen numbers, or 12 and fifteen zeros. */
uint8_t sc_timing_read(const struct sc_file *f, struct sc_timing *t);

/* 01 "Timing": 0 and the numbers stored, or 12, 8, 10 (in this order) and the file as it was. */
uint8_t sc_timing_write(struct sc_file *f, const struct sc_timing *t);

/* 01 "Cursor and window 2": 0 and the answer, or 12 with all numbers 0, marks off, window empty. */
uint8_t sc_cursor_read(const struct sc_file *f, struct sc_cursor *c);
uint8_t sc_window2_read(const struct sc_file *f, struct sc_window2 *w);

/* 02, 6/13: "start and stop as stored; the 5462's vertical start is given as 0"; or 12 and zeros. */
uint8_t sc_capture_read(const struct sc_file *f, struct sc_capture *c);

/*
 * 01 "Accesses and replies": records that lead from any sound file of its chip to the wanted one, its
 * line apart. 0 and their count, or 12, 13, 11 (in this order), count 0 and the buffer as it was.
 */
uint8_t sc_plan(const struct sc_file *wanted, uint8_t *buffer, size_t room, size_t *count);

/*
 * 01 "Accesses and replies", 02, 6/13 and 9/13: the plan made and run. 12 (the current file first),
 * 15, 13, 11 leave the current file and the buffer as they were, and the count is 0. The line stays
 * the current file's, 10/13.
 */
uint8_t sc_restore(struct sc_file *current, const struct sc_file *wanted,
                   uint8_t *buffer, size_t room, size_t *count);

/* 02, 11/13: how many of a file's things the set names. */
size_t sc_named(const struct sc_set *s);

/*
 * 02, 11/13: access, run, timing writer and restore beside which the set is kept: the same answers,
 * and the set with what was stored into or moved, or empty after an accepted restore.
 */
struct sc_reply sc_access_kept(struct sc_file *f, struct sc_set *s, const struct sc_record *r);
struct sc_progress sc_run_kept(struct sc_file *f, struct sc_set *s, const uint8_t *trace,
                               size_t length, uint8_t *replies, size_t room);
uint8_t sc_timing_write_kept(struct sc_file *f, struct sc_set *s, const struct sc_timing *t);
uint8_t sc_restore_kept(struct sc_file *current, struct sc_set *s, const struct sc_file *wanted,
                        uint8_t *buffer, size_t room, size_t *count);

/*
 * 02, 11/13: records that lead from the current file to the saved one, its line apart, if they are
 * the same outside the set. They go by the saved file and the set alone. 0 and their count, or 12
 * (the current file first), 15, 13, 20, 11 (in this order), count 0 and the buffer as it was.
 */
uint8_t sc_short_plan(const struct sc_file *current, const struct sc_file *saved,
                      const struct sc_set *s, uint8_t *buffer, size_t room, size_t *count);

/* 02, 11/13: the short plan made and run; refusals as the short plan's. */
uint8_t sc_short_restore(struct sc_file *current, struct sc_set *s, const struct sc_file *saved,
                         uint8_t *buffer, size_t room, size_t *count);

#endif
