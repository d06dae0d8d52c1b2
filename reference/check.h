/* What examples.c and points.c share: short ways to make an access and to compare files. */
#ifndef CHECK_H
#define CHECK_H

#include <stdio.h>
#include <stdlib.h>
#include <string.h>

#include "sedgecoil.h"

/* Every check is made on both chips. */
static enum sc_chip chip;

/* 02, 10/13: what plan and restore bring about; the line is outside. */
static inline bool same_but_line(const struct sc_file *a, const struct sc_file *b)
{
    return a->chip == b->chip && a->pci04 == b->pci04 && a->misc == b->misc
        && a->srx == b->srx && a->crx == b->crx && a->grx == b->grx && a->arx == b->arx && a->pixel_mask == b->pixel_mask
        && a->data_next == b->data_next
        && !memcmp(a->sr, b->sr, sizeof a->sr) && !memcmp(a->cr, b->cr, sizeof a->cr)
        && !memcmp(a->gr, b->gr, sizeof a->gr) && !memcmp(a->ar, b->ar, sizeof a->ar)
        && !memcmp(a->pipe, b->pipe, sizeof a->pipe)
        && !memcmp(a->vport, b->vport, sizeof a->vport)
        && a->pointer.address == b->pointer.address && a->pointer.reading == b->pointer.reading
        && a->pointer.colour == b->pointer.colour
        && !memcmp(a->pointer.held, b->pointer.held, sizeof a->pointer.held)
        && a->last.reading == b->last.reading && a->last.colour == b->last.colour
        && !memcmp(a->palette, b->palette, sizeof a->palette)
        && !memcmp(a->bank, b->bank, sizeof a->bank);
}

static inline bool same_file(const struct sc_file *a, const struct sc_file *b)
{
    return same_but_line(a, b) && a->line == b->line;
}

/* The value if the access is done, else minus its code. A refusal must leave the file as it was. */
static inline int ask(struct sc_file *f, int kind, int width, int address, uint32_t value)
{
    struct sc_record r = { (uint8_t)kind, (uint8_t)width, (uint16_t)address, value };
    struct sc_file before = *f;
    struct sc_reply reply = sc_access(f, &r);
    bool kept = reply.code < 2 || same_file(&before, f);
    bool copied = reply.kind == r.kind && reply.address == r.address;
    bool reads = kind == SC_CONFIG_READ || kind == SC_PORT_READ || kind == SC_MMIO_READ;
    bool quiet = (reply.code == 0 && reads) || reply.value == 0;

    if (kept && copied && quiet)
        return reply.code ? -reply.code : reply.value;
    printf("FAILED: the reply to kind %d address %04Xh breaks a general rule\n", kind, address);
    exit(1);
}

static inline int in(struct sc_file *f, int port)
{
    return ask(f, SC_PORT_READ, 1, port, 0);
}

static inline int out(struct sc_file *f, int port, int value)
{
    return ask(f, SC_PORT_WRITE, 1, port, (uint32_t)value);
}

static inline int peek(struct sc_file *f, int address)
{
    return ask(f, SC_MMIO_READ, 1, address, 0);
}

static inline int poke(struct sc_file *f, int address, int value)
{
    return ask(f, SC_MMIO_WRITE, 1, address, (uint32_t)value);
}

static inline int peek16(struct sc_file *f, int address)
{
    return ask(f, SC_MMIO_READ, 2, address, 0);
}

static inline int poke16(struct sc_file *f, int address, int value)
{
    return ask(f, SC_MMIO_WRITE, 2, address, (uint32_t)value);
}

/* So many lines pass; -code. */
static inline int pass(struct sc_file *f, uint32_t lines)
{
    return ask(f, SC_LINES_PASS, 2, 0, lines);
}

/* Index and data; -code of the data access. */
static inline int in_at(struct sc_file *f, int index_port, int index)
{
    return out(f, index_port, index) < 0 ? -99 : in(f, index_port + 1);
}

static inline int out_at(struct sc_file *f, int index_port, int index, int value)
{
    return out(f, index_port, index) < 0 ? -99 : out(f, index_port + 1, value);
}

/* 01 "Marked examples": from power-on with PCI04=0003h. */
static inline struct sc_file opened(void)
{
    struct sc_file f;

    sc_power_on(&f, chip);
    if (ask(&f, SC_CONFIG_WRITE, 2, 0x04, 3) != 0) {
        printf("FAILED: PCI04 can't be written\n");
        exit(1);
    }
    return f;
}

struct check {
    const char *name;
    const char *text;
    bool (*holds)(void);
};

/* Prints a line for each, or for each of this name, on each chip; 1 if one failed, else 0. */
static inline int run_checks(const struct check *check, size_t count, const char *name)
{
    int failed = 0;

    for (chip = 0; chip < SC_CHIPS; chip++)
        for (size_t i = 0; i < count; i++) {
            if (name && strcmp(name, check[i].name) != 0)
                continue;
            bool ok = check[i].holds();
            failed |= !ok;
            printf("%s %-9s %-6s %s\n", chip == SC_5462 ? "5462" : "5464", check[i].name,
                   ok ? "ok" : "FAILED", check[i].text);
        }
    return failed;
}

#endif
