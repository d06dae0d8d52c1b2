/*
 * What a trace on standard input ends in, from power-on: every part of the file, a line each; with
 * the word `plan` the bytes of a plan of it, if the pointer is before red; with the word `geometry`
 * its cursor, its window 2 and its capture window. For the 5462 with `--chip 5462` before the word.
 */
#include <stdio.h>
#include <string.h>

#include "chip.h"
#include "sedgecoil.h"

enum { PLACES = 1 << 12 };

static bool run_input(struct sc_file *f, enum sc_chip chip)
{
    static uint8_t trace[SC_RECORD_BYTES * PLACES], replies[SC_REPLY_BYTES * PLACES];
    size_t length;

    sc_power_on(f, chip);
    do {
        length = fread(trace, 1, sizeof trace, stdin);
        sc_run(f, trace, length, replies, sizeof replies);
    } while (length == sizeof trace);
    return !ferror(stdin);
}

static void print(const char *name, unsigned value)
{
    printf("%s %04X\n", name, value);
}

static void print_group(const char *name, const uint8_t *value, unsigned count)
{
    for (unsigned i = 0; i < count; i++)
        printf("%s%X %02X\n", name, i, value[i]);
}

static void print_entries(const char *name, const uint8_t (*entry)[SC_COLOURS], unsigned count)
{
    for (unsigned i = 0; i < count; i++)
        printf("%s %u: %02X %02X %02X\n", name, i, entry[i][0], entry[i][1], entry[i][2]);
}

/* The next colour stands first: a plan hangs on it. The line stands last: a plan leaves it. */
static void print_file(const struct sc_file *f)
{
    static const char *const pipe[SC_PIPES] = {
        "B0", "B8", "BC", "C0", "CC", "CE", "D0", "D2", "D4", "D5", "E0", "E2", "E4", "E6", "E8",
    };
    const struct sc_pointer *p = &f->pointer;

    printf("next %u\nheld %02X %02X\n", p->colour, p->held[0], p->held[1]);
    printf("address %02X\nmode %s\n", p->address, p->reading ? "read" : "write");
    printf("last %s %u\n", f->last.reading ? "read" : "write", f->last.colour);
    printf("toggle %s\n", f->data_next ? "data" : "index");
    printf("chip %s\n", f->chip == SC_5462 ? "5462" : "5464");
    print("PCI04", f->pci04);
    print("MISC", f->misc);
    print("SRX", f->srx);
    print("CRX", f->crx);
    print("GRX", f->grx);
    print("ARX", f->arx);
    print("pixel mask", f->pixel_mask);
    for (unsigned i = 0; i < SC_PIPES; i++)
        print(pipe[i], f->pipe[i]);
    for (unsigned i = 0; i < SC_VPORTS; i++)
        printf("%X %04X\n", 0x100 + 2 * i, f->vport[i]);
    print_group("SR", f->sr, SC_SRS);
    print_group("CR", f->cr, SC_CRS);
    print_group("GR", f->gr, SC_GRS);
    print_group("AR", f->ar, SC_ARS);
    print_entries("palette", f->palette, SC_PALETTE_ENTRIES);
    print_entries("bank", f->bank, SC_BANK_ENTRIES);
    printf("line %u\n", f->line);
}

static bool write_plan(const struct sc_file *f)
{
    uint8_t buffer[SC_PLAN_BYTES];
    size_t count;
    uint8_t code = sc_plan(f, buffer, sizeof buffer, &count);

    if (code != SC_DONE)
        fprintf(stderr, "no plan: code %u\n", code);
    return fwrite(buffer, SC_RECORD_BYTES, count, stdout) == count;
}

static void print_geometry(const struct sc_file *f)
{
    struct sc_cursor c;
    struct sc_window2 w;
    struct sc_capture v;

    sc_cursor_read(f, &c);
    sc_window2_read(f, &w);
    sc_capture_read(f, &v);
    printf("cursor %d %ld %ld %lu %lu %lu\n", c.enabled, (long)c.left, (long)c.top,
           (unsigned long)c.width, (unsigned long)c.height, (unsigned long)c.image);
    printf("window2 %d %d %lu %lu %lu %lu %d %d %lu %lu\n", w.enabled, w.format,
           (unsigned long)w.left, (unsigned long)w.top, (unsigned long)w.right,
           (unsigned long)w.bottom, w.empty, w.fault,
           (unsigned long)w.blt_scanlines[0], (unsigned long)w.blt_scanlines[1]);
    printf("capture %lu %lu %lu %lu\n", (unsigned long)v.x_start, (unsigned long)v.x_stop,
           (unsigned long)v.y_start, (unsigned long)v.y_stop);
}

int main(int words, char **word)
{
    struct sc_file f;
    enum sc_chip chip;

    if (!take_chip(&words, &word, &chip)) {
        fputs("usage: ending [--chip 5462|5464] [plan|geometry]\n", stderr);
        return 2;
    }
    bool good = run_input(&f, chip);
    if (words > 1 && strcmp(word[1], "plan") == 0)
        good = write_plan(&f) && good;
    else if (words > 1 && strcmp(word[1], "geometry") == 0)
        print_geometry(&f);
    else
        print_file(&f);
    if (good && fflush(stdout) == 0)
        return 0;
    perror("ending");
    return 1;
}
