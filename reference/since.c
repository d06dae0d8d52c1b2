/*
 * 02, 11/13: the first trace is run from power-on and the file saved, then the second while the set
 * is kept. `since plan` writes a short plan back to the saved file, as bytes; `since set` prints
 * what the set names, a line each. For the 5462 with `--chip 5462` before the word.
 */
#include <stdio.h>
#include <string.h>

#include "chip.h"
#include "sedgecoil.h"

enum { PLACES = 1 << 12 };

/* Runs a trace of a file on; the set is kept. False if it can't be read. */
static bool run_trace(struct sc_file *f, struct sc_set *s, const char *name)
{
    static uint8_t trace[SC_RECORD_BYTES * PLACES], replies[SC_REPLY_BYTES * PLACES];
    FILE *in = fopen(name, "rb");
    size_t length;

    if (!in)
        return false;
    do {
        length = fread(trace, 1, sizeof trace, in);
        sc_run_kept(f, s, trace, length, replies, sizeof replies);
    } while (length == sizeof trace);
    bool good = !ferror(in);
    fclose(in);
    return good;
}

static bool write_plan(const struct sc_file *f, const struct sc_file *saved, const struct sc_set *s)
{
    uint8_t buffer[SC_PLAN_BYTES];
    size_t count;
    uint8_t code = sc_short_plan(f, saved, s, buffer, sizeof buffer, &count);

    if (code != SC_DONE)
        fprintf(stderr, "no plan: code %u\n", code);
    return fwrite(buffer, SC_RECORD_BYTES, count, stdout) == count;
}

static void print(bool named, const char *name)
{
    if (named)
        puts(name);
}

static void print_numbered(const char *name, const bool *named, unsigned count)
{
    for (unsigned i = 0; i < count; i++)
        if (named[i])
            printf("%s%X\n", name, i);
}

static void print_set(const struct sc_set *s)
{
    static const uint8_t pipe[SC_PIPES] = {
        0xB0, 0xB8, 0xBC, 0xC0, 0xCC, 0xCE, 0xD0, 0xD2, 0xD4, 0xD5, 0xE0, 0xE2, 0xE4, 0xE6, 0xE8,
    };

    print(s->pointer, "pointer");
    print(s->marks, "marks");
    print(s->toggle, "toggle");
    print(s->pci04, "PCI04");
    print(s->misc, "MISC");
    print(s->srx, "SRX");
    print(s->crx, "CRX");
    print(s->grx, "GRX");
    print(s->arx, "ARX");
    print(s->pixel_mask, "pixel mask");
    for (unsigned i = 0; i < SC_PIPES; i++)
        if (s->pipe[i])
            printf("%X\n", pipe[i]);
    for (unsigned i = 0; i < SC_VPORTS; i++)
        if (s->vport[i])
            printf("%X\n", 0x100 + 2 * i);
    print_numbered("SR", s->sr, SC_SRS);
    print_numbered("CR", s->cr, SC_CRS);
    print_numbered("GR", s->gr, SC_GRS);
    print_numbered("AR", s->ar, SC_ARS);
    print_numbered("palette ", s->palette, SC_PALETTE_ENTRIES);
    print_numbered("bank ", s->bank, SC_BANK_ENTRIES);
}

int main(int words, char **word)
{
    struct sc_file f, saved;
    struct sc_set s = { 0 };
    enum sc_chip chip;
    bool known = take_chip(&words, &word, &chip) && words == 4;
    bool set = known && strcmp(word[1], "set") == 0;

    if (!known || (!set && strcmp(word[1], "plan") != 0)) {
        fputs("usage: since [--chip 5462|5464] plan|set TRACE1 TRACE2\n", stderr);
        return 2;
    }
    sc_power_on(&f, chip);
    bool good = run_trace(&f, &s, word[2]);
    saved = f;
    s = (struct sc_set){ 0 };
    good = good && run_trace(&f, &s, word[3]);
    if (good && set)
        print_set(&s);
    else if (good)
        good = write_plan(&f, &saved, &s);
    if (good && fflush(stdout) == 0)
        return 0;
    perror("since");
    return 1;
}
