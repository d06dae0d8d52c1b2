/*
 * 01 "The replay program": a trace of any length on standard input, in fixed memory; for the 5462
 * with `--chip 5462` (02, 6/13). Built with REPLAY_WITHOUT_MAIN it is the function alone.
 */
#include "replay.h"

#include "chip.h"
#include "sedgecoil.h"

enum {
    PLACES = 1 << 15,
    LINE_BYTES = 32     /* the longest line: 20 + 1 + 3 + 1 + 4 + 1 bytes */
};

static uint8_t trace[SC_RECORD_BYTES * PLACES];
static uint8_t replies[SC_REPLY_BYTES * PLACES];
static char text[LINE_BYTES * PLACES];

static char *put_decimal(char *to, uint64_t number)
{
    char digit[20];
    size_t count = 0;

    do
        digit[count++] = (char)('0' + number % 10);
    while (number /= 10);
    while (count > 0)
        *to++ = digit[--count];
    return to;
}

static char *put_hex4(char *to, uint16_t value)
{
    for (int shift = 12; shift >= 0; shift -= 4)
        *to++ = "0123456789ABCDEF"[value >> shift & 0xF];
    return to;
}

/* 01 "The replay program": number, code, value. */
static char *put_line(char *to, uint64_t number, const uint8_t reply[SC_REPLY_BYTES])
{
    to = put_decimal(to, number);
    *to++ = ' ';
    to = put_decimal(to, reply[0]);
    *to++ = ' ';
    to = put_hex4(to, (uint16_t)(reply[4] | reply[5] << 8));
    *to++ = '\n';
    return to;
}

/* 01 "The replay program", last line: the word timing, then the fifteen numbers. */
static bool print_timing(const struct sc_file *f, FILE *out)
{
    struct sc_timing t;

    sc_timing_read(f, &t);
    fputs("timing", out);
    for (size_t i = 0; i < SC_NUMBERS; i++)
        fprintf(out, " %lu", (unsigned long)t.number[i]);
    fputc('\n', out);
    return fflush(out) == 0 && !ferror(out);
}

/* fread gives less than asked at the end of the input alone, so only that leaves a fragment. */
bool replay(enum sc_chip chip, FILE *in, FILE *out)
{
    struct sc_file f;
    uint64_t number = 0;
    size_t length;

    sc_power_on(&f, chip);
    do {
        length = fread(trace, 1, sizeof trace, in);
        struct sc_progress done = sc_run(&f, trace, length, replies, sizeof replies);
        char *end = text;

        for (size_t i = 0; i < done.count; i++)
            end = put_line(end, number++, replies + SC_REPLY_BYTES * i);
        if (fwrite(text, 1, (size_t)(end - text), out) != (size_t)(end - text))
            return false;
    } while (length == sizeof trace);
    return !ferror(in) && print_timing(&f, out);
}

#ifndef REPLAY_WITHOUT_MAIN
int main(int words, char **word)
{
    enum sc_chip chip;

    if (!take_chip(&words, &word, &chip) || words > 1) {
        fputs("usage: replay [--chip 5462|5464]\n", stderr);
        return 2;
    }
    if (replay(chip, stdin, stdout))
        return 0;
    perror("replay");
    return 1;
}
#endif
