/*
 * The C side of crates/measured: runs the trace on standard input from power-on and prints nothing
 * of it; then does one thing some hundred times with the file that it ends in. Words: `run`, or
 * `flat`, which is the same here; or `read`, `write` (the timing), `access` (one by value), `plan`
 * or `restore` (from power-on) and a digit for the hundreds.
 */
#include <inttypes.h>
#include <stdio.h>
#include <string.h>

#include "../reference/sedgecoil.h"

enum { BYTES = 8192 };

static uint64_t mix(uint64_t sum, uint64_t more)
{
    return (uint64_t)(uint32_t)sum * 31 + (uint32_t)more;
}

static uint64_t run_input(struct sc_file *f)
{
    static uint8_t trace[BYTES], replies[BYTES];
    uint64_t sum = 0;
    size_t length;

    sc_power_on(f, SC_5464);
    do {
        length = fread(trace, 1, sizeof trace, stdin);
        sc_run(f, trace, length, replies, sizeof replies);
        sum = mix(sum, replies[sum % BYTES]);
    } while (length == sizeof trace);
    return sum;
}

static uint64_t read_many(const struct sc_file *f, unsigned times)
{
    struct sc_timing t;
    uint64_t sum = 0;

    for (; times > 0; times--) {
        sc_timing_read(f, &t);
        sum = mix(sum, t.number[SC_SCREEN_START]);
    }
    return mix(sum, 0);
}

static uint64_t write_many(struct sc_file *f, unsigned times)
{
    struct sc_timing t;
    uint64_t sum = 0;

    sc_timing_read(f, &t);
    for (; times > 0; times--)
        sum = mix(sum, sc_timing_write(f, &t));
    return sum;
}

static uint64_t access_many(struct sc_file *f, unsigned times)
{
    const struct sc_record asked = {3, 1, 0x3C4, 5};
    uint64_t sum = 0;

    for (; times > 0; times--)
        sum = mix(sum, sc_access(f, &asked).code);
    return sum;
}

static uint64_t plan_many(const struct sc_file *f, unsigned times)
{
    static uint8_t buffer[SC_PLAN_BYTES];
    uint64_t sum = 0;
    size_t count;

    for (; times > 0; times--) {
        sc_plan(f, buffer, sizeof buffer, &count);
        sum = mix(sum, count);
    }
    return mix(sum, buffer[sum % SC_PLAN_BYTES]);
}

static uint64_t restore_many(const struct sc_file *f, unsigned times)
{
    static uint8_t buffer[SC_PLAN_BYTES];
    struct sc_file current;
    uint64_t sum = 0;
    size_t count;

    for (; times > 0; times--) {
        sc_power_on(&current, SC_5464);
        sc_restore(&current, f, buffer, sizeof buffer, &count);
        sum = mix(sum, count);
    }
    return mix(sum, buffer[sum % SC_PLAN_BYTES]);
}

int main(int words, char **word)
{
    struct sc_file f;
    uint64_t sum = run_input(&f), done;
    const char *what = words > 1 ? word[1] : "";
    unsigned times = words > 2 ? word[2][0] % 16 * 100u : 0;

    if (!strcmp(what, "write"))
        done = write_many(&f, times);
    else if (!strcmp(what, "access"))
        done = access_many(&f, times);
    else if (!strcmp(what, "plan"))
        done = plan_many(&f, times);
    else if (!strcmp(what, "restore"))
        done = restore_many(&f, times);
    else
        done = read_many(&f, times);
    printf("%" PRIu64 "\n", mix(sum, done));
    return 0;
}
