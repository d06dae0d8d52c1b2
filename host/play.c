/*
 * Plays a trace on standard input through single accesses and prints what the replay program prints:
 *
 *   play [--chip 5462|5464] [--run|--geometry|--plan]
 *
 * With --run it takes runs over parts of the trace in place of accesses, and between two of them the
 * file goes through an image. With --geometry it prints what './sedgecoil geometry' prints of the file
 * that the trace ends in, with --plan it writes a plan of that file, as snapshot does.
 */
#include "sedgecoil.h"

#include <stdio.h>
#include <string.h>

enum { RECORD = 8, PART = 100 * RECORD };

enum output { REPLIES, RUNS, GEOMETRY, PLAN };

static void print_line(unsigned long long number, unsigned code, unsigned value)
{
    printf("%llu %u %04X\n", number, code, value);
}

static void play(sedgecoil_file *file, enum output output)
{
    unsigned char record[RECORD];
    unsigned long long number = 0;
    size_t length;

    while ((length = fread(record, 1, RECORD, stdin)) == RECORD) {
        uint32_t value = record[4] | (uint32_t)record[5] << 8 | (uint32_t)record[6] << 16 | (uint32_t)record[7] << 24;
        uint32_t answer = sedgecoil_access(file, record[0], record[1], (uint16_t)(record[2] | record[3] << 8), value);

        if (output == REPLIES)
            print_line(number++, sedgecoil_code(answer), sedgecoil_value(answer));
    }
    /* A last fragment is no access: 01 answers 2. */
    if (length > 0 && output == REPLIES)
        print_line(number, SEDGECOIL_MALFORMED, 0);
}

/* The file as it comes back from an image, into a struct that held another chip's. */
static int through_image(sedgecoil_file *file)
{
    static uint8_t image[SEDGECOIL_IMAGE];
    uint8_t chip = file->chip;

    return sedgecoil_save(file, NULL, image, sizeof image) == SEDGECOIL_DONE
           && sedgecoil_power_on(file, chip ^ 1) == SEDGECOIL_DONE
           && sedgecoil_load(file, NULL, image, sizeof image) == SEDGECOIL_DONE;
}

static int play_runs(sedgecoil_file *file)
{
    static uint8_t trace[PART], replies[PART];
    unsigned long long number = 0;
    size_t length, count;

    while ((length = fread(trace, 1, PART, stdin)) > 0) {
        if (sedgecoil_run(file, trace, length, replies, sizeof replies, &count) != SEDGECOIL_DONE)
            return 1;
        for (size_t i = 0; i < count; i++)
            print_line(number++, replies[RECORD * i], replies[RECORD * i + 4] | (unsigned)replies[RECORD * i + 5] << 8);
        if (!through_image(file))
            return 1;
    }
    return 0;
}

static void print_numbers(const char *name, const uint32_t *numbers, int count)
{
    printf("%s", name);
    for (int i = 0; i < count; i++)
        printf(" %lu", (unsigned long)numbers[i]);
    printf("\n");
}

static void print_timing(const sedgecoil_file *file)
{
    uint32_t numbers[SEDGECOIL_TIMING_COUNT] = {0};

    sedgecoil_timing(file, numbers);
    print_numbers("timing", numbers, SEDGECOIL_TIMING_COUNT);
}

static void print_geometry(const sedgecoil_file *file)
{
    int32_t cursor[SEDGECOIL_CURSOR_COUNT] = {0};
    uint32_t window[SEDGECOIL_WINDOW_COUNT] = {0}, capture[SEDGECOIL_CAPTURE_COUNT] = {0};

    sedgecoil_cursor(file, cursor);
    sedgecoil_window(file, window);
    sedgecoil_capture(file, capture);
    printf("cursor");
    for (int i = 0; i < SEDGECOIL_CURSOR_COUNT; i++)
        printf(" %ld", (long)cursor[i]);
    printf("\n");
    print_numbers("window2", window, SEDGECOIL_WINDOW_COUNT);
    print_numbers("capture", capture, SEDGECOIL_CAPTURE_COUNT);
}

/* The plan's records, or the code of the refusal on standard error. */
static int write_plan(const sedgecoil_file *file)
{
    static uint8_t plan[SEDGECOIL_PLAN];
    size_t count;
    uint32_t code = sedgecoil_plan(file, plan, sizeof plan, &count);

    if (code != SEDGECOIL_DONE) {
        fprintf(stderr, "play: no plan: %lu\n", (unsigned long)code);
        return 1;
    }
    return fwrite(plan, RECORD, count, stdout) != count;
}

static int usage(void)
{
    fprintf(stderr, "usage: play [--chip 5462|5464] [--run|--geometry|--plan] <TRACE\n");
    return 2;
}

static int is_option(int words, char **word, int at, const char *name, const char *value)
{
    return strcmp(word[at], name) == 0 && at + 1 < words && strcmp(word[at + 1], value) == 0;
}

int main(int words, char **word)
{
    static sedgecoil_file file;
    uint8_t chip = SEDGECOIL_5464;
    enum output output = REPLIES;
    int failed = 0;

    for (int i = 1; i < words; i++) {
        if (strcmp(word[i], "--run") == 0)
            output = RUNS;
        else if (strcmp(word[i], "--geometry") == 0)
            output = GEOMETRY;
        else if (strcmp(word[i], "--plan") == 0)
            output = PLAN;
        else if (is_option(words, word, i, "--chip", "5462"))
            chip = SEDGECOIL_5462, i++;
        else if (is_option(words, word, i, "--chip", "5464"))
            chip = SEDGECOIL_5464, i++;
        else
            return usage();
    }
    sedgecoil_power_on(&file, chip);
    if (output == RUNS)
        failed = play_runs(&file);
    else
        play(&file, output);
    if (output == GEOMETRY)
        print_geometry(&file);
    else if (output == PLAN)
        failed = write_plan(&file);
    else
        print_timing(&file);
    return failed || ferror(stdin) || fflush(stdout) != 0;
}
