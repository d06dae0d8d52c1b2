/* What the benchmark counts: a trace on standard input, each record through one access; prints a sum of the answers. */
#include "sedgecoil.h"

#include <stdio.h>
#include <string.h>

enum { RECORDS = 1 << 16 };

static uint64_t trace[RECORDS];

int main(void)
{
    sedgecoil_file file;
    uint32_t sum = 0;
    size_t count = fread(trace, sizeof *trace, RECORDS, stdin);

    sedgecoil_power_on(&file, SEDGECOIL_5464);
    for (size_t i = 0; i < count; i++)
        sum = sum * 31 + sedgecoil_access_parts(file.registers, sedgecoil_rest(&file), trace[i]);
    printf("%lu\n", (unsigned long)sum);
    return 0;
}
