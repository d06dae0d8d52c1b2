/* The option of the programs: `--chip 5462` or `--chip 5464` as the first words. */
#ifndef CHIP_H
#define CHIP_H

#include <string.h>

#include "sedgecoil.h"

/* The chip that is named there, and without the option the 5464; false if there is no such chip. */
static inline bool take_chip(int *words, char ***word, enum sc_chip *chip)
{
    *chip = SC_5464;
    if (*words < 2 || strcmp((*word)[1], "--chip") != 0)
        return true;
    if (*words < 3 || (strcmp((*word)[2], "5462") != 0 && strcmp((*word)[2], "5464") != 0))
        return false;
    *chip = strcmp((*word)[2], "5462") == 0 ? SC_5462 : SC_5464;
    *words -= 2;
    *word += 2;
    return true;
}

#endif
