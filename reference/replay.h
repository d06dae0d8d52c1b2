/* 01 "The replay program", over two open streams, so that it can be called from a test. */
#ifndef REPLAY_H
#define REPLAY_H

#include <stdbool.h>
#include <stdio.h>

#include "sedgecoil.h"

/* Replays a trace from power-on. False if the input can't be read or the output written. */
bool replay(enum sc_chip chip, FILE *in, FILE *out);

#endif
