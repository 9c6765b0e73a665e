/* What a sweep over many cases needs to be repeated elsewhere: the same drawn numbers, and one number that stands for all answers. */
#ifndef SWEEP_NUMBERS_H
#define SWEEP_NUMBERS_H

#include <stdint.h>

/* Moves the pseudo-random state on and gives its higher bits, 0 to 32767, since the low ones hardly vary. */
int draw(uint64_t *state);

/* The digest sum with x taken in. */
uint64_t mixed(uint64_t sum, uint64_t x);

#endif
