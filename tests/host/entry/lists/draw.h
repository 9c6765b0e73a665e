/* Drawn numbers. Those of a case depend on the run's seed and the case's number alone, so each case can be repeated by itself. */
#ifndef DRAW_H
#define DRAW_H
#include <stdint.h>

void draw_for(uint64_t seed, uint64_t number);
uint32_t draw(uint32_t below);
uint32_t between(uint32_t least, uint32_t most);
int one_in(uint32_t n);

#define ONE_OF(...) ((const unsigned[]){ __VA_ARGS__ }[draw(sizeof (const unsigned[]){ __VA_ARGS__ } / sizeof(unsigned))])

#endif
