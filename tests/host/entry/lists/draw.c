#include "draw.h"

static uint64_t state;

static uint64_t mixed(uint64_t x) {
  x = (x ^ x >> 31) * 0x9E3779B97F4A7C15u;
  x = (x ^ x >> 29) * 0xD1342543DE82EF95u;
  return x ^ x >> 32;
}

void draw_for(uint64_t seed, uint64_t number) { state = mixed(mixed(seed + 1) + number) | 1; }

uint32_t draw(uint32_t below) {
  state ^= state << 13; state ^= state >> 7; state ^= state << 17;
  return (uint32_t)((state * 2685821657736338717u >> 32) * below >> 32);
}

uint32_t between(uint32_t least, uint32_t most) { return least + draw(most - least + 1); }

int one_in(uint32_t n) { return draw(n) == 0; }
