#include "judge.h"

uint32_t block_number(const uint8_t *block, int i) {
  const uint8_t *p = block + 4 * i;
  return p[0] | (uint32_t)p[1] << 8 | (uint32_t)p[2] << 16 | (uint32_t)p[3] << 24;
}

/* The least energy of a table with the same working slots, slot by slot: when the last slot is asleep, and when it is awake. */
static uint64_t least_energy(const struct list *l, const uint8_t *table) {
  const uint64_t never = UINT32_MAX;
  uint64_t asleep = 0, awake = never;
  for (unsigned t = 0; t < l->h; t++) {
    uint64_t up = (awake < asleep + l->q ? awake : asleep + l->q) + 1, down = awake < asleep ? awake : asleep;
    awake = up;
    asleep = table[t] < JOBS ? never : down;
  }
  return awake < asleep ? awake : asleep;
}

static const char *judge_table(const struct list *l, const uint8_t *table, const uint8_t *block) {
  unsigned stands[JOBS] = {0};
  uint32_t awake = 0, runs = 0;
  for (unsigned t = 0; t < l->h; t++) {
    unsigned x = table[t];
    if (x == 255) continue;
    awake++;
    if (t == 0 || table[t - 1] == 255) runs++;
    if (x == 254) continue;
    if (x >= l->n) return "a table byte that means nothing";
    if (t < l->job[x].r || t >= l->job[x].d) return "a job outside its slots";
    stands[x]++;
  }
  for (unsigned j = 0; j < l->n; j++) if (stands[j] != l->job[j].p) return "a job that does not have its volume";
  if (block_number(block, 0) != awake + l->q * runs) return "an energy that is not the table's";
  if (block_number(block, 1) != awake || block_number(block, 2) != runs) return "awake slots or runs that are not the table's";
  if (block_number(block, 0) != least_energy(l, table)) return "a table that costs more than its working slots ask for";
  return NULL;
}

static const char *judge_interval(const struct list *l, const uint8_t *block) {
  uint32_t a = block_number(block, 0), b = block_number(block, 1);
  unsigned long volume = 0;
  if (a >= b || b > l->h) return "no interval";
  for (unsigned j = 0; j < l->n; j++) if (a <= l->job[j].r && l->job[j].d <= b) volume += l->job[j].p;
  return volume > b - a ? NULL : "an interval that is not overloaded";
}

const char *judge(const struct list *l, uint32_t number, const uint8_t *table, const uint8_t *block) {
  return number == 18 ? judge_interval(l, block) : judge_table(l, table, block);
}
