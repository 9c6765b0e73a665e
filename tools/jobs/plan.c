#include "plan.h"

void make_plan(const uint8_t *bytes, size_t length, struct plan *plan) {
  uint8_t block[SLEEP_PLAN_BLOCK_MIN];
  plan->returned = sleep_plan(bytes, length, plan->table, sizeof plan->table, block, sizeof block);
  for (int i = 0; i < 4; i++) {
    const uint8_t *p = block + 4 * i;
    plan->numbers[i] = p[0] | (uint32_t)p[1] << 8 | (uint32_t)p[2] << 16 | (uint32_t)p[3] << 24;
  }
}

int refused(const struct plan *plan) { return plan->returned != SLEEP_PLAN_PLANNED && plan->returned != SLEEP_PLAN_OVERLOADED; }

unsigned stretch_end(const uint8_t *table, unsigned from, unsigned limit) {
  unsigned end = from + 1;
  while (end < limit && table[end] == table[from]) end++;
  return end;
}

static int asleep(const uint8_t *table, unsigned slot) { return table[slot] == SLEEP_PLAN_ASLEEP; }

unsigned phase_end(const uint8_t *table, unsigned from, unsigned limit) {
  unsigned end = from + 1;
  while (end < limit && asleep(table, end) == asleep(table, from)) end++;
  return end;
}

int wakes_at(const uint8_t *table, unsigned slot) { return !asleep(table, slot) && (slot == 0 || asleep(table, slot - 1)); }

unsigned count_slots(const uint8_t *table, unsigned a, unsigned b, uint8_t byte) {
  unsigned count = 0;
  for (unsigned t = a; t < b; t++) count += table[t] == byte;
  return count;
}
