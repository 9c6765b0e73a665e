/* One call for each family of the bench at 4,096 slots, for a counter of instructions; prints the families' names in the order of the calls. */
#include "families.h"
#include "sleep_plan.h"
#include <stdio.h>

int main(void) {
  static uint8_t list[512], table[SLEEP_PLAN_TABLE_MAX], block[SLEEP_PLAN_BLOCK_MIN];
  for (int f = 0; f < FAMILIES; f++) {
    uint32_t r = sleep_plan(list, family_list(f, SLEEP_PLAN_TABLE_MAX, list), table, sizeof table, block, sizeof block);
    if (r != SLEEP_PLAN_PLANNED && r != SLEEP_PLAN_OVERLOADED) { fprintf(stderr, "%s: returned %u\n", family_name[f], r); return 1; }
    printf("%s\n", family_name[f]);
  }
  return 0;
}
