/* one_call SLOTS: a call of sleep_plan on the list bytes of standard input, with a table of so many bytes. Prints the number returned, and in hex
 * the table and the block; AA is a byte that was not written. */
#include "sleep_plan.h"
#include <stdio.h>
#include <stdlib.h>
#include <string.h>

static void print(const char *name, const uint8_t *bytes, size_t n) {
  printf("%s", name);
  for (size_t i = 0; i < n; i++) printf(" %02X", bytes[i]);
  printf("\n");
}

int main(int argc, char **argv) {
  /* room for one byte behind the longest list, which is refused; what follows it cannot change the answer */
  static uint8_t list[SLEEP_PLAN_LIST_MAX + 1], table[SLEEP_PLAN_TABLE_MAX], block[SLEEP_PLAN_BLOCK_MIN];
  size_t slots = argc == 2 ? strtoul(argv[1], NULL, 10) : sizeof table + 1, len = fread(list, 1, sizeof list, stdin);
  if (slots > sizeof table) { fprintf(stderr, "one_call SLOTS\n"); return 2; }
  memset(table, 0xAA, sizeof table);
  memset(block, 0xAA, sizeof block);
  printf("returned %lu\n", (unsigned long)sleep_plan(list, len, table, slots, block, sizeof block));
  print("table", table, slots);
  print("block", block, sizeof block);
  return 0;
}
