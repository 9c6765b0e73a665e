/* Writes the biggest lists, of 64 jobs and 4,096 slots, with the oracle's answers, as entries for main.c's table. It runs on the host. */
#include "judge.h"
#include "oracle.h"
#include "sources.h"
#include <stdio.h>

static void write_bytes(const uint8_t *bytes, size_t n) {
  printf("    BYTES(");
  for (size_t i = 0; i < n; i++) printf("%d%s", bytes[i], i + 1 < n ? (i % 40 == 39 ? ",\n      " : ", ") : ")");
}

/* 1 if the list was written: it is if it gets the number that is wanted. */
static int write_test(const char *what, const struct list *l, uint32_t wanted) {
  static uint8_t bytes[LIST_ROOM], table[MOST_SLOTS], block[16];
  struct notes notes;
  const size_t len = spell(l, bytes);
  const uint32_t number = oracle_plan(bytes, len, table, sizeof table, block, sizeof block, &notes);
  if (number != wanted) return 0;
  printf("  { \"%s\",\n", what);
  write_bytes(bytes, len);
  printf(", 4096, 16, %u, {", (unsigned)number);
  for (int i = 0; i < 4; i++) printf(" %lu,", (unsigned long)block_number(block, i));
  printf(" },\n");
  if (number) printf("    NO_PLAN");
  else write_bytes(table, MOST_SLOTS);
  printf(" },\n");
  return 1;
}

/* Each span inside the one before and each field spelled out: 453 bytes. */
static void longest(struct list *l, unsigned volume) {
  l->h = MOST_SLOTS; l->q = 3; l->n = JOBS;
  for (unsigned j = 0; j < JOBS; j++) l->job[j] = (struct job){ 1 + j, MOST_SLOTS - 1 - j, volume, 0 };
  settle(l);
}

int main(void) {
  static struct list l;
  int written = 0;
  longest(&l, 60);
  written += write_test("longest list", &l, 0);
  longest(&l, 65535);
  written += write_test("longest list, overloaded", &l, 18);
  for (unsigned i = 0; written < 32; i++) {
    char what[32];
    draw_for(20261117, i);
    good_list(&l);
    snprintf(what, sizeof what, "drawn list %u", i);
    if (l.h == MOST_SLOTS && l.n == JOBS) written += write_test(what, &l, 0);
  }
  return 0;
}
