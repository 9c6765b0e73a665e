/* Many lists through the archive, each call held to the oracle and the definitions.
 *
 *   drawn_lists SEED COUNT [FIRST [heap]]    cases FIRST to FIRST + COUNT - 1 of a seed; with "heap" the buffers are heap blocks of just their size
 */
#include "checked_call.h"
#include "coverage.h"
#include "lent_memory.h"
#include "report.h"
#include <stdio.h>
#include <stdlib.h>
#include <string.h>

static size_t (*const sources[SOURCES])(uint8_t *, uint64_t) = { random_bytes, mutated_bytes, grammar_bytes };

static size_t table_length(const uint8_t *list, size_t list_len) {
  unsigned h = list_len < 2 ? draw(20) : list[0] | (unsigned)list[1] << 8;
  if (h > MOST_SLOTS) h = draw(MOST_SLOTS);
  switch (draw(20)) {
  case 0: return h ? h - 1 : 0;
  case 1: return one_in(2) ? 0 : draw(h + 1);
  case 2: case 3: return h + 1;
  case 4: return one_in(8) ? TABLE_ROOM : h + 1000;
  case 5: case 6: case 7: case 8: case 9: return h + draw(64);
  default: return h;
  }
}

static size_t block_length(void) {
  switch (draw(20)) {
  case 0: return one_in(2) ? 15 : draw(16);
  case 1: case 2: return 17;
  case 3: case 4: case 5: return 16 + draw(100);
  default: return 16;
  }
}

static enum lie lie(size_t len) { return !len && one_in(2) ? NOWHERE : (enum lie)draw(NOWHERE); }

static void try_case(uint64_t seed, uint64_t number) {
  static uint8_t list[LIST_ROOM];
  struct notes notes;
  enum source source = (enum source)(number % SOURCES);
  snprintf(at_hand, sizeof at_hand, "case %llu of seed %llu; to repeat it: make robust SEED=%llu FIRST=%llu COUNT=1", (unsigned long long)number,
           (unsigned long long)seed, (unsigned long long)seed, (unsigned long long)number);
  draw_for(seed, number);
  struct call c = { .list = list, .list_len = sources[source](list, number / SOURCES) };
  c.table_len = table_length(list, c.list_len);
  c.block_len = block_length();
  c.list_lie = lie(c.list_len); c.table_lie = lie(c.table_len); c.block_lie = lie(c.block_len);
  uint32_t answer = checked_call(&c, &notes);
  count(source, answer, &c, &notes);
}

int main(int argc, char **argv) {
  if (argc < 3) { fprintf(stderr, "drawn_lists SEED COUNT [FIRST [heap]]\n"); return 2; }
  uint64_t seed = strtoull(argv[1], NULL, 10), number = strtoull(argv[2], NULL, 10), first = argc > 3 ? strtoull(argv[3], NULL, 10) : 0;
  in_heap = argc > 4 && !strcmp(argv[4], "heap");
  report_signals();
  for (uint64_t i = 0; i < number && differences < TOLD; i++) try_case(seed, first + i);
  print_counts();
  printf("robust: seed %llu, cases from %llu:", (unsigned long long)seed, (unsigned long long)first);
  print_summary();
  printf("; %lu differences\n", differences);
  return differences || count_missing();
}
