#include "checked_call.h"
#include "judge.h"
#include "lent_memory.h"
#include "reader.h"
#include "report.h"
#include "sleep_plan.h"
#include <string.h>

/* All memory around a loan against its image; places are counted from the buffer's first byte. */
static void compare(const struct call *c, const char *what, struct loan got, const uint8_t *want) {
  if (!got.size || !memcmp(got.whole, want, got.size)) return;
  size_t i = 0;
  while (got.whole[i] == want[i]) i++;
  differs(c, "byte %ld of the %s is %d, should be %d", (long)i - (long)got.offset, what, got.whole[i], want[i]);
}

static struct arena lists, tables, blocks;

uint32_t checked_call(const struct call *c, struct notes *notes) {
  static uint8_t table_image[TABLE_ROOM], block_image[BLOCK_ROOM], list_image[LIST_ROOM];
  static struct list read;
  if (!lists.size) { lists = arena(LIST_ROOM, 1); tables = arena(TABLE_ROOM, 0); blocks = arena(BLOCK_ROOM, 0); }
  struct loan list = lend(&lists, c->list_len, c->list_lie), table = lend(&tables, c->table_len, c->table_lie);
  struct loan block = lend(&blocks, c->block_len, c->block_lie);
  paint(list.whole, list.size);
  paint(table.whole, table.size);
  paint(block.whole, block.size);
  if (c->list_len) memcpy(list.whole + list.offset, c->list, c->list_len);
  if (list.size) memcpy(list_image, list.whole, list.size);
  if (table.size) memcpy(table_image, table.whole, table.size);
  if (block.size) memcpy(block_image, block.whole, block.size);

  under_way = c;
  uint32_t got = sleep_plan(list.at, c->list_len, table.at, c->table_len, block.at, c->block_len);
  uint32_t want = oracle_plan(list.at, c->list_len, table_image + table.offset, c->table_len, block_image + block.offset, c->block_len, notes);

  if (got != want) differs(c, "returned %u, should be %u", got, want);
  compare(c, "list", list, list_image);
  compare(c, "table", table, table_image);
  compare(c, "block", block, block_image);
  if (got == want && (got == 0 || got == 18)) {
    read_list(list.at, c->list_len, &read);
    const char *wrong = judge(&read, got, table.at, block.at);
    if (wrong) differs(c, "the answer has %s", wrong);
  }
  take_back(list); take_back(table); take_back(block);
  under_way = NULL;
  return got;
}
