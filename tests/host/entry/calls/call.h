/* One call of sleep_plan: its list, the sizes of what is lent, and where that lies. */
#ifndef CALL_H
#define CALL_H
#include <stddef.h>
#include <stdint.h>

enum { TABLE_ROOM = 8192, BLOCK_ROOM = 4096 };

/* Where a lent buffer lies: up against the forbidden page before or behind it, somewhere between, or nowhere: NULL, for no byte. */
enum lie { FRONT, BACK, BETWEEN, NOWHERE };

struct call {
  const uint8_t *list;
  size_t list_len, table_len, block_len;
  enum lie list_lie, table_lie, block_lie;
};

#endif
