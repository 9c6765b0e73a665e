/* The archive's call with one fault added, FAULT, to show that such a fault is noticed (must-fail). */
#include "sleep_plan.h"

uint32_t right_plan(const uint8_t *list, size_t list_len, uint8_t *table, size_t table_len, uint8_t *block, size_t block_len);

uint32_t sleep_plan(const uint8_t *list, size_t list_len, uint8_t *table, size_t table_len, uint8_t *block, size_t block_len) {
  uint8_t last = block_len >= 16 ? block[15] : 0;
  volatile const uint8_t *readable = NULL;
  volatile uint8_t *changed = (volatile uint8_t *)(uintptr_t)list;
  uint32_t r = right_plan(list, list_len, table, table_len, block, block_len);
  size_t h = list_len < 2 ? 0 : list[0] + 256u * list[1];
  switch (FAULT) {
  case 1: if (r == 0 && table_len > h) table[h] ^= 1; break;               /* the byte behind a plan, lent */
  case 2: if (r == 0) table[h] ^= 1; break;                                /* the byte behind a plan, lent or not */
  case 3: if (r == 0 && table_len > h) table[table_len - 1] ^= 1; break;   /* the last lent byte behind a plan */
  case 4: if (table) table[-1] ^= 1; break;                                /* the byte before the table */
  case 5: if (r == 15 && table_len > 0) table[0] ^= 1; break;              /* a table byte after a refusal */
  case 6: if (r == 18) table[h - 1] = 255; break;                          /* a table byte after an overload */
  case 7: if (block_len > 16) block[16] ^= 1; break;                       /* the byte behind the answer, lent */
  case 8: if (block_len >= 16) block[-1] ^= 1; break;                      /* the byte before the block */
  case 9: if (block_len == 15) block[14] ^= 1; break;                      /* a byte of a block that is too short */
  case 10: if (r == 14) block[15] = last; break;                           /* zeros left out behind a place */
  case 11: if (r == 0) block[2] = 0; break;                                /* an energy of 16 bits */
  case 12: readable = list ? list + list_len : NULL; break;                /* a read behind the list */
  case 13: readable = list ? list - 1 : NULL; break;                       /* a read before the list */
  case 14: readable = table ? table + table_len : NULL; break;             /* a read behind the table */
  case 15: readable = block ? block + block_len : NULL; break;             /* a read behind the block */
  case 16: if (list_len) { uint8_t was = *changed; *changed = (uint8_t)(was + 1); *changed = was; } break; /* a list that is changed for a while */
  case 17: if (r == 16 && list_len > 453) r = 11; break;                   /* another number for a list that is too long */
  default: if (r == 17 && block_len >= 16) r = 18;                         /* overload before the table's length */
  }
  if (readable) (void)*readable;
  return r;
}
