/* The one sleep_plan of an archive: lengths are 64 bits wide in the module, whatever a size_t is. */
#include "sleep_plan.h"

uint32_t sleep_plan_64(const uint8_t *list, uint64_t list_len, uint8_t *table, uint64_t table_len, uint8_t *block, uint64_t block_len);

uint32_t sleep_plan(const uint8_t *list, size_t list_len, uint8_t *table, size_t table_len, uint8_t *block, size_t block_len) {
  return sleep_plan_64(list, list_len, table, table_len, block, block_len);
}
