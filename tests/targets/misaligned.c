/* The archive's call with an access added that is not aligned, to show that it is noticed (notices). */
#include "sleep_plan.h"

uint32_t right_plan(const uint8_t *list, size_t list_len, uint8_t *table, size_t table_len, uint8_t *block, size_t block_len);

uint32_t sleep_plan(const uint8_t *list, size_t list_len, uint8_t *table, size_t table_len, uint8_t *block, size_t block_len) {
  static uint32_t two[2];
  (void)*(volatile uint32_t *)((uintptr_t)two + 1);
  return right_plan(list, list_len, table, table_len, block, block_len);
}
