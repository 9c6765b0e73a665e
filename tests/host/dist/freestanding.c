/* The planner in a program without a C library, on x86-64 Linux, with lib/freestanding.c. It plans document 01's third worked list and ends with 0 if the number, the
 * table and the block are as expected, else with 1, 2 or 3 for the first of them that is not. */
#include "sleep_plan.h"

/* The kernel enters here, with the stack pointer where a call wants it. What check returns goes to exit, system call 60. */
__asm__(".text\n"
        ".globl _start\n"
        "_start:\n"
        "  call check\n"
        "  mov %eax, %edi\n"
        "  mov $60, %eax\n"
        "  syscall\n");

static int differ(const uint8_t *a, const uint8_t *b, size_t n) {
  for (size_t i = 0; i < n; i++)
    if (a[i] != b[i]) return 1;
  return 0;
}

/* Both are lent longer than the answer, to see that what lies behind it stays 170. */
static const uint8_t list[] = {10, 0, 3, 0, 3, 2, 3, 0, 5, 8, 0, 2, 0, 4, 5, 0};
static const uint8_t table_expected[] = {0, 2, 2, 2, 2, 2, 254, 254, 1, 1, 170, 170};
static const uint8_t block_expected[] = {13, 0, 0, 0, 10, 0, 0, 0, 1, 0, 0, 0, 6, 0, 0, 0, 170, 170, 170, 170};
static uint8_t table[sizeof table_expected], block[sizeof block_expected];

int check(void) {
  for (size_t i = 0; i < sizeof table; i++) table[i] = 170;
  for (size_t i = 0; i < sizeof block; i++) block[i] = 170;
  if (sleep_plan(list, sizeof list, table, sizeof table, block, sizeof block) != SLEEP_PLAN_PLANNED) return 1;
  if (differ(table, table_expected, sizeof table)) return 2;
  if (differ(block, block_expected, sizeof block)) return 3;
  return 0;
}
