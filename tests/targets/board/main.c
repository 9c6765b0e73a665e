/* The planner on a board: lists with known answers, planned in buffers at odd addresses, with the stack that a call takes. Ends with 0 if all is as
 * expected, else with 1; a fault ends with 2. */
#include "semihosting.h"
#include "sleep_plan.h"

extern uint32_t bss_end[];

struct test {
  const char *what;
  const uint8_t *list; size_t list_len;
  size_t table_len, block_len;
  uint32_t number, block[4];
  const uint8_t *plan; size_t slots; /* what is written to the table */
};
#define BYTES(...) (const uint8_t[]){ __VA_ARGS__ }, sizeof (const uint8_t[]){ __VA_ARGS__ }
#define PLANNED SLEEP_PLAN_PLANNED
#define NO_PLAN NULL, 0

/* Document 01's worked cases, with step 5 as card 5 of 02 has it; case 3 is the example of sleep_plan.h. Then each refusal, and what the oracle says
 * of the biggest lists. */
static const struct test tests[] = {
  { "case 1", BYTES(12, 0, 3, 0, 2, 6, 4, 0, 2, 0, 7, 6, 0, 10, 0, 2, 0), 12, 16, PLANNED, { 9, 6, 1, 4 },
    BYTES(255, 255, 0, 0, 254, 254, 1, 1, 255, 255, 255, 255) },
  { "case 2", BYTES(12, 0, 1, 0, 2, 6, 4, 0, 2, 0, 7, 6, 0, 10, 0, 2, 0), 12, 16, PLANNED, { 6, 4, 2, 4 },
    BYTES(255, 255, 0, 0, 255, 255, 1, 1, 255, 255, 255, 255) },
  { "case 3", BYTES(10, 0, 3, 0, 3, 2, 3, 0, 5, 8, 0, 2, 0, 4, 5, 0), 10, 16, PLANNED, { 13, 10, 1, 6 }, BYTES(0, 2, 2, 2, 2, 2, 254, 254, 1, 1) },
  { "case 4, longer buffers", BYTES(8, 0, 2, 0, 1, 7, 2, 0, 5, 0, 3, 0), 4096, 20, PLANNED, { 5, 3, 1, 3 }, BYTES(255, 255, 0, 0, 0, 255, 255, 255) },
  { "case 5", BYTES(8, 0, 1, 0, 1, 7, 2, 0, 5, 0, 4, 0), 8, 16, SLEEP_PLAN_OVERLOADED, { 2, 5, 0, 0 }, NO_PLAN },
  { "case 6", BYTES(3, 0, 1, 0, 2, 6, 2, 0, 2, 0, 5, 1, 0, 2, 0), 3, 16, SLEEP_PLAN_OVERLOADED, { 0, 3, 0, 0 }, NO_PLAN },
  { "case 7", BYTES(2, 0, 1, 0, 2, 0, 0), 2, 16, PLANNED, { 3, 2, 1, 1 }, BYTES(0, 1) },
  { "case 8", BYTES(1, 0, 1, 0, 0), 1, 16, PLANNED, { 0, 0, 0, 0 }, BYTES(255) },
  { "case 9", BYTES(1, 0, 255, 255, 1, 0), 1, 16, PLANNED, { 65536, 1, 1, 0 }, BYTES(0) },
  { "no list", NULL, 0, 8, 16, SLEEP_PLAN_TRUNCATED, { 0, 0, 0, 0 }, NO_PLAN },
  { "cut off", BYTES(8, 0, 1, 0, 1, 7, 2, 0, 5), 8, 16, SLEEP_PLAN_TRUNCATED, { 9, 0, 0, 0 }, NO_PLAN },
  { "H 4097", BYTES(1, 16, 1, 0, 0), 8, 16, SLEEP_PLAN_OUT_OF_RANGE, { 0, 0, 0, 0 }, NO_PLAN },
  { "65 jobs", BYTES(8, 0, 1, 0, 65), 8, 16, SLEEP_PLAN_OUT_OF_RANGE, { 4, 0, 0, 0 }, NO_PLAN },
  { "map bit 7", BYTES(8, 0, 1, 0, 2, 0, 128), 8, 16, SLEEP_PLAN_UNKNOWN_BIT, { 6, 0, 0, 0 }, NO_PLAN },
  { "volume 1 spelled out", BYTES(8, 0, 1, 0, 1, 5, 2, 0, 1, 0), 8, 16, SLEEP_PLAN_REDUNDANT, { 8, 0, 0, 0 }, NO_PLAN },
  { "r = d", BYTES(8, 0, 1, 0, 2, 0, 3, 4, 0, 4, 0), 8, 16, SLEEP_PLAN_EMPTY_SPAN, { 1, 0, 0, 0 }, NO_PLAN },
  { "a byte too much", BYTES(8, 0, 1, 0, 1, 0, 0), 8, 16, SLEEP_PLAN_LEFT_OVER, { 6, 0, 0, 0 }, NO_PLAN },
  { "short table", BYTES(8, 0, 1, 0, 1, 0), 7, 16, SLEEP_PLAN_TOO_SHORT, { 8, 0, 0, 0 }, NO_PLAN },
  { "short block", BYTES(8, 0, 1, 0, 1, 0), 8, 15, SLEEP_PLAN_TOO_SHORT, { 0, 0, 0, 0 }, NO_PLAN },
  { "d = H + 1", BYTES(8, 0, 1, 0, 1, 2, 9, 0), 8, 16, SLEEP_PLAN_PAST_HORIZON, { 0, 0, 0, 0 }, NO_PLAN },
  { "volume 0", BYTES(8, 0, 1, 0, 1, 4, 0, 0), 8, 16, SLEEP_PLAN_NO_VOLUME, { 0, 0, 0, 0 }, NO_PLAN },
#include "biggest.h"
};

/* A buffer begins at the second byte of its room; those around it stay as painted. */
enum { PAINT = 170, AROUND = 8 };
static uint8_t list_room[SLEEP_PLAN_LIST_MAX + AROUND] __attribute__((aligned(8)));
static uint8_t table_room[SLEEP_PLAN_TABLE_MAX + AROUND] __attribute__((aligned(8)));
static uint8_t block_room[SLEEP_PLAN_BLOCK_MIN + AROUND] __attribute__((aligned(8)));

static void paint(uint8_t *room, size_t n) { for (size_t i = 0; i < n; i++) room[i] = PAINT; }

/* Whether a room of n bytes has the bytes given from its second on, and else its paint. */
static int holds(const uint8_t *room, size_t n, const uint8_t *bytes, size_t given) {
  for (size_t i = 0; i < n; i++) if (room[i] != (i >= 1 && i - 1 < given ? bytes[i - 1] : PAINT)) return 0;
  return 1;
}

static uint32_t deepest;

/* The call, made with all RAM below the stack pointer painted; what is changed there from the lowest word on is the stack it took. */
__attribute__((noinline)) static uint32_t measured(const struct test *test) {
  const uint32_t unused = 0xA5C3E19B;
  volatile uint32_t *here, *low;
  __asm__ volatile("mov %0, sp" : "=r"(here));
  for (low = bss_end; low < here; low++) *low = unused;
  const uint8_t *list = test->list ? list_room + 1 : NULL;
  const uint32_t number = sleep_plan(list, test->list_len, table_room + 1, test->table_len, block_room + 1, test->block_len);
  for (low = bss_end; low < here && *low == unused; low++) {}
  const uint32_t depth = (uint32_t)here - (uint32_t)low;
  if (low == bss_end) { say("the stack is used up\n"); end(1); }
  if (depth > deepest) deepest = depth;
  return number;
}

/* NULL, or what differs. */
static const char *differs(const struct test *test) {
  uint8_t block[SLEEP_PLAN_BLOCK_MIN];
  for (int i = 0; i < 16; i++) block[i] = (uint8_t)(test->block[i / 4] >> 8 * (i % 4));
  paint(list_room, sizeof list_room);
  paint(table_room, sizeof table_room);
  paint(block_room, sizeof block_room);
  for (size_t i = 0; i < test->list_len; i++) list_room[1 + i] = test->list[i];
  if (measured(test) != test->number) return "another number";
  if (!holds(list_room, sizeof list_room, test->list, test->list_len)) return "another list";
  if (!holds(table_room, sizeof table_room, test->plan, test->slots)) return "another table";
  if (!holds(block_room, sizeof block_room, block, test->block_len < sizeof block ? 0 : sizeof block)) return "another block";
  return NULL;
}

/* A Cortex-M0 does not divide. */
static void say_number(uint32_t x) {
  static const uint32_t powers[] = { 1000000, 100000, 10000, 1000, 100, 10, 1 };
  char text[8], *at = text;
  for (size_t i = 0; i < sizeof powers / sizeof *powers; i++) {
    char digit = '0';
    while (x >= powers[i]) { x -= powers[i]; digit++; }
    if (digit > '0' || at > text || powers[i] == 1) *at++ = digit;
  }
  *at = 0;
  say(text);
}

int main(void) {
  const uint32_t count = sizeof tests / sizeof *tests;
  int status = 0;
  /* CCR.UNALIGN_TRP: from here on a word that is not aligned is a fault, as it always is on a Cortex-M0. */
  *(volatile uint32_t *)0xE000ED14 |= 8;
#ifdef ODD_WORD
  __asm__ volatile("ldr r0, [%0]" : : "r"(list_room + 1) : "r0", "memory");
#endif
  for (const struct test *test = tests; test < tests + count; test++) {
    const char *what = differs(test);
    if (what) { say(test->what); say(": "); say(what); say("\n"); status = 1; }
  }
  if (deepest == 0 || deepest >= SLEEP_PLAN_STACK) { say("not the stack that sleep_plan.h says: "); status = 1; }
  say_number(count); say(" lists, deepest stack "); say_number(deepest); say(" bytes\n");
  return status;
}
