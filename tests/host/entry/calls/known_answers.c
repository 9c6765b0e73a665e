/* Calls with known answers: the plans worked by hand, stretches about as long as a wake costs, jobs that go on over such stretches, each refusal at
 * the first and the last place that it can have, short buffers; and buffers that share bytes. Each list is also held to the oracle (checked_call.h).
 *
 *   known_answers [heap]    with "heap" the buffers are heap blocks of just their size
 */
#include "checked_call.h"
#include "judge.h"
#include "lent_memory.h"
#include "report.h"
#include "sleep_plan.h"
#include "sources.h"
#include <stdio.h>
#include <string.h>

static unsigned long calls;
static uint8_t bytes[LIST_ROOM];

/* A known answer: what is returned, then the block's four numbers. */
struct answer { uint32_t returned, block[4]; };
#define ANSWER(returned, ...) (struct answer){ returned, { __VA_ARGS__ } }

/* A list with its answer and, if given, its table. */
static void expect(const char *what, const uint8_t *list, size_t len, size_t table_len, const uint8_t *plan, struct answer want) {
  static uint8_t table[TABLE_ROOM];
  uint8_t block[16];
  struct notes notes;
  struct call c = { .list = list, .list_len = len, .table_len = table_len, .block_len = sizeof block };
  snprintf(at_hand, sizeof at_hand, "%s", what);
  uint32_t got = sleep_plan(list, len, table, table_len, block, sizeof block);
  if (got != want.returned) differs(&c, "returned %u, should be %u", got, want.returned);
  for (int i = 0; i < 4; i++) {
    uint32_t x = block_number(block, i);
    if (x != want.block[i]) differs(&c, "number %d of the block is %u, should be %u", i, x, want.block[i]);
  }
  if (plan && memcmp(table, plan, table_len)) differs(&c, "another table");
  for (enum lie lie = FRONT; lie < NOWHERE; lie++) {
    c.list_lie = list ? lie : NOWHERE; c.table_lie = c.block_lie = lie;
    checked_call(&c, &notes);
  }
  calls += 4;
}

static size_t spell_jobs(unsigned h, unsigned q, const struct job *jobs, unsigned n) {
  static struct list l;
  l.h = h; l.q = q; l.n = n;
  if (n) memcpy(l.job, jobs, n * sizeof *jobs);
  settle(&l);
  return spell(&l, bytes);
}

#define JOB(r, d, p) { r, d, p, 0 }
#define JOB_LIST(...) (const struct job[]){ __VA_ARGS__ }, sizeof (const struct job[]){ __VA_ARGS__ } / sizeof(struct job)
#define NO_JOBS NULL, 0
#define TABLE(...) (const uint8_t[]){ __VA_ARGS__ }

static void plans(const char *what, unsigned h, unsigned q, const struct job *jobs, size_t n, const uint8_t *plan, struct answer want) {
  expect(what, bytes, spell_jobs(h, q, jobs, (unsigned)n), h, plan, want);
}

/* 01, "Plans worked by hand", with step 5 as card 5 of 02 has it */
static void worked_cases(void) {
  plans("case 1", 12, 3, JOB_LIST(JOB(0, 4, 2), JOB(6, 10, 2)), TABLE(255, 255, 0, 0, 254, 254, 1, 1, 255, 255, 255, 255), ANSWER(0, 9, 6, 1, 4));
  plans("case 2", 12, 1, JOB_LIST(JOB(0, 4, 2), JOB(6, 10, 2)), TABLE(255, 255, 0, 0, 255, 255, 1, 1, 255, 255, 255, 255), ANSWER(0, 6, 4, 2, 4));
  plans("case 3", 10, 3, JOB_LIST(JOB(0, 3, 1), JOB(8, 10, 2), JOB(0, 10, 5)), TABLE(0, 2, 2, 2, 2, 2, 254, 254, 1, 1), ANSWER(0, 13, 10, 1, 6));
  plans("case 3, q 2", 10, 2, JOB_LIST(JOB(0, 3, 1), JOB(8, 10, 2), JOB(0, 10, 5)), TABLE(0, 2, 2, 2, 2, 2, 255, 255, 1, 1), ANSWER(0, 12, 8, 2, 6));
  plans("case 3, q 0", 10, 0, JOB_LIST(JOB(0, 3, 1), JOB(8, 10, 2), JOB(0, 10, 5)), TABLE(0, 2, 2, 2, 2, 2, 255, 255, 1, 1), ANSWER(0, 8, 8, 2, 6));
  plans("case 4", 8, 2, JOB_LIST(JOB(2, 5, 3)), TABLE(255, 255, 0, 0, 0, 255, 255, 255), ANSWER(0, 5, 3, 1, 3));
  plans("case 5", 8, 1, JOB_LIST(JOB(2, 5, 4)), NULL, ANSWER(18, 2, 5, 0, 0));
  plans("case 6", 3, 1, JOB_LIST(JOB(0, 2, 2), JOB(1, 3, 2)), NULL, ANSWER(18, 0, 3, 0, 0));
  plans("case 6, volume 1", 3, 1, JOB_LIST(JOB(0, 2, 2), JOB(1, 3, 1)), TABLE(0, 0, 1), ANSWER(0, 4, 3, 1, 2));
  plans("case 7", 2, 1, JOB_LIST(JOB(0, 2, 1), JOB(0, 2, 1)), TABLE(0, 1), ANSWER(0, 3, 2, 1, 1));
  plans("case 8", 1, 1, NO_JOBS, TABLE(255), ANSWER(0, 0, 0, 0, 0));
  plans("case 9", 1, 65535, JOB_LIST(JOB(0, 1, 1)), TABLE(0), ANSWER(0, 65536, 1, 1, 0));
  plans("three runs", 5, 1, JOB_LIST(JOB(0, 1, 1), JOB(2, 4, 1), JOB(4, 5, 1)), TABLE(0, 255, 1, 255, 2), ANSWER(0, 6, 3, 3, 2));
  plans("H 4096", 4096, 1, NO_JOBS, NULL, ANSWER(0, 0, 0, 0, 0));
  plans("H 4097", 4097, 1, NO_JOBS, NULL, ANSWER(12, 0, 0, 0, 0));
  plans("(4,4,1)", 8, 1, JOB_LIST(JOB(4, 4, 1)), NULL, ANSWER(15, 0, 0, 0, 0));
  plans("(3,4,1)", 8, 1, JOB_LIST(JOB(3, 4, 1)), TABLE(255, 255, 255, 0, 255, 255, 255, 255), ANSWER(0, 2, 1, 1, 1));
  plans("(0,4,0)", 8, 1, JOB_LIST(JOB(0, 4, 0)), NULL, ANSWER(26, 0, 0, 0, 0));
  plans("(4,4,0)", 8, 1, JOB_LIST(JOB(4, 4, 0)), NULL, ANSWER(15, 0, 0, 0, 0));
  plans("(9,9,0)", 8, 1, JOB_LIST(JOB(9, 9, 0)), NULL, ANSWER(25, 0, 0, 0, 0));
  plans("26 of a lower job", 8, 1, JOB_LIST(JOB(0, 8, 1), JOB(0, 4, 0), JOB(9, 9, 0)), NULL, ANSWER(26, 1, 0, 0, 0));
  plans("15 of a lower job", 8, 1, JOB_LIST(JOB(8, 8, 1), JOB(0, 9, 1)), NULL, ANSWER(15, 0, 0, 0, 0));
  plans("d = H", 8, 1, JOB_LIST(JOB(0, 8, 1)), TABLE(255, 255, 255, 255, 255, 255, 255, 0), ANSWER(0, 2, 1, 1, 0));
  plans("d = H + 1", 8, 1, JOB_LIST(JOB(0, 9, 1)), NULL, ANSWER(25, 0, 0, 0, 0));
}

/* 02, card 5: n slots between two that work, and a wake cost of one less, just as many, one more. The skeleton is slots 1 to n, and slots 0 and
 * n + 1 are woken. */
static void stretches(void) {
  static const unsigned lengths[] = { 1, 2, 3, 254, 255, 256, 257, 4093, 4094 };
  static uint8_t table[MOST_SLOTS];
  for (size_t i = 0; i < sizeof lengths / sizeof *lengths; i++)
    for (unsigned n = lengths[i], q = n - 1; q <= n + 1; q++) {
      memset(table, n < q ? 254 : 255, sizeof table);
      table[0] = 0; table[n + 1] = 1;
      plans("a stretch", n + 2, q, JOB_LIST(JOB(0, 1, 1), JOB(n + 1, n + 2, 1)), table,
            n < q ? ANSWER(0, n + 2 + q, n + 2, 1, 2) : ANSWER(0, 2 + 2 * q, 2, 2, 2));
    }
}

/* 02, card 6, worked slot by slot */
static void ties(void) {
  plans("card 6", 4, 0, JOB_LIST(JOB(1, 4, 2), JOB(0, 4, 2)), TABLE(1, 1, 0, 0), ANSWER(0, 4, 4, 1, 3));
  plans("card 6, q 3", 4, 3, JOB_LIST(JOB(1, 4, 2), JOB(0, 4, 2)), TABLE(1, 1, 0, 0), ANSWER(0, 7, 4, 1, 3));
  plans("on over slot 5, asleep", 12, 0, JOB_LIST(JOB(5, 12, 1), JOB(0, 12, 4), JOB(0, 1, 1), JOB(3, 6, 1), JOB(8, 10, 1)),
        TABLE(2, 1, 1, 3, 1, 255, 1, 255, 255, 4, 0, 255), ANSWER(0, 8, 8, 3, 5));
  plans("on over slot 7, idle", 14, 2, JOB_LIST(JOB(7, 14, 1), JOB(0, 14, 6), JOB(0, 1, 1), JOB(5, 8, 1), JOB(12, 13, 1)),
        TABLE(2, 1, 1, 1, 1, 3, 1, 254, 1, 255, 255, 255, 4, 0), ANSWER(0, 15, 11, 2, 7));
  plans("broken off", 5, 1, JOB_LIST(JOB(2, 5, 1), JOB(0, 5, 3), JOB(2, 3, 1)), TABLE(1, 1, 2, 0, 1), ANSWER(0, 6, 5, 1, 4));
  plans("seven jobs", 16, 2, JOB_LIST(JOB(0, 15, 2), JOB(4, 15, 3), JOB(10, 15, 1), JOB(10, 14, 2), JOB(8, 15, 1), JOB(7, 14, 2), JOB(1, 15, 3)),
        TABLE(255, 0, 0, 6, 6, 6, 1, 5, 5, 1, 3, 3, 1, 2, 4, 255), ANSWER(0, 16, 14, 1, 13));
}

/* A job goes on in slot e over n slots that step 4 leaves asleep, though a lower number of its deadline waits. The skeleton is slots 2, e and z. Slot 1
 * and those from 3 to m + 1 are woken, then z - 1. */
static void on_over(unsigned n, unsigned q) {
  static uint8_t table[MOST_SLOTS];
  unsigned m = 4 + q, e = m + 2 + n, z = e + 3 + q, awake = m + 4 + (n < q ? n : 0), runs = n < q ? 2 : 3;
  memset(table, 255, sizeof table);
  memset(table + 1, 1, e);
  memset(table + m + 2, n < q ? 254 : 255, n);
  table[1] = 2; table[m] = 3; table[z - 1] = 4; table[z] = 0;
  plans("on over a stretch", z + 2, q, JOB_LIST(JOB(e, z + 1, 1), JOB(1, z + 1, m), JOB(1, 2, 1), JOB(m, e, 1), JOB(z - 1, z, 1)), table,
        ANSWER(0, awake + q * runs, awake, runs, q + 5));
}

static void on_over_stretches(void) {
  static const unsigned lengths[] = { 1, 2, 3, 254, 255, 256, 257, 1300 };
  for (size_t i = 0; i < sizeof lengths / sizeof *lengths; i++)
    for (unsigned n = lengths[i], q = n - 1; q <= n + 1; q++) on_over(n, q);
}

/* A list of 453 bytes, in which each field of each job stands. */
static size_t longest(struct job *jobs) {
  for (unsigned j = 0; j < JOBS; j++) jobs[j] = (struct job)JOB(1 + j, 4095, 2);
  return spell_jobs(4096, 1, jobs, JOBS);
}

static void refused(const char *what, size_t len, size_t table_len, uint32_t want, uint32_t place) {
  expect(what, bytes, len, table_len, NULL, ANSWER(want, place));
}

static void refused_bytes(void) {
  struct job jobs[JOBS];
  refused("11 at 0", 0, 8, 11, 0);
  expect("11 at 0, no list", NULL, 0, 8, NULL, ANSWER(11, 0));
  size_t len = longest(jobs);
  if (len != SLEEP_PLAN_LIST_MAX) { fprintf(stderr, "longest list: %zu bytes\n", len); differences++; }
  for (size_t cut = 0; cut < len; cut++) refused("11, cut off", cut, 4096, 11, (uint32_t)cut);
  bytes[len] = 0; refused("16 at 453", len + 1, 4096, 16, 453);
  spell_jobs(1, 1, NO_JOBS); bytes[5] = 0; refused("16 at 5", 6, 8, 16, 5);

  spell_jobs(0, 1, NO_JOBS); refused("12 at 0", 5, 8, 12, 0);
  spell_jobs(65535, 1, NO_JOBS); refused("12 at 0, greatest H", 5, 8, 12, 0);
  spell_jobs(8, 1, NO_JOBS); bytes[4] = 65; refused("12 at 4", 5, 8, 12, 4);
  bytes[4] = 255; refused("12 at 4, most jobs", 5, 8, 12, 4);

  for (int bit = 3; bit < 8; bit++) {
    spell_jobs(8, 1, JOB_LIST(JOB(0, 8, 1))); bytes[5] |= (uint8_t)(1 << bit); refused("13 at 5", 6, 8, 13, 5);
    longest(jobs); bytes[446] |= (uint8_t)(1 << bit); refused("13 at 446", len, 4096, 13, 446);
  }
  memcpy(bytes, (uint8_t[]){ 8, 0, 1, 0, 1, 1, 0, 0 }, 8); refused("14 at 6, release", 8, 8, 14, 6);
  memcpy(bytes, (uint8_t[]){ 8, 0, 1, 0, 1, 2, 8, 0 }, 8); refused("14 at 6, deadline", 8, 8, 14, 6);
  memcpy(bytes, (uint8_t[]){ 8, 0, 1, 0, 1, 4, 1, 0 }, 8); refused("14 at 6, volume", 8, 8, 14, 6);
  longest(jobs); bytes[451] = 1; bytes[452] = 0; refused("14 at 451", len, 4096, 14, 451);

  /* 02, card 1: each fault of a job alone, each pair, and all three, at each job */
  static const struct { const char *what; struct job job; uint32_t number; } faults[] = {
    { "25", JOB(1, 4097, 2), 25 }, { "15", JOB(200, 200, 2), 15 }, { "26", JOB(1, 300, 0), 26 },
    { "25 and 15", JOB(4097, 4097, 2), 25 }, { "25 and 26", JOB(1, 4097, 0), 25 }, { "15 and 26", JOB(201, 200, 0), 15 },
    { "25, 15 and 26", JOB(65535, 65535, 0), 25 },
  };
  for (unsigned j = 0; j < JOBS; j++)
    for (size_t i = 0; i < sizeof faults / sizeof *faults; i++) {
      longest(jobs);
      jobs[j] = faults[i].job;
      refused(faults[i].what, spell_jobs(4096, 1, jobs, JOBS), 4096, faults[i].number, j);
    }
}

static void short_buffers(void) {
  struct notes notes;
  uint8_t block[16];
  spell_jobs(1, 1, NO_JOBS); refused("17 for a table of 1", 5, 0, 17, 1);
  spell_jobs(4096, 1, NO_JOBS); refused("17 for a table of 4096", 5, 4095, 17, 4096);
  refused("17 before 18", spell_jobs(4096, 1, JOB_LIST(JOB(0, 1, 2))), 4095, 17, 4096);
  spell_jobs(1, 1, NO_JOBS);
  for (size_t block_len = 0; block_len < 16; block_len++)
    for (size_t list_len = 0; list_len <= 5; list_len++)
      for (enum lie lie = FRONT; lie <= NOWHERE; lie++) {
        struct call c = { bytes, list_len, 1, block_len, FRONT, BACK, block_len && lie == NOWHERE ? BETWEEN : lie };
        snprintf(at_hand, sizeof at_hand, "block of %zu bytes", block_len);
        uint32_t got = checked_call(&c, &notes);
        if (got != 17) differs(&c, "returned %u, should be 17", got);
        calls++;
      }
  if (sleep_plan(NULL, 0, NULL, 0, NULL, 0) != 17 || sleep_plan(NULL, 0, NULL, 0, block, 16) != 11) {
    fprintf(stderr, "differs: no list, no table\n");
    differences++;
  }
}

static void overloads(void) {
  struct job jobs[JOBS];
  expect("18 at 0, 1", bytes, spell_jobs(4096, 1, JOB_LIST(JOB(0, 1, 2))), 4096, NULL, ANSWER(18, 0, 1));
  expect("18 at 4095, 4096", bytes, spell_jobs(4096, 1, JOB_LIST(JOB(4095, 4096, 2))), 4096, NULL, ANSWER(18, 4095, 4096));
  for (unsigned j = 0; j < JOBS; j++) jobs[j] = (struct job)JOB(0, 4096, 65535);
  expect("18, greatest volumes", bytes, spell_jobs(4096, 65535, jobs, JOBS), 4096, NULL, ANSWER(18, 0, 4096));
}

/* Buffers that share bytes: the call stays in them and returns one of its numbers. What they hold is not specified. */
static void shared_buffers(unsigned lists) {
  struct arena a = arena(3 * 4096, 0);
  static uint8_t before[4 * 4096];
  static struct list l;
  for (unsigned i = 0; i < lists; i++) {
    draw_for(20261115, i);
    good_list(&l);
    size_t len = spell(&l, bytes), table_len = l.h + draw(3), block_len = 16 + draw(8), room = len + table_len + block_len;
    size_t from = one_in(2) ? 0 : a.size - room;
    size_t list_at = from + draw((uint32_t)(room - len) + 1), table_at = from + draw((uint32_t)(room - table_len) + 1);
    size_t block_at = from + draw((uint32_t)(room - block_len) + 1);
    struct call c = { bytes, len, table_len, block_len, BETWEEN, BETWEEN, BETWEEN };
    snprintf(at_hand, sizeof at_hand, "shared buffers, list %u", i);
    paint(a.whole, a.size);
    memcpy(a.whole + list_at, bytes, len);
    memcpy(before, a.whole, a.size);
    uint32_t got = sleep_plan(a.lent + list_at, len, a.lent + table_at, table_len, a.lent + block_at, block_len);
    calls++;
    if (got != 0 && (got < 11 || got > 18) && got != 25 && got != 26) differs(&c, "returned %u", got);
    for (size_t k = 0; k < a.size; k++) {
      int lent = (k >= table_at && k < table_at + table_len) || (k >= block_at && k < block_at + block_len);
      if (!lent && a.whole[k] != before[k]) { differs(&c, "a byte outside was changed"); break; }
    }
  }
}

int main(int argc, char **argv) {
  const unsigned shared = 5000;
  in_heap = argc > 1 && !strcmp(argv[1], "heap");
  report_signals();
  draw_for(0, 0);
  worked_cases();
  stretches();
  ties();
  on_over_stretches();
  refused_bytes();
  short_buffers();
  overloads();
  shared_buffers(in_heap ? shared / 10 : shared);
  printf("entry: %lu calls with known answers or shared buffers, %lu differences\n", calls, differences);
  return differences != 0;
}
