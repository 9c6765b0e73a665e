/* helpers SEED COUNT: the helper pair of sleep_plan_jobs.h. COUNT drawn lists are written by it and compared with lists/list.c; numbers are read
 * from blocks that are put together here. Ends with 1 and a line that begins with "case" at the first difference. C99 and C++11. */
#include <stdio.h>
#include <stdlib.h>
#include <string.h>
#include "sleep_plan_jobs.h"
#ifdef __cplusplus
extern "C" {
#endif
#include "sources.h"
#ifdef __cplusplus
}
#endif

enum { UNTOUCHED = 170, BEHIND = 8 };

static unsigned long at_case, lists, refused, rooms, too_many, numbers;

static void check(int holds, const char *what) {
  if (holds) return;
  fprintf(stderr, "case %lu: %s\n", at_case, what);
  exit(1);
}

/* An edge of what a field may hold, or any number. */
static unsigned any_value(unsigned h) {
  switch (draw(9)) {
  case 0: return 0;
  case 1: return 1;
  case 2: return h;
  case 3: return (h + 1) & 65535;
  case 4: return (h + 65535) & 65535;
  case 5: return 255 + draw(3);
  case 6: return 65535;
  default: return draw(65536);
  }
}

static unsigned *any_number(struct list *l) {
  uint32_t x = draw(10);
  struct job *job = &l->job[l->n ? draw(l->n) : 0];
  if (x == 0) return &l->h;
  if (x == 1 || l->n == 0) return &l->q;
  return x < 5 ? &job->r : x < 8 ? &job->d : &job->p;
}

/* A list that passes the checks or, half the time, one with values that may be refused, in its header too. */
static void any_list(struct list *l) {
  good_list(l);
  for (unsigned k = one_in(2) ? between(1, 8) : 0; k > 0; k--) {
    unsigned value = any_value(l->h), *number = any_number(l);
    *number = value;
  }
  settle(l);
}

/* Whether a planner would refuse a value of the list. */
static int has_fault(const struct list *l) {
  if (l->h < 1 || l->h > MOST_SLOTS) return 1;
  for (unsigned j = 0; j < l->n; j++) if (l->job[j].d > l->h || l->job[j].r >= l->job[j].d || l->job[j].p == 0) return 1;
  return 0;
}

static size_t jobs_of(const struct list *l, struct sleep_plan_job *jobs) {
  for (unsigned j = 0; j < l->n; j++) {
    jobs[j].release = (uint16_t)l->job[j].r;
    jobs[j].deadline = (uint16_t)l->job[j].d;
    jobs[j].volume = (uint16_t)l->job[j].p;
  }
  return l->n;
}

static int all_untouched(const uint8_t *bytes, size_t from, size_t to) {
  for (; from < to; from++) if (bytes[from] != UNTOUCHED) return 0;
  return 1;
}

static void *lend(size_t size) {
  void *memory = malloc(size > 0 ? size : 1);
  check(memory != NULL, "no memory");
  return memory;
}

/* The helper with so much room. The jobs end where lent memory ends, so that memory checkers see a step too far; behind the room lie some bytes
 * more, or none. What is expected is the list of `len` bytes if it fits, else nothing. */
static void write_with_room(const struct list *l, const uint8_t *expected, size_t len, size_t room, size_t behind) {
  uint8_t *list = (uint8_t *)lend(room + behind);
  struct sleep_plan_job *jobs = (struct sleep_plan_job *)lend(l->n * sizeof *jobs);
  memset(list, UNTOUCHED, room + behind);
  const size_t count = jobs_of(l, jobs), given = sleep_plan_write_list(list, room, (uint16_t)l->h, (uint16_t)l->q, jobs, count);
  if (count <= SLEEP_PLAN_JOBS_MAX && len <= room) {
    check(given == len, "another length");
    check(memcmp(list, expected, len) == 0, "other bytes");
    check(all_untouched(list, len, room + behind), "written behind the list");
  } else {
    check(given == 0, "a length without a list");
    check(all_untouched(list, 0, room + behind), "written without a list");
  }
  free(list);
  free(jobs);
}

static void write_lists(uint64_t seed, unsigned long count) {
  static uint8_t expected[LIST_ROOM];
  struct list l;
  for (at_case = 0; at_case < count; at_case++) {
    draw_for(seed, at_case);
    any_list(&l);
    size_t len = spell(&l, expected);
    check(len <= SLEEP_PLAN_LIST_MAX, "a list that is too long");
    write_with_room(&l, expected, len, SLEEP_PLAN_LIST_MAX, BEHIND);
    write_with_room(&l, expected, len, len, 0);
    lists++;
    refused += (unsigned long)has_fault(&l);
    if (one_in(16)) for (size_t room = 0; room <= len + 1; room++, rooms++) write_with_room(&l, expected, len, room, one_in(2) ? BEHIND : 0);
    if (one_in(16)) {
      unsigned n = l.n;
      l.n = one_in(2) ? JOBS + 1 : between(JOBS + 1, ENTRIES);
      for (; n < l.n; n++) { l.job[n].r = 0; l.job[n].d = l.h; l.job[n].p = 1; }
      settle(&l);
      write_with_room(&l, expected, spell(&l, expected), LIST_ROOM, 0);
      too_many++;
    }
  }
}

/* The fewest and the most jobs, pointers that are not there, and more jobs than a list can count. */
static void write_extremes(void) {
  static uint8_t expected[LIST_ROOM];
  static struct list l;
  uint8_t list[SLEEP_PLAN_LIST_MAX];
  for (at_case = 0; at_case <= JOBS + 1; at_case++) {
    l.h = 4096; l.q = 65535; l.n = (unsigned)at_case;
    for (unsigned j = 0; j < l.n; j++) { l.job[j].r = 256 + j; l.job[j].d = 512 + j; l.job[j].p = 2; }
    settle(&l);
    write_with_room(&l, expected, spell(&l, expected), SLEEP_PLAN_LIST_MAX + 7, BEHIND);
  }
  memset(list, UNTOUCHED, sizeof list);
  check(sleep_plan_write_list(list, sizeof list, 10, 3, NULL, 0) == 5, "no job, no array");
  check(memcmp(list, "\012\000\003\000\000", 5) == 0 && all_untouched(list, 5, sizeof list), "the bytes of no job");
  check(sleep_plan_write_list(NULL, 0, 10, 3, NULL, 0) == 0, "no room, no list");
  memset(list, UNTOUCHED, sizeof list);
  check(sleep_plan_write_list(list, sizeof list, 10, 3, NULL, (size_t)-1) == 0, "as many jobs as can be");
  check(sleep_plan_write_list(list, sizeof list, 10, 3, NULL, (size_t)256) == 0, "256 jobs");
  check(all_untouched(list, 0, sizeof list), "written with too many jobs");
}

static void read_blocks(uint64_t seed) {
  static const uint32_t edges[] = {0, 1, 255, 256, 65535, 65536, 0x01020304, 0x7FFFFFFF, 0x80000000u, 0x80000001u, 0xFEDCBA98u, 0xFFFFFFFFu};
  const unsigned kinds = sizeof edges / sizeof *edges;
  for (at_case = 0; at_case < 4000; at_case++) {
    uint8_t lent[SLEEP_PLAN_BLOCK_MIN + 8];
    uint32_t value[4];
    const size_t start = at_case % 8;
    draw_for(seed, at_case);
    for (unsigned i = 0; i < 4; i++) value[i] = one_in(2) ? edges[draw(kinds)] : draw(0xFFFFFFFFu);
    if (at_case < kinds) value[at_case % 4] = edges[at_case];
    memset(lent, UNTOUCHED, sizeof lent);
    for (unsigned i = 0; i < SLEEP_PLAN_BLOCK_MIN; i++) lent[start + i] = (uint8_t)(value[i / 4] >> 8 * (i % 4) & 255);
    for (unsigned i = 0; i < 4; i++, numbers++) check(sleep_plan_number(lent + start, i) == value[i], "another number of the block");
  }
}

int main(int argc, char **argv) {
  if (argc != 3) { fprintf(stderr, "helpers SEED COUNT\n"); return 2; }
  const uint64_t seed = strtoul(argv[1], NULL, 10);
  write_lists(seed, strtoul(argv[2], NULL, 10));
  write_extremes();
  read_blocks(seed);
  printf("%lu lists, %lu of them with a faulty value, %lu rooms, %lu arrays of too many jobs, %lu numbers\n", lists, refused, rooms, too_many,
         numbers);
  return 0;
}
