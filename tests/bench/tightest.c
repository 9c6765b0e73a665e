/* Times of the search for the tightest interval beside plain C, at H = 4,096, in one process; their answers are compared. As in bench.c each is there in
 * four places, and its best one counts; of the two plain forms the quicker one. */
#define _GNU_SOURCE
#include "plain_tightest.h"
#include <stdio.h>
#include <time.h>

enum { H = 4096, MOST = 64, FORMS = 4, PLACES = 4, TURNS = 6, ROUNDS = 10, FAMILIES = 5, COUNTS = 3, LISTS = 256, TRIED = 10000 };
static const char *family_name[FAMILIES] = {"in a row", "random", "all equal", "nested", "changing"};
static const int counts[COUNTS] = {1, 8, 64};

#define IN_PLACE(at) find plain_tightest_##at, copied_tightest_##at, walk_tightest_##at, find_tightest_##at;
IN_PLACE(0) IN_PLACE(16) IN_PLACE(32) IN_PLACE(48)
static find *const form[FORMS][PLACES] = {
  {plain_tightest_0, plain_tightest_16, plain_tightest_32, plain_tightest_48},
  {copied_tightest_0, copied_tightest_16, copied_tightest_32, copied_tightest_48},
  {walk_tightest_0, walk_tightest_16, walk_tightest_32, walk_tightest_48},
  {find_tightest_0, find_tightest_16, find_tightest_32, find_tightest_48}};

struct list { uint16_t r[MOST], d[MOST], p[MOST]; };
static struct list lists[LISTS];
static uint64_t ends[2];
static uint32_t seed;
static unsigned below(unsigned n) { seed = seed * 1664525u + 1013904223u; return (seed >> 8) % n; }

static void make(struct list *l, int f, int n) {
  for (int j = 0; j < n; j++) {
    int from = f == 0 ? j * (H / n) : f == 2 ? 100 : f == 3 ? j * 30 : (int)below(H);
    int to = f == 0 ? from + H / n : f == 2 ? 4000 : f == 3 ? H - j * 30 : from + 1 + (int)below((unsigned)(H - from));
    l->r[j] = (uint16_t)from;
    l->d[j] = (uint16_t)to;
    l->p[j] = (uint16_t)(1 + below(to - from < 60 ? (unsigned)(to - from) : 60));
  }
}

static int32_t call(find *f, const struct list *l, int n) {
  return f(H, l->r, (size_t)n, l->d, (size_t)n, l->p, (size_t)n, ends, 2);
}

/* All forms in all places on a list by chance, one in eight with a faulty job. */
static int differs(void) {
  int n = 1 + (int)below(MOST);
  int32_t slack = 0;
  uint64_t a = 0, b = 0;
  make(lists, (int)below(FAMILIES), n);
  if (below(8) == 0) lists->p[below((unsigned)n)] = 0;
  for (int i = 0; i < FORMS * PLACES; i++) {
    ends[0] = ends[1] = 0;
    int32_t found = call(form[i / PLACES][i % PLACES], lists, n);
    if (i == 0) { slack = found; a = ends[0]; b = ends[1]; }
    if (found != slack || ends[0] != a || ends[1] != b) return 1;
  }
  return 0;
}

static double now(void) { struct timespec t; clock_gettime(CLOCK_MONOTONIC, &t); return (double)t.tv_sec * 1e9 + (double)t.tv_nsec; }

/* Nanoseconds a call: the lesser of the best so far, 0 if there is none yet, and one more measurement. */
static double least(double so_far, find *f, int n, int kinds) {
  int calls = n == 1 ? 40 * LISTS : n == 8 ? 8 * LISTS : LISTS;
  double start = now();
  for (int i = 0; i < calls; i++) call(f, &lists[i % kinds], n);
  double one = (now() - start) / calls;
  return so_far == 0 || one < so_far ? one : so_far;
}

static double took[FAMILIES][COUNTS][FORMS];

/* "changing" is "random" with another list at each call, so that the processor learns no branches. */
static void measure(int f, int n, double *t) {
  int kinds = f == 4 ? LISTS : 1;
  seed = 7;
  for (int i = 0; i < kinds; i++) make(&lists[i], f, n);
  for (int round = 0; round < ROUNDS; round++)
    for (int i = 0; i < FORMS * PLACES; i++) t[i % FORMS] = least(t[i % FORMS], form[i % FORMS][i / FORMS], n, kinds);
}

int main(void) {
  for (int i = 0; i < TRIED; i++) if (differs()) { printf("answers differ\n"); return 1; }
  /* in turns, because the machine may be slower for a second */
  for (int turn = 0; turn < TURNS; turn++)
    for (int f = 0; f < FAMILIES; f++)
      for (int c = 0; c < COUNTS; c++) measure(f, counts[c], took[f][c]);
  printf("%-10s %4s %9s %9s %9s %7s %7s\n", "family", "jobs", "plain", "walk", "ours", "/plain", "/walk");
  for (int f = 0; f < FAMILIES; f++)
    for (int c = 0; c < COUNTS; c++) {
      double *t = took[f][c], plain = t[0] < t[1] ? t[0] : t[1], walk = t[2], ours = t[3];
      printf("%-10s %4d %9.1f %9.1f %9.1f %7.2f %7.2f\n", family_name[f], counts[c], plain, walk, ours, ours / plain, ours / walk);
    }
  return 0;
}
