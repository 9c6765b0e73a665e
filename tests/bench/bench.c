/* Times of sleep_plan beside three other implementations, on the same lists in one process; their tables are compared. Where a loop happens to lie
 * makes it a third quicker or slower on some processors, so each implementation is there in four places and its best one counts. */
#define _GNU_SOURCE
#include "families.h"
#include "other_planners.h"
#include "sleep_plan.h"
#include <stdio.h>
#include <stdlib.h>
#include <string.h>
#include <time.h>

enum { SIZES = 4, PLACES = 4, ROUNDS = 20 };
static const int sizes[SIZES] = {512, 1024, 2048, 4096};

static uint8_t bytes[512], ours[MAX_H], other[MAX_H], scratch[MAX_H], working[MAX_H], block[16];
static uint32_t best_block[4], plain_block[4];
static size_t bytes_len;
static struct jobs jobs;

/* A family's list, and the one that *limit* is given; its working slots come from the plan (`differs`). */
static void make(int f, int h) {
  bytes_len = family_list(f, h, bytes);
  read_jobs(bytes, bytes_len, &jobs);
}

#define IN_PLACE(at) \
  uint32_t sleep_plan_##at(const uint8_t *, size_t, uint8_t *, size_t, uint8_t *, size_t); \
  int best_plan_##at(const uint8_t *, size_t, uint8_t *, uint32_t *); \
  void limit_fill_##at(const struct jobs *, const uint8_t *, uint8_t *);
IN_PLACE(0) IN_PLACE(16) IN_PLACE(32) IN_PLACE(48)
static uint32_t (*const sleep_plan_in[PLACES])(const uint8_t *, size_t, uint8_t *, size_t, uint8_t *, size_t) = {
  sleep_plan_0, sleep_plan_16, sleep_plan_32, sleep_plan_48};
static int (*const best_plan_in[PLACES])(const uint8_t *, size_t, uint8_t *, uint32_t *) = {best_plan_0, best_plan_16, best_plan_32, best_plan_48};
static void (*const limit_fill_in[PLACES])(const struct jobs *, const uint8_t *, uint8_t *) = {
  limit_fill_0, limit_fill_16, limit_fill_32, limit_fill_48};
static int place;

static void call_ours(void) { sleep_plan_in[place](bytes, bytes_len, ours, sizeof ours, block, sizeof block); }
static void call_best(void) { best_plan_in[place](bytes, bytes_len, other, best_block); }
static void call_plain(void) { plain_plan(bytes, bytes_len, scratch, plain_block); }
static void call_limit(void) { limit_fill_in[place](&jobs, working, scratch); }

static double now(void) { struct timespec t; clock_gettime(CLOCK_MONOTONIC, &t); return (double)t.tv_sec * 1e6 + (double)t.tv_nsec / 1e3; }

/* Microseconds a call, the least of so far and one more measurement. */
static double least(double so_far, void (*call)(void), int repeats) {
  double start = now();
  for (int i = 0; i < repeats; i++) call();
  double took = (now() - start) / repeats;
  return took < so_far ? took : so_far;
}

static int differs(void) {
  memset(ours, 255, sizeof ours);
  memset(working, 255, sizeof working);
  uint32_t number = sleep_plan_in[place](bytes, bytes_len, ours, sizeof ours, block, sizeof block);
  int best = best_plan_in[place](bytes, bytes_len, other, best_block), plain = plain_plan(bytes, bytes_len, scratch, plain_block);
  if ((int)number != best || best != plain) return 1;
  for (int i = 0; i < 16; i++) if (block[i] != (uint8_t)(best_block[i / 4] >> 8 * (i % 4)) || best_block[i / 4] != plain_block[i / 4]) return 1;
  if (number != 0) return 0;
  if (memcmp(ours, other, (size_t)jobs.h) || memcmp(ours, scratch, (size_t)jobs.h)) return 1;
  for (int t = 0; t < jobs.h; t++) working[t] = ours[t] < MAX_JOBS ? ours[t] : 255;
  call_limit();
  return memcmp(ours, scratch, (size_t)jobs.h) != 0;
}

int main(int argc, char **argv) {
  if (argc > 1) { /* one call on a family at 4,096 slots, for a counter of instructions */
    make(atoi(argv[1]), 4096);
    call_ours();
    return 0;
  }
  printf("%-9s %5s %9s %9s %9s %9s %7s %7s\n", "family", "H", "limit", "best", "plain", "ours", "/limit", "/best");
  for (int f = 0; f < FAMILIES; f++) {
    double at_first = 0;
    for (int s = 0; s < SIZES; s++) {
      make(f, sizes[s]);
      for (place = 0; place < PLACES; place++) if (differs()) { printf("%s at %d: answers differ\n", family_name[f], jobs.h); return 1; }
      double l = 1e18, b = 1e18, p = least(1e18, call_plain, 1), o = 1e18;
      for (int round = 0; round < ROUNDS; round++)
        for (place = 0; place < PLACES; place++) { l = least(l, call_limit, 10); b = least(b, call_best, 10); o = least(o, call_ours, 10); }
      place = 0;
      if (s == 0) at_first = o;
      printf("%-9s %5d %9.1f %9.1f %9.1f %9.1f %7.1f %7.2f\n", family_name[f], jobs.h, l, b, p, o, o / l, o / b);
      if (s == SIZES - 1) printf("%-9s       grows %.1f-fold from %d to %d slots\n", "", o / at_first, sizes[0], sizes[SIZES - 1]);
    }
  }
  return 0;
}
