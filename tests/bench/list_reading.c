/* Times of the list reader beside plain C, on lists of 64 jobs, in one process. A byte is left over behind the last job, so
 * that the call reads all entries, answers 16, as the C must, and plans nothing. As in bench.c each of the two is there in four places, and its best one counts. */
#define _GNU_SOURCE
#include "other_planners.h"
#include <stdio.h>
#include <time.h>

enum { H = 4096, JOBS = 64, PLACES = 4, ROUNDS = 20, LISTS = 10 };
static const char *list_name[LISTS] = {"map 0", "map 1", "map 2", "map 3", "map 4", "map 5", "map 6", "map 7", "by turns", "random"};

#define IN_PLACE(at) \
  uint32_t sleep_plan_##at(const uint8_t *, size_t, uint8_t *, size_t, uint8_t *, size_t); \
  int read_jobs_##at(const uint8_t *, size_t, struct jobs *);
IN_PLACE(0) IN_PLACE(16) IN_PLACE(32) IN_PLACE(48)
static uint32_t (*const ours_in[PLACES])(const uint8_t *, size_t, uint8_t *, size_t, uint8_t *, size_t) = {sleep_plan_0, sleep_plan_16, sleep_plan_32, sleep_plan_48};
static int (*const plain_in[PLACES])(const uint8_t *, size_t, struct jobs *) = {read_jobs_0, read_jobs_16, read_jobs_32, read_jobs_48};

static uint8_t list[5 + 7 * JOBS + 1], table[H], block[16];
static size_t length;
static struct jobs jobs;
static uint32_t seed;
static unsigned below(unsigned n) { seed = seed * 1664525u + 1013904223u; return (seed >> 8) % n; }
static void put(unsigned x) { list[length++] = (uint8_t)x; list[length++] = (uint8_t)(x >> 8); }

/* Jobs of map k, of all maps by turns (8), or of maps by chance (9), and a byte more. */
static void make(int k) {
  seed = 7;
  length = 0;
  put(H);
  put(3);
  list[length++] = JOBS;
  for (unsigned j = 0; j < JOBS; j++) {
    unsigned map = k < 8 ? (unsigned)k : k == 8 ? j % 8 : below(8);
    list[length++] = (uint8_t)map;
    if (map & 1) put(1 + j);
    if (map & 2) put(H / 2 + j);
    if (map & 4) put(2 + j);
  }
  list[length++] = 0;
}

static double now(void) { struct timespec t; clock_gettime(CLOCK_MONOTONIC, &t); return (double)t.tv_sec * 1e9 + (double)t.tv_nsec; }

/* Nanoseconds a job, the least of so far and one more measurement. */
static double least_ours(double so_far, int place) {
  double start = now();
  for (int i = 0; i < 100; i++) ours_in[place](list, length, table, H, block, sizeof block);
  double took = (now() - start) / 100 / JOBS;
  return took < so_far ? took : so_far;
}
static double least_plain(double so_far, int place) {
  double start = now();
  for (int i = 0; i < 100; i++) plain_in[place](list, length, &jobs);
  double took = (now() - start) / 100 / JOBS;
  return took < so_far ? took : so_far;
}

int main(void) {
  printf("%-10s %9s %9s %7s\n", "list", "plain", "ours", "/plain");
  for (int k = 0; k < LISTS; k++) {
    double p = 1e18, o = 1e18;
    make(k);
    for (int place = 0; place < PLACES; place++) {
      if (ours_in[place](list, length, table, H, block, sizeof block) != 16 || plain_in[place](list, length, &jobs) != 16) {
        printf("%s: answers differ\n", list_name[k]);
        return 1;
      }
    }
    for (int round = 0; round < ROUNDS; round++)
      for (int place = 0; place < PLACES; place++) { p = least_plain(p, place); o = least_ours(o, place); }
    printf("%-10s %9.2f %9.2f %7.2f\n", list_name[k], p, o, o / p);
  }
  return 0;
}
