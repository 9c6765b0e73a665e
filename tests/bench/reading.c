/* Times of the record reader beside plain C, on records of 4,096 slots, in one process; their tables are compared. As in bench.c each of the two is
 * there in four places, and its best one counts. */
#define _GNU_SOURCE
#include "plain_read.h"
#include <stdio.h>
#include <string.h>
#include <time.h>

enum { H = 4096, MAP = H / 8, PLACES = 4, ROUNDS = 20, MAPS = 6 };
static const char *map_name[MAPS] = {"asleep", "awake", "by turns", "runs of 64", "random", "one in 16"};

#define IN_PLACE(at) \
  uint32_t read_record_##at(const uint8_t *, size_t, uint8_t *, size_t); \
  uint32_t plain_read_##at(const uint8_t *, size_t, uint8_t *, size_t);
IN_PLACE(0) IN_PLACE(16) IN_PLACE(32) IN_PLACE(48)
static uint32_t (*const ours_in[PLACES])(const uint8_t *, size_t, uint8_t *, size_t) = {read_record_0, read_record_16, read_record_32, read_record_48};
static uint32_t (*const plain_in[PLACES])(const uint8_t *, size_t, uint8_t *, size_t) = {plain_read_0, plain_read_16, plain_read_32, plain_read_48};

static uint8_t record[2 + MAP + H], ours[H], plain[H];
static size_t length;
static uint32_t seed;
static unsigned below(unsigned n) { seed = seed * 1664525u + 1013904223u; return (seed >> 8) % n; }

static void make(int m) {
  seed = 7;
  record[0] = H % 256;
  record[1] = H / 256;
  memset(record + 2, 0, MAP);
  length = 2 + MAP;
  for (int t = 0; t < H; t++) {
    int awake = m == 0 ? 0 : m == 1 ? 1 : m == 2 ? t % 2 : m == 3 ? t / 64 % 2 : m == 4 ? (int)below(2) : below(16) == 0;
    if (!awake) continue;
    record[2 + t / 8] |= (uint8_t)(1 << t % 8);
    record[length++] = below(65) == 64 ? 254 : (uint8_t)below(64);
  }
}

static double now(void) { struct timespec t; clock_gettime(CLOCK_MONOTONIC, &t); return (double)t.tv_sec * 1e9 + (double)t.tv_nsec; }

/* Nanoseconds a slot, the least of so far and one more measurement. */
static double least(double so_far, uint32_t (*read)(const uint8_t *, size_t, uint8_t *, size_t), uint8_t *table) {
  double start = now();
  for (int i = 0; i < 10; i++) read(record, length, table, H);
  double took = (now() - start) / 10 / H;
  return took < so_far ? took : so_far;
}

int main(void) {
  printf("%-10s %9s %9s %7s\n", "map", "plain", "ours", "/plain");
  for (int m = 0; m < MAPS; m++) {
    double p = 1e18, o = 1e18;
    make(m);
    for (int place = 0; place < PLACES; place++) {
      if (ours_in[place](record, length, ours, H) || plain_in[place](record, length, plain, H) || memcmp(ours, plain, H)) {
        printf("%s: answers differ\n", map_name[m]);
        return 1;
      }
    }
    for (int round = 0; round < ROUNDS; round++)
      for (int place = 0; place < PLACES; place++) { p = least(p, plain_in[place], plain); o = least(o, ours_in[place], ours); }
    printf("%-10s %9.2f %9.2f %7.2f\n", map_name[m], p, o, o / p);
  }
  return 0;
}
