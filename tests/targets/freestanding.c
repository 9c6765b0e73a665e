/* Holds lib/freestanding.c to plain loops and to the host's own shifts. It is linked with that file, in which the three C names begin with
 * part_ and the ARM names are there too. Prints what it tried, or where it differs and ends with 1. */
#include <stddef.h>
#include <stdint.h>
#include <stdio.h>
#include <stdlib.h>

void *part_memset(void *to, int value, size_t n);
void *part_memcpy(void *to, const void *from, size_t n);
void *part_memmove(void *to, const void *from, size_t n);

typedef void set(void *to, size_t n, int value);
typedef void clear(void *to, size_t n);
typedef void copy(void *to, const void *from, size_t n);
set __aeabi_memset, __aeabi_memset4, __aeabi_memset8;
clear __aeabi_memclr, __aeabi_memclr4, __aeabi_memclr8;
copy __aeabi_memcpy, __aeabi_memcpy4, __aeabi_memcpy8, __aeabi_memmove, __aeabi_memmove4, __aeabi_memmove8;
uint64_t __aeabi_llsl(uint64_t value, int amount), __aeabi_llsr(uint64_t value, int amount);

static void differs(const char *what, size_t to, size_t from, size_t n) {
  printf("%s differs: to %zu, from %zu, n %zu\n", what, to, from, n);
  exit(1);
}

/* The C functions in the shape of the ARM ones; what they return is looked at on the way. */
static void c_memset(void *to, size_t n, int value) { if (part_memset(to, value, n) != to) differs("what memset returns", 0, 0, n); }
static void c_memcpy(void *to, const void *from, size_t n) { if (part_memcpy(to, from, n) != to) differs("what memcpy returns", 0, 0, n); }
static void c_memmove(void *to, const void *from, size_t n) { if (part_memmove(to, from, n) != to) differs("what memmove returns", 0, 0, n); }

static set *const sets[] = { c_memset, __aeabi_memset, __aeabi_memset4, __aeabi_memset8 };
static clear *const clears[] = { __aeabi_memclr, __aeabi_memclr4, __aeabi_memclr8 };
static copy *const copies[] = { c_memcpy, __aeabi_memcpy, __aeabi_memcpy4, __aeabi_memcpy8 };
static copy *const moves[] = { c_memmove, __aeabi_memmove, __aeabi_memmove4, __aeabi_memmove8 };
#define COUNT(array) (sizeof (array) / sizeof *(array))

/* Each place up to PLACES and each length up to LONGEST fit, with bytes around them that have to stay. */
enum { PLACES = 24, LONGEST = 40, ROOM = PLACES + LONGEST + 8 };
static unsigned char room[ROOM], wanted[ROOM], other[ROOM];
static unsigned long calls;

/* Bytes that differ from each other, within a room and between the two. */
static void paint(void) {
  for (size_t i = 0; i < ROOM; i++) { room[i] = wanted[i] = (unsigned char)(i + 1); other[i] = (unsigned char)(i + 129); }
}

static void compare(const char *what, size_t to, size_t from, size_t n) {
  for (size_t i = 0; i < ROOM; i++) if (room[i] != wanted[i] || other[i] != (unsigned char)(i + 129)) differs(what, to, from, n);
  calls++;
}

static void try_sets(size_t to, size_t n) {
  static const int values[] = { 0, 1, 170, 255, 256 + 85, -1, -128 };
  for (size_t f = 0; f < COUNT(sets); f++)
    for (size_t v = 0; v < COUNT(values); v++) {
      paint();
      for (size_t i = 0; i < n; i++) wanted[to + i] = (unsigned char)values[v];
      sets[f](room + to, n, values[v]);
      compare("memset", to, 0, n);
    }
  for (size_t f = 0; f < COUNT(clears); f++) {
    paint();
    for (size_t i = 0; i < n; i++) wanted[to + i] = 0;
    clears[f](room + to, n);
    compare("memclr", to, 0, n);
  }
}

static void try_copies(size_t to, size_t from, size_t n) {
  for (size_t f = 0; f < COUNT(copies); f++) {
    paint();
    for (size_t i = 0; i < n; i++) wanted[to + i] = other[from + i];
    copies[f](room + to, other + from, n);
    compare("memcpy", to, from, n);
  }
  for (size_t f = 0; f < COUNT(moves); f++) {
    paint();
    for (size_t i = 0; i < n; i++) wanted[to + i] = room[from + i];
    moves[f](room + to, room + from, n);
    compare("memmove", to, from, n);
  }
}

static unsigned try_shifts(void) {
  static const uint64_t values[] = { 0, 1, 1ull << 63, 0xFFFFFFFF, 0xFFFFFFFF00000000, 0x123456789ABCDEF0, 0xFEDCBA9876543211, ~0ull };
  unsigned shifts = 0;
  for (size_t v = 0; v < COUNT(values); v++)
    for (int amount = 0; amount < 64; amount++, shifts += 2)
      if (__aeabi_llsl(values[v], amount) != values[v] << amount || __aeabi_llsr(values[v], amount) != values[v] >> amount)
        differs("a shift", v, 0, (size_t)amount);
  return shifts;
}

int main(void) {
  for (size_t n = 0; n <= LONGEST; n++)
    for (size_t to = 0; to < PLACES; to++) {
      try_sets(to, n);
      for (size_t from = 0; from < PLACES; from++) try_copies(to, from, n);
    }
  unsigned shifts = try_shifts();
  printf("%lu calls and %u shifts\n", calls, shifts);
  return 0;
}
