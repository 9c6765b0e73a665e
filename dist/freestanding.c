/* All that the archives of this folder ask for, for firmware that has no C library: it compiles this file, as C, and links it. Firmware with a C
 * library leaves it out, since that library has these functions.
 *
 * A compiler may turn a plain loop over bytes into a call of memset or memcpy, and here that would be a function that calls itself. So each
 * byte is reached as volatile, which makes the loop do just what it says. */
#include <stddef.h>

/* With link-time optimisation gcc drops a memset that nobody calls, and then calls it. */
#ifdef __GNUC__
#define KEPT __attribute__((used))
#else
#define KEPT
#endif

typedef volatile unsigned char byte;

static void fill_bytes(byte *to, int value, size_t n) {
  for (size_t i = 0; i < n; i++) to[i] = (unsigned char)value;
}

static void copy_bytes(byte *to, const byte *from, size_t n) {
  for (size_t i = 0; i < n; i++) to[i] = from[i];
}

/* Only where the first byte written is one of those to be read does the copy have to begin at the end. */
static void move_bytes(byte *to, const byte *from, size_t n) {
  if ((size_t)to - (size_t)from >= n) copy_bytes(to, from, n);
  else while (n > 0) { n--; to[n] = from[n]; }
}

KEPT void *memset(void *to, int value, size_t n) { fill_bytes(to, value, n); return to; }
KEPT void *memcpy(void *to, const void *from, size_t n) { copy_bytes(to, from, n); return to; }
KEPT void *memmove(void *to, const void *from, size_t n) { move_bytes(to, from, n); return to; }

#ifdef __ARM_EABI__
/* The names of the ARM EABI. Those with a 4 or an 8 may count on that alignment and need not. The value comes last here. */
#define THREE_FORMS(name, parameters, call) \
  void name parameters { call; } \
  void name##4 parameters { call; } \
  void name##8 parameters { call; }

THREE_FORMS(__aeabi_memset, (void *to, size_t n, int value), fill_bytes(to, value, n))
THREE_FORMS(__aeabi_memclr, (void *to, size_t n), fill_bytes(to, 0, n))
THREE_FORMS(__aeabi_memcpy, (void *to, const void *from, size_t n), copy_bytes(to, from, n))
THREE_FORMS(__aeabi_memmove, (void *to, const void *from, size_t n), move_bytes(to, from, n))

/* Shifts of 64 bits by 0 to 63, made from halves: on a Cortex-M0 such a shift in C is a call of these. The halves are volatile too, so that none
 * is made out of them again. The archives are little-endian: the low half comes first. */
union halves { unsigned long long whole; struct { unsigned low, high; } half; };

unsigned long long __aeabi_llsl(unsigned long long value, int amount) {
  volatile union halves v = { value };
  const unsigned low = v.half.low, high = v.half.high;
  if (amount >= 32) { v.half.high = low << (amount - 32); v.half.low = 0; }
  else if (amount > 0) { v.half.high = high << amount | low >> (32 - amount); v.half.low = low << amount; }
  return v.whole;
}

unsigned long long __aeabi_llsr(unsigned long long value, int amount) {
  volatile union halves v = { value };
  const unsigned low = v.half.low, high = v.half.high;
  if (amount >= 32) { v.half.low = high >> (amount - 32); v.half.high = 0; }
  else if (amount > 0) { v.half.low = low >> amount | high << (32 - amount); v.half.high = high >> amount; }
  return v.whole;
}
#endif
