/* What an image asks of the emulator, by number and argument: to print, to end with a status. */
#ifndef SEMIHOSTING_H
#define SEMIHOSTING_H
#include <stdint.h>

static inline uint32_t semihosting(uint32_t operation, const void *argument) {
  register uint32_t r0 __asm__("r0") = operation;
  register const void *r1 __asm__("r1") = argument;
  __asm__ volatile("bkpt 0xab" : "+r"(r0) : "r"(r1) : "memory");
  return r0;
}

/* SYS_WRITE0 */
static inline void say(const char *text) { semihosting(0x04, text); }

/* SYS_EXIT_EXTENDED, with the reason that the program says so. */
static inline void end(uint32_t status) {
  const uint32_t reason[2] = { 0x20026, status };
  semihosting(0x20, reason);
  for (;;) {}
}

#endif
