/* The driver on a board, without an operating system: the emulator reads calls from its standard input. There are no pages to guard; what lies
 * around the buffers is compared, and the stack is the lowest part of `memory`. */
#ifndef ON_BOARD_H
#define ON_BOARD_H
#include "semihosting.h"

enum { STACK_ROOM = 2560 };

static uint32_t memory[(512 + 4160 + 128 + 4608 + STACK_ROOM) / 4] __attribute__((aligned(8)));
static uint8_t *arenas[ARENAS], *stack;
static uint32_t calls, answers;

static void fail(int status) { end((uint32_t)status); }
static void lock_lists(int locked) { (void)locked; }

/* SYS_OPEN with a name, SYS_READ and SYS_WRITE with a length: the last two return how many bytes are left. */
static uint32_t open(const char *name, uint32_t length, uint32_t mode) {
  const uintptr_t what[3] = { (uintptr_t)name, mode, length };
  return semihosting(0x01, what);
}
static long move_some(uint32_t operation, uint32_t file, const void *at, size_t size) {
  const uintptr_t what[3] = { file, (uintptr_t)at, size };
  return (long)size - (long)semihosting(operation, what);
}
static long take_in(void *to, size_t size) { return move_some(0x06, calls, to, size); }
static long give_out(const void *from, size_t size) { return move_some(0x05, answers, from, size); }

static void lay_out(void) {
  uint8_t *at = (uint8_t *)memory;
  stack = at;
  at += STACK_ROOM;
  for (int i = 0; i < ARENAS; i++) { arenas[i] = at; at += room[i]; }
  if (at > (uint8_t *)memory + sizeof memory) fail(11);
  calls = open("/dev/stdin", 10, 1);    /* to read bytes */
  answers = open("/dev/stdout", 11, 5); /* to write bytes */
}

int main(void);
int main(void) { return run(); }

#endif
