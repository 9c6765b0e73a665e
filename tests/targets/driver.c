/* The program on the target, without a C library: makes the calls that come in (message.h), one after the other, and sends back what came of each.
 * Where calls come from, and how memory lies around the buffers, on_linux.h and board/on_board.h say. */
#include "message.h"
#include "machine.h"
#ifdef BOARD
#include "on_board.h"
#else
#include "on_linux.h"
#endif

enum { PAINT = 0xA5 };

/* What comes in has ended if nothing comes, which is as it should be between two messages only. */
static int receive(void *to, size_t size) {
  for (size_t got = 0; got < size;) {
    long n = take_in((uint8_t *)to + got, size - got);
    if (n < 0 || (n == 0 && got > 0)) fail(12);
    if (n == 0) return 0;
    got += (size_t)n;
  }
  return 1;
}

static void send(const void *from, size_t size) {
  for (size_t sent = 0; sent < size;) {
    long n = give_out((const uint8_t *)from + sent, size - sent);
    if (n <= 0) fail(13);
    sent += (size_t)n;
  }
}

static uint8_t *pointer(struct place place) { return place.arena == NO_ARENA ? (uint8_t *)0 : arenas[place.arena] + place.offset; }

/* Stack used is counted from where the caller begins to pass arguments down to the lowest byte that has changed. */
static struct reply call(const struct message *m) {
  const struct arguments arguments = { pointer(m->list), m->list.length, pointer(m->table), m->table.length, pointer(m->block), m->block.length };
  uint32_t *words = (uint32_t *)(void *)stack, i = 0;
  for (; i < STACK_ROOM / 4; i++) words[i] = PAINT * 0x01010101u;
  lock_lists(1);
  uint32_t returned = call_on_stack(&arguments, stack + STACK_ROOM);
  lock_lists(0);
  for (i = 0; i < STACK_ROOM && stack[i] == PAINT;) i++;
  return (struct reply){ returned, STACK_ROOM - i };
}

int run(void) {
  struct message m;
  lay_out();
  while (receive(&m, sizeof m)) {
    for (uint32_t i = m.first; i < m.behind; i++) if (!receive(arenas[i], room[i])) fail(12);
    const struct reply reply = call(&m);
    send(&reply, sizeof reply);
    for (uint32_t i = m.first; i < m.behind; i++) send(arenas[i], room[i]);
  }
  return 0;
}
