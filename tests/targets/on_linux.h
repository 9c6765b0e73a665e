/* The driver as a program of Linux: calls come from standard input. Every arena lies between two pages that may not be touched, and so does the stack
 * of the call. */
#ifndef ON_LINUX_H
#define ON_LINUX_H

enum { PAGE = 4096, STACK_ROOM = 4 * PAGE };
enum { NO_ACCESS = 0, READABLE = 1, WRITABLE = 2, PRIVATE_ANONYMOUS = 0x22 };

static uint8_t *arenas[ARENAS], *stack;

static void fail(int status) { for (;;) system_call(EXIT, status, 0, 0, 0, 0, 0); }
static long take_in(void *to, size_t size) { return system_call(READ, 0, (long)to, (long)size, 0, 0, 0); }
static long give_out(const void *from, size_t size) { return system_call(WRITE, 1, (long)from, (long)size, 0, 0, 0); }

static void protect(uint8_t *at, size_t size, int access) {
  if (system_call(PROTECT, (long)at, (long)size, access, 0, 0, 0)) fail(10);
}

static void lock_lists(int locked) { protect(arenas[LISTS], room[LISTS], locked ? READABLE : READABLE | WRITABLE); }

/* The first byte is wished to lie at `wish`, which need not come true. */
static uint8_t *guarded(size_t size, uintptr_t wish) {
  uint8_t *all = (uint8_t *)system_call(MAP, (long)(wish - PAGE), (long)(size + 2 * PAGE), NO_ACCESS, PRIVATE_ANONYMOUS, -1, 0);
  if ((uintptr_t)all % PAGE) fail(11); /* the negative number of an error */
  protect(all + PAGE, size, READABLE | WRITABLE);
  return all + PAGE;
}

/* The tables lie across 2 GiB where addresses have 32 bits, else across 4 GiB; the lists lie below, the blocks and what is shared above. */
static void lay_out(void) {
  const uintptr_t middle = (uintptr_t)1 << (sizeof(uintptr_t) == 4 ? 31 : 32);
  const uintptr_t wishes[ARENAS] = { middle - 0x20000000, middle - PAGE, middle + 0x20000000, middle + 0x10000000 };
  for (int i = 0; i < ARENAS; i++) arenas[i] = guarded(room[i], wishes[i]);
  stack = guarded(STACK_ROOM, middle / 4);
}

#endif
