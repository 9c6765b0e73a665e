#define _GNU_SOURCE
#include "lent_memory.h"
#include "draw.h"
#include <stdio.h>
#include <stdlib.h>
#include <string.h>
#include <sys/mman.h>
#include <unistd.h>

int in_heap;

static void *or_die(void *p) { if (p == MAP_FAILED || !p) { perror("memory"); exit(2); } return p; }

/* A view of the file's pages with a forbidden page before and behind. */
static uint8_t *view(int file, size_t size, size_t page, int access) {
  uint8_t *all = or_die(mmap(NULL, size + 2 * page, PROT_NONE, MAP_PRIVATE | MAP_ANONYMOUS, -1, 0));
  return or_die(mmap(all + page, size, access, MAP_SHARED | MAP_FIXED, file, 0));
}

/* What may only be read is seen twice: we write through one view and lend the other. */
struct arena arena(size_t room, int read_only) {
  size_t page = (size_t)sysconf(_SC_PAGESIZE), size = (room + page - 1) / page * page;
  int file = memfd_create("arena", 0);
  if (file < 0 || ftruncate(file, (off_t)size)) { perror("memory"); exit(2); }
  uint8_t *whole = view(file, size, page, PROT_READ | PROT_WRITE);
  return (struct arena){ whole, read_only ? view(file, size, page, PROT_READ) : whole, size };
}

struct loan lend(const struct arena *a, size_t len, enum lie lie) {
  if (lie == NOWHERE) return (struct loan){ NULL, NULL, 0, 0 };
  if (in_heap) { uint8_t *p = or_die(malloc(len)); return (struct loan){ p, p, 0, len }; }
  size_t offset = lie == FRONT ? 0 : lie == BACK ? a->size - len : draw((uint32_t)(a->size - len) + 1);
  return (struct loan){ a->lent + offset, a->whole, offset, a->size };
}

void take_back(struct loan loan) { if (in_heap) free(loan.whole); }

void paint(uint8_t *p, size_t size) {
  static uint8_t noise[1 << 16];
  static uint32_t made;
  for (; made < sizeof noise; made++) noise[made] = (uint8_t)(made * 2654435769u >> 24);
  if (size) memcpy(p, noise + draw((uint32_t)(sizeof noise - size)), size);
}
