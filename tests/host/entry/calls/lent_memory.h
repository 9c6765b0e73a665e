/* Lent memory that shows what was done to it. */
#ifndef LENT_MEMORY_H
#define LENT_MEMORY_H
#include "call.h"

/* Memory between two pages that may not be touched; with in_heap each buffer is a heap block of its own instead, for memory checkers. */
struct arena { uint8_t *whole, *lent; size_t size; };
extern int in_heap;
struct arena arena(size_t room, int read_only);

/* A lent buffer of `len` bytes. `whole` is all memory around it that must stay as it is, and is ours to write even if `at` is not. */
struct loan { uint8_t *at, *whole; size_t offset, size; };
struct loan lend(const struct arena *a, size_t len, enum lie lie);
void take_back(struct loan loan);

/* Bytes as they happen to lie in memory. */
void paint(uint8_t *p, size_t size);

#endif
