/* A job list in pieces, and its bytes. */
#ifndef LIST_H
#define LIST_H
#include <stddef.h>
#include <stdint.h>

enum { JOBS = 64, ENTRIES = 2 * JOBS, MOST_SLOTS = 4096, LIST_ROOM = 8192 };
enum { RELEASE = 1, DEADLINE = 2, VOLUME = 4 };

/* What is spelled is the count as it stands, then n entries, each with the fields whose map bits stand. */
struct job { unsigned r, d, p, map; };
struct list { unsigned h, q, count, n; struct job job[ENTRIES]; };

/* The map of the one spelling; settle gives a list its count and these maps. */
unsigned map_of(unsigned h, const struct job *job);
void settle(struct list *l);
size_t spell(const struct list *l, uint8_t *bytes);

#endif
