/* Three implementations of document 01's steps, with cards 5 and 6 of 02, to measure the proved one against. Their reader, constants and lists are their own: they share
 * nothing with the proved one, and reading is part of what is measured. */
#ifndef OTHER_PLANNERS_H
#define OTHER_PLANNERS_H
#include <stddef.h>
#include <stdint.h>

enum { MAX_H = 4096, MAX_JOBS = 64 };

struct jobs { int h, q, n; uint16_t r[MAX_JOBS], d[MAX_JOBS], p[MAX_JOBS]; };

/* The least that any planner must do: one run of earliest deadline first over the working slots (bytes other than 255), and the
 * sleep rule with the figures. */
void limit_fill(const struct jobs *l, const uint8_t *working, uint8_t *table);

/* From list bytes, with all checks: 0, or a refusal's number. */
int read_jobs(const uint8_t *bytes, size_t len, struct jobs *l);

/* All steps, from list bytes to the table and the four numbers of the block, as sleep_plan has them: 0 planned, 18 overloaded, else a
 * refusal's number (without its place). `best` is the fastest of the ways that were tried to take one step after
 * the other (a way that does not is in docs/PERFORMANCE.md), `plain` makes a run for each slot that is tried. */
int best_plan(const uint8_t *bytes, size_t len, uint8_t *table, uint32_t *block);
int plain_plan(const uint8_t *bytes, size_t len, uint8_t *table, uint32_t *block);

#endif
