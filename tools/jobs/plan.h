/* The planner's answer to a list, and how to walk through its table. */
#ifndef JOBS_PLAN_H
#define JOBS_PLAN_H

#include "sleep_plan.h"

struct plan {
  uint32_t returned;
  uint32_t numbers[4]; /* of the answer block */
  uint8_t table[SLEEP_PLAN_TABLE_MAX];
};

/* What the numbers mean if the list is planned, overloaded, refused. */
enum { ENERGY, AWAKE, RUNS, ADDED };
enum { FROM, UPTO };
enum { PLACE };

void make_plan(const uint8_t *bytes, size_t length, struct plan *plan);

/* Neither planned nor overloaded. */
int refused(const struct plan *plan);

/* Where the stretch of equal bytes that begins at a slot ends, at the latest at limit. */
unsigned stretch_end(const uint8_t *table, unsigned from, unsigned limit);

/* The same for a stretch that is awake throughout or asleep throughout. */
unsigned phase_end(const uint8_t *table, unsigned from, unsigned limit);

/* Whether the processor wakes for this slot. */
int wakes_at(const uint8_t *table, unsigned slot);

/* How often a byte stands among the slots from a up to but without b. */
unsigned count_slots(const uint8_t *table, unsigned a, unsigned b, uint8_t byte);

#endif
