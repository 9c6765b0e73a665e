#include "facts.h"
#include <stdio.h>

static const char *plural(unsigned long n) { return n == 1 ? "" : "s"; }

void fact_list(const struct list *list, char fact[FACT_ROOM]) {
  unsigned long units = volume_sum(list);
  snprintf(fact, FACT_ROOM, "%u slot%s, wake cost %u, %u job%s with %lu unit%s of work", list->slots, plural(list->slots), list->wake, list->count,
           plural(list->count), units, plural(units));
}

void fact_energy(const struct source *s, char fact[FACT_ROOM]) {
  const uint32_t *n = s->plan.numbers;
  snprintf(fact, FACT_ROOM, "energy %lu = %lu awake slot%s + %lu run%s x wake cost %u", (unsigned long)n[ENERGY], (unsigned long)n[AWAKE],
           plural(n[AWAKE]), (unsigned long)n[RUNS], plural(n[RUNS]), s->list.wake);
}

void fact_slots(const struct source *s, char fact[FACT_ROOM]) {
  unsigned h = s->list.slots, idle = count_slots(s->plan.table, 0, h, SLEEP_PLAN_IDLE), asleep = count_slots(s->plan.table, 0, h, SLEEP_PLAN_ASLEEP);
  snprintf(fact, FACT_ROOM, "%u slot%s busy, %u idle, %u asleep", h - idle - asleep, plural(h - idle - asleep), idle, asleep);
}

int job_inside(const struct source *s, unsigned job) {
  return s->plan.numbers[FROM] <= s->list.jobs[job].release && s->list.jobs[job].deadline <= s->plan.numbers[UPTO];
}

void fact_overload(const struct source *s, char fact[FACT_ROOM]) {
  unsigned long a = s->plan.numbers[FROM], b = s->plan.numbers[UPTO], need = 0;
  for (unsigned j = 0; j < s->list.count; j++)
    if (job_inside(s, j)) need += s->list.jobs[j].volume;
  snprintf(fact, FACT_ROOM, "overloaded: slots %lu..%lu have room for %lu unit%s, the jobs inside need %lu", a, b, b - a, plural(b - a), need);
}
