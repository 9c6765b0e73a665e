/* The sentences that stand above every picture. All are sums for showing; the planner's own numbers are taken from its block. */
#ifndef JOBS_FACTS_H
#define JOBS_FACTS_H

#include "source.h"

enum { FACT_ROOM = 160 };

/* "10 slots, wake cost 3, 3 jobs with 8 units of work" */
void fact_list(const struct list *list, char fact[FACT_ROOM]);

/* "energy 13 = 10 awake slots + 1 run x wake cost 3" */
void fact_energy(const struct source *source, char fact[FACT_ROOM]);

/* "8 slots busy, 2 idle, 0 asleep" */
void fact_slots(const struct source *source, char fact[FACT_ROOM]);

/* "overloaded: slots 2..5 have room for 3 units, the jobs inside need 4" */
void fact_overload(const struct source *source, char fact[FACT_ROOM]);

/* Whether a job belongs to the overloaded interval. */
int job_inside(const struct source *source, unsigned job);

#endif
