/*
 * Answers found by trying everything. A search goes from slot to slot and remembers what it found for the slots that are left and the
 * units that are left, which leaves out no choice. So the lists must be small: see the limits.
 */
#ifndef EXHAUSTIVE_H
#define EXHAUSTIVE_H

#include "job_list.h"

enum { MOST_SEARCHED_SLOTS = 12, MOST_SEARCHED_JOBS = 4, MOST_SEARCHED_STATES = 256 };

enum { NO_SCHEDULE = -1 };

/* The workable volume of the awake slots of this table: the greatest number of job units that can be placed in them. */
int workable_volume(const struct job_list *list, const unsigned char *set);

/* The least energy of all tables that are feasible for the list, from the list's start, or NO_SCHEDULE. */
long long least_energy_of_rivals(const struct job_list *list);

/* The least energy of all tables in which the same slots work as in this one. */
long long least_energy_of_same_work(enum start start, int wake_cost, const unsigned char *table, int slots);

#endif
