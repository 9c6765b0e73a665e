/* The exact numbers below a timeline. */
#ifndef JOBS_TABLES_H
#define JOBS_TABLES_H

#include "sheet.h"

/* A run a line: its slots, how many of them are awake and idle, how many slots slept before it, and what its slots do. */
void draw_runs(const struct sheet *sheet);

/* A job a line: when it first runs, when its last unit is done, how long before the deadline that is, and in how many pieces it runs. */
void draw_jobs(const struct sheet *sheet);

/* A line for each job inside the overloaded interval. */
void draw_inside(const struct sheet *sheet);

#endif
