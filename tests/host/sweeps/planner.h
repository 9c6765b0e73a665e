/*
 * The skeleton planner of document 01 with cards 5, 6 and 10, step by step as the papers say it.
 * The skeleton comes from trying every set of slots, so horizons go up to MOST_SEARCHED_SLOTS.
 */
#ifndef PLANNER_H
#define PLANNER_H

#include "exhaustive.h"
#include "job_list.h"
#include "slot_table.h"

/* An interval from a up to but without b. */
struct interval {
    int a;
    int b;
};

/* Where the list is overloaded only the interval counts, else all but the interval. */
struct plan {
    int overloaded;
    struct interval interval;
    unsigned char skeleton[MOST_SEARCHED_SLOTS];
    int woken[MOST_SEARCHED_SLOTS];
    int added;
    unsigned char table[MOST_SEARCHED_SLOTS];
    struct figures figures;
};

/* The volume of the jobs that lie inside the interval. */
int volume_inside(const struct job_list *list, struct interval interval);

/* The list must pass the list checks. */
struct plan plan_list(const struct job_list *list);

#endif
