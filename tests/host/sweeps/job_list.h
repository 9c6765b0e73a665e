/* A job list as the planner and the judge take it (document 01, "Words of the plan"), with card 10's start. */
#ifndef JOB_LIST_H
#define JOB_LIST_H

#include "start.h"

enum { MOST_JOBS = 64, MOST_SLOTS = 4096 };

struct job {
    int release;
    int deadline;
    int volume;
};

/* One count stands for all three fields of the jobs, so lists of different lengths (refusal 19) cannot be spelled. */
struct job_list {
    int horizon;
    int wake_cost;
    enum start start;
    int count;
    struct job jobs[MOST_JOBS];
};

/* A job may run in slots release to deadline - 1. */
int job_may_run_in(const struct job *job, int slot);

int sum_of_volumes(const struct job_list *list);

#endif
