#include "job_list.h"

int job_may_run_in(const struct job *job, int slot)
{
    return job->release <= slot && slot < job->deadline;
}

int sum_of_volumes(const struct job_list *list)
{
    int sum = 0;
    for (int j = 0; j < list->count; j++)
        sum += list->jobs[j].volume;
    return sum;
}
