#include "judge_table.h"

static struct verdict refused(int number, int place)
{
    struct verdict verdict = {number, place, {0, 0, 0}};
    return verdict;
}

/* The list checks in their order; place counts only with a number other than ACCEPTED. */
static struct verdict check_list(const struct job_list *list)
{
    if (list->horizon < 1 || list->horizon > MOST_SLOTS)
        return refused(BAD_SIZE, 0);
    if (list->count > MOST_JOBS)
        return refused(BAD_SIZE, 4);
    for (int j = 0; j < list->count; j++) {
        const struct job *job = &list->jobs[j];
        if (job->deadline > list->horizon)
            return refused(DEADLINE_ABOVE_HORIZON, j);
        if (job->release >= job->deadline)
            return refused(RELEASE_NOT_BEFORE_DEADLINE, j);
        if (job->volume == 0)
            return refused(NO_VOLUME, j);
    }
    return refused(ACCEPTED, 0);
}

static int times_named(const unsigned char *table, int slots, int j)
{
    int times = 0;
    for (int t = 0; t < slots; t++)
        times += table[t] == j;
    return times;
}

struct verdict judge_table(const struct job_list *list, const unsigned char *table, int bytes_lent)
{
    struct verdict verdict = check_list(list);
    if (verdict.number != ACCEPTED)
        return verdict;
    if (bytes_lent < list->horizon)
        return refused(TABLE_TOO_SHORT, list->horizon);

    for (int t = 0; t < list->horizon; t++) {
        int j = table[t];
        if (j == IDLE || j == ASLEEP)
            continue;
        if (j >= list->count)
            return refused(NO_SUCH_JOB, t);
        /* Card 3: the span is tested before the volume. */
        if (!job_may_run_in(&list->jobs[j], t))
            return refused(OUTSIDE_SPAN, t);
        if (times_named(table, t, j) >= list->jobs[j].volume)
            return refused(TOO_OFTEN, t);
    }
    for (int j = 0; j < list->count; j++)
        if (times_named(table, list->horizon, j) < list->jobs[j].volume)
            return refused(TOO_SELDOM, j);

    verdict.figures = figures_of(list->start, list->wake_cost, table, list->horizon);
    return verdict;
}
