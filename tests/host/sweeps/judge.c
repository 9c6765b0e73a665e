/* Prints what the judge says of every small list with every small table. */
#include <inttypes.h>
#include <stdio.h>

#include "judge_table.h"
#include "sweep_numbers.h"

enum { MOST_SWEPT_SLOTS = 4, MOST_SWEPT_JOBS = 2, BYTES_LENT = 4, WAKE_COST = 3, NUMBERS = NO_VOLUME + 1 };

struct tally {
    long long calls;
    long long times[NUMBERS];
    uint64_t digest;
};

/* Some of these jobs are faulty: their release is not before their deadline. */
static struct job job_number(int k, int horizon)
{
    struct job job = {k / 3 / horizon, k / 3 % horizon + 1, k % 3 + 1};
    return job;
}

static void judge_into_tally(struct tally *tally, const struct job_list *list, const unsigned char *table)
{
    struct verdict verdict = judge_table(list, table, BYTES_LENT);
    tally->calls++;
    tally->times[verdict.number]++;
    tally->digest = mixed(tally->digest, (uint64_t)verdict.number);
    if (verdict.number != ACCEPTED) {
        tally->digest = mixed(tally->digest, (uint64_t)verdict.place);
        return;
    }
    tally->digest = mixed(tally->digest, (uint64_t)verdict.figures.energy);
    tally->digest = mixed(tally->digest, (uint64_t)verdict.figures.awake);
    tally->digest = mixed(tally->digest, (uint64_t)verdict.figures.runs);
}

static void judge_every_table(struct tally *tally, const struct job_list *list)
{
    static const unsigned char digits[] = {0, 1, 2, IDLE, ASLEEP};
    int tables = 1;
    for (int t = 0; t < list->horizon; t++)
        tables *= 5;
    for (int number = 0; number < tables; number++) {
        unsigned char table[BYTES_LENT];
        int rest = number;
        for (int t = 0; t < BYTES_LENT; t++, rest /= 5)
            table[t] = digits[rest % 5];
        judge_into_tally(tally, list, table);
    }
}

/* Every list of count jobs that begins with the jobs the list already has. */
static void judge_every_list(struct tally *tally, struct job_list *list, int count)
{
    if (list->count == count) {
        judge_every_table(tally, list);
        return;
    }
    for (int k = 0; k < 3 * list->horizon * list->horizon; k++) {
        list->jobs[list->count++] = job_number(k, list->horizon);
        judge_every_list(tally, list, count);
        list->count--;
    }
}

int main(void)
{
    for (enum start start = START_ASLEEP; start <= START_AWAKE; start++)
        for (int horizon = 1; horizon <= MOST_SWEPT_SLOTS; horizon++)
            for (int count = 0; count <= MOST_SWEPT_JOBS; count++) {
                struct tally tally = {0, {0}, 0};
                struct job_list list = {horizon, WAKE_COST, start, 0, {{0, 0, 0}}};
                judge_every_list(&tally, &list, count);
                printf("%sall %d %d %lld %lld %lld %lld %lld %lld %lld %" PRIu64 "\n", start_prefix(start), horizon, count, tally.calls,
                       tally.times[ACCEPTED], tally.times[RELEASE_NOT_BEFORE_DEADLINE], tally.times[NO_SUCH_JOB], tally.times[TOO_OFTEN],
                       tally.times[OUTSIDE_SPAN], tally.times[TOO_SELDOM], tally.digest);
            }
    return 0;
}
