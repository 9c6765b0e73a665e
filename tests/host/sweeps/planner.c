#include <stdio.h>
#include <stdlib.h>
#include <string.h>

#include "planner.h"
#include "sleep_rule.h"

enum { NO_SLOT = -1, NO_JOB = -1 };

int volume_inside(const struct job_list *list, struct interval interval)
{
    int volume = 0;
    for (int j = 0; j < list->count; j++)
        if (interval.a <= list->jobs[j].release && list->jobs[j].deadline <= interval.b)
            volume += list->jobs[j].volume;
    return volume;
}

/* Step 1. The first one found in this order has the least b and among those the greatest a. */
static int find_overload(const struct job_list *list, struct interval *found)
{
    for (int b = 1; b <= list->horizon; b++)
        for (int a = b - 1; a >= 0; a--) {
            struct interval interval = {a, b};
            if (volume_inside(list, interval) > b - a) {
                *found = interval;
                return 1;
            }
        }
    return 0;
}

/* Whether the set has for each job a slot among release - 1 to deadline. The start is no slot, so it helps no job. */
static int is_skeleton(const struct job_list *list, const unsigned char *set)
{
    for (int j = 0; j < list->count; j++) {
        int met = 0;
        for (int t = list->jobs[j].release - 1; t <= list->jobs[j].deadline; t++)
            if (0 <= t && t < list->horizon && set[t] != ASLEEP)
                met = 1;
        if (!met)
            return 0;
    }
    return 1;
}

/*
 * Step 2. Slot 0 is the highest bit of a set's number, so of two sets the one with the lower number is asleep where they first differ:
 * in rising order only a set that costs less takes the place of an earlier one.
 */
static void find_skeleton(const struct job_list *list, unsigned char *skeleton)
{
    int slots = list->horizon;
    int found = 0;
    long long least = 0;
    for (int number = 0; number < 1 << slots; number++) {
        unsigned char set[MOST_SEARCHED_SLOTS];
        for (int t = 0; t < slots; t++)
            set[t] = number >> (slots - 1 - t) & 1 ? IDLE : ASLEEP;
        if (!is_skeleton(list, set))
            continue;
        long long energy = figures_of(list->start, list->wake_cost, set, slots).energy;
        if (!found || energy < least) {
            found = 1;
            least = energy;
            memcpy(skeleton, set, (size_t)slots);
        }
    }
}

static int touches(const unsigned char *set, int slots, int slot)
{
    return (slot > 0 && set[slot - 1] != ASLEEP) || (slot + 1 < slots && set[slot + 1] != ASLEEP);
}

/* The least sleeping slot that touches the set and helps, or NO_SLOT; volume is the set's workable volume. The set comes back as it was. */
static int slot_to_wake(const struct job_list *list, unsigned char *set, int volume)
{
    for (int t = 0; t < list->horizon; t++) {
        if (set[t] != ASLEEP || !touches(set, list->horizon, t))
            continue;
        set[t] = IDLE;
        int helps = workable_volume(list, set) == volume + 1;
        set[t] = ASLEEP;
        if (helps)
            return t;
    }
    return NO_SLOT;
}

/* Step 3. Gives the number of slots woken. */
static int wake_slots(const struct job_list *list, unsigned char *set, int *woken)
{
    int added = 0;
    int needed = sum_of_volumes(list);
    for (int volume = workable_volume(list, set); volume < needed; volume = workable_volume(list, set)) {
        int slot = slot_to_wake(list, set, volume);
        if (slot == NO_SLOT) {
            fprintf(stderr, "no slot touches and helps, though no interval is overloaded\n");
            exit(2);
        }
        set[slot] = IDLE;
        woken[added++] = slot;
    }
    return added;
}

/* Step 4 for one slot, with card 6: on equal deadlines the job that ran last goes on, else the lowest number runs. */
static int job_to_run(const struct job_list *list, const int *left, int slot, int ran_last)
{
    int chosen = NO_JOB;
    for (int j = 0; j < list->count; j++) {
        if (list->jobs[j].release > slot || left[j] == 0)
            continue;
        if (chosen == NO_JOB || list->jobs[j].deadline < list->jobs[chosen].deadline)
            chosen = j;
        else if (list->jobs[j].deadline == list->jobs[chosen].deadline && j == ran_last)
            chosen = j;
    }
    return chosen;
}

/* Step 4: puts a job in each awake slot that has one to run. */
static void run_jobs(const struct job_list *list, unsigned char *table)
{
    int left[MOST_JOBS];
    int ran_last = NO_JOB;
    for (int j = 0; j < list->count; j++)
        left[j] = list->jobs[j].volume;
    for (int t = 0; t < list->horizon; t++) {
        if (table[t] == ASLEEP)
            continue;
        int j = job_to_run(list, left, t, ran_last);
        if (j == NO_JOB)
            continue;
        table[t] = (unsigned char)j;
        left[j]--;
        ran_last = j;
    }
}

struct plan plan_list(const struct job_list *list)
{
    struct plan plan;
    memset(&plan, 0, sizeof plan);
    plan.overloaded = find_overload(list, &plan.interval);
    if (plan.overloaded)
        return plan;

    find_skeleton(list, plan.skeleton);
    memcpy(plan.table, plan.skeleton, (size_t)list->horizon);
    plan.added = wake_slots(list, plan.table, plan.woken);
    run_jobs(list, plan.table);
    apply_sleep_rule(list->start, list->wake_cost, plan.table, list->horizon);
    plan.figures = figures_of(list->start, list->wake_cost, plan.table, list->horizon);
    return plan;
}
