#include <stdio.h>
#include <stdlib.h>
#include <string.h>

#include "exhaustive.h"
#include "slot_table.h"

/*
 * The units left of all jobs are one number: job j's are its digit, which has weight[j] and runs from 0 to its volume.
 * 0 means that all is done, states - 1 that nothing is; a unit of job j takes weight[j] away.
 */
struct search {
    const struct job_list *list;
    const unsigned char *set;
    int weight[MOST_SEARCHED_JOBS];
    int states;
};

enum { NOT_TRIED = -2 };

static int known_volume[MOST_SEARCHED_SLOTS][MOST_SEARCHED_STATES];
static long long known_energy[MOST_SEARCHED_SLOTS][2][MOST_SEARCHED_STATES];

static struct search begin_search(const struct job_list *list, const unsigned char *set)
{
    struct search search = {list, set, {0}, 1};
    int fits = list->horizon <= MOST_SEARCHED_SLOTS && list->count <= MOST_SEARCHED_JOBS;
    for (int j = 0; fits && j < list->count; j++) {
        search.weight[j] = search.states;
        fits = list->jobs[j].volume < MOST_SEARCHED_STATES / search.states;
        search.states *= list->jobs[j].volume + 1;
    }
    if (!fits) {
        fprintf(stderr, "the list is too large to try everything\n");
        exit(2);
    }
    return search;
}

static int can_run(const struct search *search, int j, int slot, int left)
{
    const struct job *job = &search->list->jobs[j];
    return job_may_run_in(job, slot) && left / search->weight[j] % (job->volume + 1) > 0;
}

/* The most units that find a place in the set's slots from this one on. */
static int most_units(const struct search *search, int slot, int left)
{
    if (slot == search->list->horizon)
        return 0;
    int *known = &known_volume[slot][left];
    if (*known != NOT_TRIED)
        return *known;

    int most = most_units(search, slot + 1, left);
    for (int j = 0; search->set[slot] != ASLEEP && j < search->list->count; j++) {
        if (!can_run(search, j, slot, left))
            continue;
        int units = 1 + most_units(search, slot + 1, left - search->weight[j]);
        if (units > most)
            most = units;
    }
    *known = most;
    return most;
}

int workable_volume(const struct job_list *list, const unsigned char *set)
{
    struct search search = begin_search(list, set);
    for (int t = 0; t < list->horizon; t++)
        for (int left = 0; left < search.states; left++)
            known_volume[t][left] = NOT_TRIED;
    return most_units(&search, 0, search.states - 1);
}

/* Keeps the lesser of two energies, where NO_SCHEDULE is none at all. */
static void keep_lesser(long long *least, long long energy)
{
    if (energy != NO_SCHEDULE && (*least == NO_SCHEDULE || energy < *least))
        *least = energy;
}

/* The least that the slots from this one on can cost if all units left are run in them. */
static long long least_from(const struct search *search, int slot, int awake_before, int left)
{
    if (slot == search->list->horizon)
        return left == 0 ? 0 : NO_SCHEDULE;
    long long *known = &known_energy[slot][awake_before][left];
    if (*known != NOT_TRIED)
        return *known;

    long long least_awake = least_from(search, slot + 1, 1, left);
    for (int j = 0; j < search->list->count; j++)
        if (can_run(search, j, slot, left))
            keep_lesser(&least_awake, least_from(search, slot + 1, 1, left - search->weight[j]));
    if (least_awake != NO_SCHEDULE)
        least_awake += 1 + (awake_before ? 0 : search->list->wake_cost);

    long long least = least_from(search, slot + 1, 0, left);
    keep_lesser(&least, least_awake);
    *known = least;
    return least;
}

long long least_energy_of_rivals(const struct job_list *list)
{
    struct search search = begin_search(list, NULL);
    for (int t = 0; t < list->horizon; t++)
        for (int awake = 0; awake < 2; awake++)
            for (int left = 0; left < search.states; left++)
                known_energy[t][awake][left] = NOT_TRIED;
    return least_from(&search, 0, list->start == START_AWAKE, search.states - 1);
}

long long least_energy_of_same_work(enum start start, int wake_cost, const unsigned char *table, int slots)
{
    unsigned char tried[MOST_SEARCHED_SLOTS];
    int resting[MOST_SEARCHED_SLOTS];
    int count = 0;
    long long least = NO_SCHEDULE;

    memcpy(tried, table, (size_t)slots);
    for (int t = 0; t < slots; t++)
        if (!slot_works(table[t]))
            resting[count++] = t;
    for (int choice = 0; choice < 1 << count; choice++) {
        for (int i = 0; i < count; i++)
            tried[resting[i]] = choice >> i & 1 ? IDLE : ASLEEP;
        keep_lesser(&least, figures_of(start, wake_cost, tried, slots).energy);
    }
    return least;
}
