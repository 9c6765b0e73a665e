/* Plans every small list and many drawn ones, prints the sums, and holds each plan to demand 3 and to card 5's sentence on energy. */
#include <stdio.h>

#include "judge_table.h"
#include "planner.h"
#include "sweep_numbers.h"

enum { DRAWN_LISTS = 200000 };

static const int wake_costs[] = {0, 1, 2, 3, 9};
enum { WAKE_COSTS = sizeof wake_costs / sizeof wake_costs[0] };

struct sums {
    long long lists;
    long long overloaded;
    long long energy;
    long long added;
    long long rival;
};

static long long faults = 0;

static void complain(const struct job_list *list, const char *fault)
{
    faults++;
    fprintf(stderr, "%sH %d q %d", start_prefix(list->start), list->horizon, list->wake_cost);
    for (int j = 0; j < list->count; j++)
        fprintf(stderr, " (%d,%d,%d)", list->jobs[j].release, list->jobs[j].deadline, list->jobs[j].volume);
    fprintf(stderr, ": %s\n", fault);
}

/* Demand 3, with the rival from the same start. */
static void check_against_rival(const struct job_list *list, const struct plan *plan, long long rival)
{
    if (plan->overloaded != (rival == NO_SCHEDULE)) {
        complain(list, "overloaded is said where a feasible schedule exists, or not said where none does");
        return;
    }
    if (plan->overloaded) {
        struct interval shown = plan->interval;
        if (!(0 <= shown.a && shown.a < shown.b && shown.b <= list->horizon && volume_inside(list, shown) > shown.b - shown.a))
            complain(list, "the jobs of the interval shown do not need more slots than it has");
        return;
    }
    struct verdict verdict = judge_table(list, plan->table, list->horizon);
    if (verdict.number != ACCEPTED)
        complain(list, "the plan is not feasible");
    else if (verdict.figures.energy != plan->figures.energy)
        complain(list, "the energy reported is not the plan's");
    if (plan->figures.energy > rival + sum_of_volumes(list))
        complain(list, "the plan costs more than the rival's and the sum of volumes");
}

/* Card 5: no table with the same working slots costs less. */
static void check_sleep(const struct job_list *list, const struct plan *plan)
{
    if (!plan->overloaded
        && plan->figures.energy > least_energy_of_same_work(list->start, list->wake_cost, plan->table, list->horizon))
        complain(list, "a table with the same working slots costs less");
}

/* Document 01: added equals the sum of volumes less the skeleton's workable volume. */
static void check_added(const struct job_list *list, const struct plan *plan)
{
    if (!plan->overloaded && plan->added != sum_of_volumes(list) - workable_volume(list, plan->skeleton))
        complain(list, "added is not what the skeleton falls short by");
}

static void plan_into_sums(struct sums *sums, const struct job_list *list)
{
    struct plan plan = plan_list(list);
    long long rival = least_energy_of_rivals(list);
    check_against_rival(list, &plan, rival);
    check_sleep(list, &plan);
    check_added(list, &plan);
    sums->lists++;
    if (plan.overloaded) {
        sums->overloaded++;
        return;
    }
    sums->energy += plan.figures.energy;
    sums->added += plan.added;
    sums->rival += rival;
}

static void print_sums(enum start start, const char *name, const struct sums *sums)
{
    printf("%s%s: lists %lld overloaded %lld differing 0 energy %lld added %lld rival %lld\n", start_prefix(start), name, sums->lists,
           sums->overloaded, sums->energy, sums->added, sums->rival);
}

/* The list with this code, of digits to this base: horizon, wake cost, then the fields of each job. Gives 0 if it is not to be counted. */
static int list_of_code(struct job_list *list, int base, int code)
{
    list->horizon = code % base + 1;
    int rest = code / base;
    list->wake_cost = wake_costs[rest % WAKE_COSTS];
    rest /= WAKE_COSTS;
    for (int j = 0; j < list->count; j++) {
        struct job *job = &list->jobs[j];
        job->release = rest % base;
        rest /= base;
        job->deadline = rest % base + 1;
        rest /= base;
        job->volume = rest % base + 1;
        rest /= base;
        /* A volume more than one above the span overloads the list like one that is one above it, so it is left out. */
        if (job->release >= job->deadline || job->deadline > list->horizon || job->release + job->volume > job->deadline + 1)
            return 0;
    }
    return 1;
}

static void sweep_every_list(enum start start, const char *name, int base, int count)
{
    struct sums sums = {0, 0, 0, 0, 0};
    struct job_list list = {1, 0, start, count, {{0, 0, 0}}};
    int codes = WAKE_COSTS * base;
    for (int field = 0; field < 3 * count; field++)
        codes *= base;
    for (int code = 0; code < codes; code++)
        if (list_of_code(&list, base, code))
            plan_into_sums(&sums, &list);
    print_sums(start, name, &sums);
}

static void sweep_drawn_lists(enum start start)
{
    struct sums sums = {0, 0, 0, 0, 0};
    uint64_t state = 1;
    for (int i = 0; i < DRAWN_LISTS; i++) {
        struct job_list list = {1, 0, start, 0, {{0, 0, 0}}};
        list.horizon = draw(&state) % 4 + 5;
        list.wake_cost = wake_costs[draw(&state) % WAKE_COSTS];
        list.count = draw(&state) % 4 + 1;
        for (int j = 0; j < list.count; j++) {
            int x = draw(&state) % list.horizon;
            int y = draw(&state) % list.horizon;
            list.jobs[j].volume = draw(&state) % 3 + 1;
            list.jobs[j].release = x < y ? x : y;
            list.jobs[j].deadline = (x < y ? y : x) + 1;
        }
        plan_into_sums(&sums, &list);
    }
    print_sums(start, "drawn", &sums);
}

int main(void)
{
    for (enum start start = START_ASLEEP; start <= START_AWAKE; start++) {
        sweep_every_list(start, "no job", 8, 0);
        sweep_every_list(start, "one job", 8, 1);
        sweep_every_list(start, "two jobs", 8, 2);
        sweep_every_list(start, "three jobs", 5, 3);
        sweep_drawn_lists(start);
    }
    return faults > 0;
}
