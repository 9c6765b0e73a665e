/* How firmware uses the planner: it writes its jobs to a list, has them planned, and follows the table slot by slot. Where this program
 * prints, firmware acts. It needs no heap. It is C99 and C++11; ../README.md has the lines that build it. */
#include <stdio.h>
#include "sleep_plan.h"
#include "sleep_plan_jobs.h"

#define SLOTS 16
#define WAKE_COST 2

/* The longest list fits, so the list of at most SLEEP_PLAN_JOBS_MAX jobs always does. */
static uint8_t list[SLEEP_PLAN_LIST_MAX], table[SLOTS], block[SLEEP_PLAN_BLOCK_MIN];

/* What job 0, 1 and 2 do. The table names a job by its number. */
static const char *const names[] = {"range window", "temperature", "frame"};

/* The processor is asleep when slot 0 begins. Before it sleeps it sets its timer to the next awake slot, if there is one. */
static void follow(void) {
  for (unsigned slot = 0; slot < SLOTS;) {
    unsigned wake = slot;
    while (wake < SLOTS && table[wake] == SLEEP_PLAN_ASLEEP) wake++;
    if (wake == SLOTS) { printf("slot %2u: sleep until the next plan\n", slot); return; }
    if (wake > slot) { printf("slot %2u: sleep, wake at slot %u\n", slot, wake); slot = wake; }
    printf("slot %2u: %s\n", slot, table[slot] == SLEEP_PLAN_IDLE ? "stay awake" : names[table[slot]]);
    slot++;
  }
}

static void plan(const struct sleep_plan_job *jobs, unsigned count) {
  const size_t length = sleep_plan_write_list(list, sizeof list, SLOTS, WAKE_COST, jobs, count);
  const uint32_t returned = sleep_plan(list, length, table, sizeof table, block, sizeof block);
  const unsigned long first = sleep_plan_number(block, 0), second = sleep_plan_number(block, 1), third = sleep_plan_number(block, 2);
  if (returned == SLEEP_PLAN_PLANNED) {
    printf("planned: energy %lu, %lu awake slots, %lu runs\n", first, second, third);
    follow();
  } else if (returned == SLEEP_PLAN_OVERLOADED) {
    /* One of these jobs has to go, or get more room. The table is as it was: the plan of before still stands in it. */
    printf("overloaded: slots %lu to %lu cannot hold all of\n", first, second - 1);
    for (unsigned i = 0; i < count; i++)
      if (first <= jobs[i].release && jobs[i].deadline <= second) printf("  %s, %u slots\n", names[i], jobs[i].volume);
  } else {
    /* A fault in the list, and so in this program: log it. The table is as it was. */
    printf("refused: number %lu, place %lu\n", (unsigned long)returned, first);
  }
}

int main(void) {
  static const struct sleep_plan_job good[] = {{2, 5, 3}, {6, 8, 1}, {12, 14, 2}};
  static const struct sleep_plan_job crowded[] = {{2, 5, 3}, {3, 6, 2}, {12, SLOTS, 2}};
  static const struct sleep_plan_job faulty[] = {{2, 5, 3}, {6, SLOTS + 1, 1}};
  plan(good, 3);
  plan(crowded, 3);
  plan(faulty, 2);
  return 0;
}
