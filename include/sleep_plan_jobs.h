/* sleep_plan_jobs.h - for sleep_plan.h: a list from an array of jobs, and the numbers of the answer block.
 *
 * Whoever writes lists and reads blocks in another way does not need it. It is C99 and C++11, needs no library, keeps nothing, and may be used
 * from several threads at once. Unlike the planner these two functions are not proved; they are tested.
 */
#ifndef SLEEP_PLAN_JOBS_H
#define SLEEP_PLAN_JOBS_H

#include "sleep_plan.h"

/* A job runs in `volume` of the slots from `release` up to, but without, `deadline`. Its number is its place in the array, from 0. */
struct sleep_plan_job { uint16_t release, deadline, volume; };

/* Writes the list of `count` jobs with so many slots and this wake cost to the first bytes of `list`, which has room for `room` bytes, and
 * returns their number. Returns 0 and writes nothing if the list needs more room or there are more than SLEEP_PLAN_JOBS_MAX jobs; the planner
 * refuses a list of 0 bytes with SLEEP_PLAN_TRUNCATED. A room of SLEEP_PLAN_LIST_MAX is always enough.
 *
 * A release of 0, a deadline of `slots` and a volume of 1 are left out, as the planner demands. No value is judged: what the planner refuses is
 * written all the same, so that the planner tells what is wrong. Bytes behind the list are never changed.
 *
 * The caller's duty: `jobs` holds `count` jobs, `list` is valid for `room` bytes, and the two share no byte. `jobs` may be NULL where `count` is
 * 0, and `list` where `room` is 0. */
static inline size_t sleep_plan_write_list(uint8_t *list, size_t room, uint16_t slots, uint16_t wake_cost, const struct sleep_plan_job *jobs,
                                           size_t count) {
  size_t length = 5;
  uint8_t *to = list;
  if (count > SLEEP_PLAN_JOBS_MAX) return 0;
  for (size_t i = 0; i < count; i++)
    length += 1u + 2u * (unsigned)((jobs[i].release != 0) + (jobs[i].deadline != slots) + (jobs[i].volume != 1));
  if (length > room) return 0;
  *to++ = (uint8_t)(slots & 255);
  *to++ = (uint8_t)(slots >> 8);
  *to++ = (uint8_t)(wake_cost & 255);
  *to++ = (uint8_t)(wake_cost >> 8);
  *to++ = (uint8_t)count;
  for (size_t i = 0; i < count; i++) {
    const uint16_t field[3] = {jobs[i].release, jobs[i].deadline, jobs[i].volume}, absent[3] = {0, slots, 1};
    uint8_t *map = to++;
    unsigned bits = 0;
    for (unsigned f = 0; f < 3; f++) {
      if (field[f] == absent[f]) continue;
      bits |= 1u << f;
      *to++ = (uint8_t)(field[f] & 255);
      *to++ = (uint8_t)(field[f] >> 8);
    }
    *map = (uint8_t)bits;
  }
  return length;
}

/* Number i of an answer block, 0 to 3, low byte first as the planner wrote it. `block` is valid for SLEEP_PLAN_BLOCK_MIN bytes and need not be
 * aligned. What the number means depends on what sleep_plan returned. */
static inline uint32_t sleep_plan_number(const uint8_t *block, unsigned i) {
  const uint8_t *from = block + 4 * i;
  return (uint32_t)from[0] | (uint32_t)from[1] << 8 | (uint32_t)from[2] << 16 | (uint32_t)from[3] << 24;
}

#endif
