/* A job list as numbers, and its bytes. */
#ifndef JOBS_LIST_H
#define JOBS_LIST_H

#include "sleep_plan.h"

enum {
  JOBS_ROOM = SLEEP_PLAN_JOBS_MAX + 1, /* one more than a list may have, so that the planner sees and refuses the count */
  BYTES_ROOM = 5 + 7 * JOBS_ROOM,
  NUMBER_MAX = 65535,
  NAME_MAX_LENGTH = 16,
  LABEL_ROOM = 2 + 1 + NAME_MAX_LENGTH + 1
};

struct job {
  unsigned release, deadline, volume;
  unsigned long origin;           /* where it was read: its line in a text, its offset in list bytes */
  char name[NAME_MAX_LENGTH + 1]; /* empty if it has none; names are not in the bytes */
};

struct list {
  unsigned slots, wake, count;
  unsigned long slots_line; /* where the slots were read, in a text */
  struct job jobs[JOBS_ROOM];
};

/* Writes the bytes of a list and gives their number. Nothing is checked but the width of a field, which the caller keeps to 16 bits. */
size_t list_to_bytes(const struct list *list, uint8_t bytes[BYTES_ROOM]);

/* Reads the header and every job that is whole. Nothing is judged: what is no list gives numbers of no meaning. */
void list_from_bytes(const uint8_t *bytes, size_t length, struct list *list);

/* How a job is called wherever it is shown: "job 3", or "3 chirp" if it has a name. */
void job_label(const struct list *list, unsigned job, char label[LABEL_ROOM]);

/* The length of the longest label, 0 without jobs. */
unsigned widest_label(const struct list *list);

unsigned long volume_sum(const struct list *list);

#endif
