/* A second implementation of the planner's C call, with no code in common with the proved one.
 *
 * The reader and step 1 follow document 01 word by word, step 4 follows card 6 of 02, step 5 card 5. Step 1 looks at all starts for every end. Step
 * 2 tries every set of slots where there are at most ten, and else fills a table over all slots. Step 3 searches from slot 0 each time; the
 * workable volume comes from augmenting paths between slots and jobs. That a passed-over slot does not help is not taken from any theorem
 * about earlier turns: a witness shows it of the set as it then is, and the witness is checked whenever a slot changes hands (oracle.c). Step 4
 * looks back over the table in each slot and carries nothing from slot to slot but the units left. Step 5 decides each slot by itself; where
 * there are at most ten, every other choice of awake slots is tried, to see that none costs less. */
#ifndef ORACLE_H
#define ORACLE_H
#include "places.h"
#include <stddef.h>
#include <stdint.h>

/* Slots in a row in which no job runs, as many as there are: all slots, those before the first working slot, those behind the last, or those
 * between two working slots, fewer than q, just q or more. */
enum stretch { WHOLE, LEADING, TRAILING, SHORTER, JUST_Q, LONGER, STRETCHES };

/* What the answer of a call took, for the coverage. */
struct notes {
  struct spot spot;
  int h, q, n;
  int added;          /* in step 3 */
  int runs;           /* of the table */
  int stretches[STRETCHES];
  int put_to_sleep;   /* slots that are idle by step 4 and asleep in the table */
  int kept_awake;     /* slots that are asleep by step 4 and idle in the table */
  int longest_path;   /* the most jobs that one slot concerned in step 3 */
  int passed_over;    /* a sleeping slot that touches was passed over since it does not help */
  int skeleton_tie;   /* the tie rule of step 2 decided */
  int deadline_tie;   /* several jobs had the earliest deadline in step 4, and of these, where there was a latest job: */
  int went_on;        /* it went on though a lower number waited */
  int latest_done;    /* it was finished */
  int latest_later;   /* it was due later than they */
  int on_over_idle;   /* it went on as in went_on, over a stretch that is idle in the table */
  int on_over_sleep;  /* likewise, over a stretch that is asleep in the table */
  int several_starts; /* more than one start overloads the end that is shown */
};

uint32_t oracle_plan(const uint8_t *list, size_t list_len, uint8_t *table, size_t table_len, uint8_t *block, size_t block_len, struct notes *notes);

#endif
