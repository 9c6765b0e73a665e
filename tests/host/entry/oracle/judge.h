/* Whether an answer 0 or 18 keeps its promise, by the definitions of feasible table, energy and overloaded interval alone, with no plan to
 * compare; and by 02, card 5, that no table with the same working slots costs less. */
#ifndef JUDGE_H
#define JUDGE_H
#include "list.h"

/* NULL, or what is wrong. */
const char *judge(const struct list *l, uint32_t number, const uint8_t *table, const uint8_t *block);

/* One of the four numbers of an answer block. */
uint32_t block_number(const uint8_t *block, int i);

#endif
