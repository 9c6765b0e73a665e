/* Where the lists to try come from. */
#ifndef SOURCES_H
#define SOURCES_H
#include "draw.h"
#include "list.h"

enum source { RANDOM, MUTATED, GRAMMAR, SOURCES };

/* Each writes the bytes of one list and returns their number. The grammar goes through the places of refusals turn by turn. */
size_t random_bytes(uint8_t *bytes, uint64_t turn);
size_t mutated_bytes(uint8_t *bytes, uint64_t turn);
size_t grammar_bytes(uint8_t *bytes, uint64_t turn);

/* A list that passes the checks; most have a plan (random.c). */
void good_list(struct list *l);

#endif
