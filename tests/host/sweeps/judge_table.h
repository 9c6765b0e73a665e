/* The judge of document 01 with cards 1, 3 and 10: a list and a table from anyone give figures or a refusal. */
#ifndef JUDGE_TABLE_H
#define JUDGE_TABLE_H

#include "job_list.h"
#include "slot_table.h"

enum {
    ACCEPTED = 0,
    BAD_SIZE = 12,
    RELEASE_NOT_BEFORE_DEADLINE = 15,
    TABLE_TOO_SHORT = 17,
    NO_SUCH_JOB = 21,
    TOO_OFTEN = 22,
    OUTSIDE_SPAN = 23,
    TOO_SELDOM = 24,
    DEADLINE_ABOVE_HORIZON = 25,
    NO_VOLUME = 26
};

/* Figures are given where the number is ACCEPTED, the place where it is not. */
struct verdict {
    int number;
    int place;
    struct figures figures;
};

struct verdict judge_table(const struct job_list *list, const unsigned char *table, int bytes_lent);

#endif
