/* What a run of many lists has covered, and what it must have covered. */
#ifndef COVERAGE_H
#define COVERAGE_H
#include "call.h"
#include "oracle.h"
#include "sources.h"

void count(enum source source, uint32_t answer, const struct call *c, const struct notes *notes);

/* A table of answers and of what planned lists had to show; the same in the words of one line. */
void print_counts(void);
void print_summary(void);

/* Says on standard error what came too seldom; returns how much of it. */
int count_missing(void);

#endif
