/* A refusal in words. */
#ifndef JOBS_REFUSAL_H
#define JOBS_REFUSAL_H

#include "source.h"

/* Tells on standard error what the planner refused and why: by line for a text, by offset for bytes. */
void tell_refusal(const struct source *source);

#endif
