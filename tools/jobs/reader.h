/* The text form of a job list; docs/TOOL.md has its grammar. */
#ifndef JOBS_READER_H
#define JOBS_READER_H

#include "list.h"
#include <stdio.h>

/* Reads a text to its end. Gives 1, or 0 after it has told the first mistake on standard error, with file, line and column. Only the form is
 * checked here: whether the numbers make a list is for the planner to say. Of more than JOBS_ROOM jobs the first JOBS_ROOM are kept. */
int read_text(FILE *in, const char *file, struct list *list);

#endif
