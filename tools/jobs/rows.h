/* The rows of a timeline: a character a slot. */
#ifndef JOBS_ROWS_H
#define JOBS_ROWS_H

#include "sheet.h"

void draw_plan_rows(const struct sheet *sheet);

/* Rows for the overloaded interval only; none if they were too many, for the interval and its jobs are told in words as well. */
void draw_overload_rows(const struct sheet *sheet);

#endif
