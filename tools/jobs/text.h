/* A list written as text. */
#ifndef JOBS_TEXT_H
#define JOBS_TEXT_H

#include "list.h"
#include <stdio.h>

void write_text(FILE *out, const struct list *list);

#endif
