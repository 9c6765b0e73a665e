/* A plan, or an overload, drawn in plain characters. */
#ifndef JOBS_TIMELINE_H
#define JOBS_TIMELINE_H

#include "source.h"
#include <stdio.h>

enum { WIDTH_MIN = 40, WIDTH_USUAL = 80, WIDTH_MAX = 5000 };

void draw_timeline(FILE *out, const struct source *source, unsigned width);

#endif
