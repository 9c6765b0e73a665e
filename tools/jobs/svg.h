/* A plan, or an overload, as a picture in SVG. */
#ifndef JOBS_SVG_H
#define JOBS_SVG_H

#include "source.h"
#include <stdio.h>

void draw_svg(FILE *out, const struct source *source);

#endif
