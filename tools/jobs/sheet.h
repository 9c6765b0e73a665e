/* What the parts of a timeline share. */
#ifndef JOBS_SHEET_H
#define JOBS_SHEET_H

#include "source.h"
#include <stdio.h>

enum { SPAN_ROOM = 24 };

struct sheet {
  FILE *out;
  const struct source *source;
  unsigned width, label_width; /* columns in all, and of the labels at the left */
};

/* "3..17" */
static inline const char *span_text(char text[SPAN_ROOM], unsigned from, unsigned upto) {
  snprintf(text, SPAN_ROOM, "%u..%u", from, upto);
  return text;
}

#endif
