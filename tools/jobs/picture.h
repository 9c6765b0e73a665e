/* What a picture in SVG is made of: its sizes, and the marks that are put on it.
 *
 * Long horizons are cut into bands of equal length, one below the other. Bars have slots as their x and width; a transform a band stretches
 * them to pixels. All other sizes are pixels, but the width of a slot, which is in thousandths of a pixel. */
#ifndef JOBS_PICTURE_H
#define JOBS_PICTURE_H

#include "source.h"
#include <stdio.h>

struct picture {
  FILE *out;
  const struct source *source;
  int planned; /* else overloaded */
  unsigned bands, band_slots, slot_width;
  unsigned left, width, height; /* where the slots begin, and the whole picture */
};

/* A part of the slots, and where it begins from above. */
struct band { unsigned from, upto, top; };

/* How a stretch of slots looks: its paint, where it lies in its lane, and the word for what its slots do. */
struct bar { const char *kind, *paint, *word; unsigned rise, height; };

/* Colours that stay apart for colour-blind eyes; the shapes of the bars differ as well. */
#define BLUE "fill=\"#0072B2\""
#define ORANGE "fill=\"#E69F00\""
#define RED "fill=\"#D55E00\""
#define PALE_RED "fill=\"#D55E00\" fill-opacity=\"0.2\""
#define DARK_GREY "fill=\"#8C8C8C\""
#define GREY "fill=\"#B8B8B8\""
#define PALE_GREY "fill=\"#F4F6F8\""
#define WHITE "fill=\"#FFFFFF\""

/* Words; more are further attributes, each with a blank before it. */
void put_text(const struct picture *picture, unsigned x, unsigned y, const char *more, const char *text);

void put_box(const struct picture *picture, const char *paint, unsigned x, unsigned y, unsigned width, unsigned height);

/* A bar from slot a up to slot b, as far as they lie in the band, in the lane that begins at y. Whoever points at it reads label, word, a..b. */
void put_bar(const struct picture *picture, const struct band *band, const struct bar *bar, const char *label, unsigned a, unsigned b, unsigned y);

/* At the left edge of a slot: an arrowhead whose tip is at y, an upright line, the slot's number. */
void put_wake(const struct picture *picture, const struct band *band, unsigned slot, unsigned y);
void put_line(const struct picture *picture, const struct band *band, unsigned slot, unsigned y, unsigned bottom);
void put_number(const struct picture *picture, const struct band *band, unsigned slot, unsigned y);

/* All bars are put between these two. */
void begin_bars(const struct picture *picture, const struct band *band);
void end_bars(const struct picture *picture);

#endif
