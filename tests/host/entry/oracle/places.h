/* Where an answer came about, finer than its number: a kind of place, a row and a column of it. Drawn lists aim at them, and the coverage of a
 * run is counted by them. */
#ifndef PLACES_H
#define PLACES_H

enum kind {
  HEADER_CUT,   /* 11: row 0, length */
  JOB_CUT,      /* 11: job, how many bytes of the entry are missing, 0 where all are */
  RANGE,        /* 12: row 0; H 0, 4097, above; count 65, above */
  UNKNOWN_BIT,  /* 13: job, lowest such bit less 3 */
  REDUNDANT,    /* 14: job, field */
  PAST_HORIZON, /* 25: job; d = H + 1 or above; 2 more if r is not below d, 4 more if p is 0 */
  EMPTY_SPAN,   /* 15: job; r = d or above; 2 more if p is 0 */
  NO_VOLUME,    /* 26: job */
  LEFT_OVER,    /* 16: number of jobs; one byte, more */
  SHORT_BLOCK,  /* 17: row 0, length */
  SHORT_TABLE,  /* 17: row 0; no byte, H - 1, between */
  OVERLOAD,     /* 18: a 0 or not; b H or not */
  PLANNED,      /* 0: table of H, H + 1, more bytes; block of 16, 17, more */
  KINDS
};
static const struct { int rows, columns; } places[KINDS] = {
  { 1, 5 }, { 64, 7 }, { 1, 5 }, { 64, 5 }, { 64, 3 }, { 64, 8 }, { 64, 4 }, { 64, 1 }, { 65, 2 }, { 1, 16 }, { 1, 3 }, { 2, 2 }, { 3, 3 }
};

struct spot { enum kind kind; int row, column; };

#endif
