/* Lists spelled production by production: header, then map and fields of each job, with numbers at the edges of what is allowed. In two of
 * three lists one production is damaged, at a place that is taken in turn from all places where a reader can refuse (places.h). What
 * stands behind the damage must not matter, so it is often damaged too. */
#include "places.h"
#include "sources.h"

/* The place of the damage; PLANNED for none. */
static struct spot target(uint64_t turn) {
  int all = 0, k = HEADER_CUT;
  for (int i = HEADER_CUT; i <= LEFT_OVER; i++) all += places[i].rows * places[i].columns;
  if (one_in(3)) return (struct spot){ PLANNED, 0, 0 };
  int left = (int)(turn % (uint64_t)all);
  while (left >= places[k].rows * places[k].columns) { left -= places[k].rows * places[k].columns; k++; }
  return (struct spot){ (enum kind)k, left / places[k].columns, left % places[k].columns };
}

static unsigned horizon(void) { return ONE_OF(1, 2, 3, 4095, MOST_SLOTS, between(2, 64), between(2, 64), between(2, 64), between(1, MOST_SLOTS)); }

static unsigned any_field(unsigned h) { return ONE_OF(0, 1, 2, h - 1, h, h + 1, 65535, draw(h + 1), draw(65536)); }

static struct job any_job(unsigned h) { return (struct job){ any_field(h), any_field(h), any_field(h), draw(8) }; }

static struct job good_job(unsigned h) {
  struct job job = { ONE_OF(0, 0, 1, h - 1, h / 2, draw(h)), ONE_OF(h, h, 1, h - 1, h / 2 + 1, between(1, h)), 1, 0 };
  if (job.r >= h) job.r = h - 1;
  if (job.d <= job.r) job.d = one_in(2) ? h : job.r + 1;
  if (one_in(4)) job.p = ONE_OF(2, 2, 3, job.d - job.r, job.d - job.r + 1, h, h + 1, 65535);
  job.map = map_of(h, &job);
  return job;
}

/* The bytes end within the entry or before it: any map that leaves `missing` bytes to come. */
static struct job cut_job(unsigned h, unsigned missing, size_t *kept) {
  struct job job = any_job(h);
  unsigned size;
  do {
    job.map = draw(8);
    size = 1 + 2 * ((job.map & 1) + (job.map >> 1 & 1) + (job.map >> 2));
  } while (size <= missing);
  *kept = missing ? size - missing : 0;
  return job;
}

/* One field stands with its absent value, those before it do not; the rest is free. */
static struct job redundant_job(unsigned h, int column) {
  struct job job = any_job(h);
  job.map |= 1u << column;
  if (column > 0 && job.r == 0) job.r = 1;
  if (column > 1 && job.d == h) job.d = h + 1;
  if (column == 0) job.r = 0; else if (column == 1) job.d = h; else job.p = 1;
  return job;
}

/* The deadline is above H; by the column just so or not, with a span that is empty or not, with a volume or not. */
static struct job past_horizon_job(unsigned h, int column) {
  struct job job = good_job(h);
  job.d = column & 1 ? ONE_OF(h + 2, 65535, between(h + 2, 65535)) : h + 1;
  job.r = column & 2 ? ONE_OF(job.d, 65535, between(job.d, 65535)) : ONE_OF(0, 1, h - 1, h, draw(h));
  if (column & 4) job.p = 0;
  job.map = map_of(h, &job);
  return job;
}

/* The deadline is at most H, and the release is it or, by the column, above it; with a volume or not. */
static struct job empty_span_job(unsigned h, int column) {
  struct job job = good_job(h);
  job.d = ONE_OF(0, 1, h - 1, h, draw(h + 1));
  job.r = column & 1 ? ONE_OF(job.d + 1, h + 1, 65535, between(job.d + 1, 65535)) : job.d;
  if (column & 2) job.p = 0;
  job.map = map_of(h, &job);
  return job;
}

static struct job no_volume_job(unsigned h) {
  struct job job = good_job(h);
  job.p = 0;
  job.map = map_of(h, &job);
  return job;
}

static size_t more(uint8_t *bytes, size_t len, size_t count) {
  for (size_t i = 0; i < count; i++) bytes[len + i] = (uint8_t)draw(one_in(2) ? 8 : 256);
  return len + count;
}

static size_t healthy(struct list *l, uint8_t *bytes) {
  for (unsigned j = 0; j < l->n; j++) l->job[j] = good_job(l->h);
  l->count = l->n;
  return spell(l, bytes);
}

static size_t out_of_range(struct list *l, int column, uint8_t *bytes) {
  size_t len = healthy(l, bytes);
  if (column >= 3) l->count = column == 3 ? 65 : ONE_OF(66, 255, between(66, 255));
  else if (one_in(3)) l->count = draw(256);
  if (column < 3) l->h = column == 0 ? 0 : column == 1 ? 4097 : ONE_OF(4098, 65535, between(4098, 65535));
  spell(l, bytes);
  return one_in(4) ? 5 : len;
}

static size_t damaged_job(struct list *l, struct spot at, uint8_t *bytes) {
  struct job *job = &l->job[at.row];
  size_t kept = 0;
  l->n = (unsigned)at.row;
  size_t before = healthy(l, bytes);
  l->n = l->count = one_in(3) ? between((unsigned)at.row + 1, JOBS) : (unsigned)at.row + 1;
  for (unsigned j = (unsigned)at.row + 1; j < l->n; j++) { l->job[j] = any_job(l->h); if (one_in(4)) l->job[j].map = draw(256); }
  switch (at.kind) {
  case JOB_CUT: *job = cut_job(l->h, (unsigned)at.column, &kept); break;
  case UNKNOWN_BIT: *job = any_job(l->h); job->map |= (8u | draw(32) << 4) << at.column & 255; break;
  case REDUNDANT: *job = redundant_job(l->h, at.column); break;
  case PAST_HORIZON: *job = past_horizon_job(l->h, at.column); break;
  case EMPTY_SPAN: *job = empty_span_job(l->h, at.column); break;
  default: *job = no_volume_job(l->h);
  }
  size_t len = spell(l, bytes);
  if (at.kind == JOB_CUT) return before + kept;
  return one_in(8) ? more(bytes, len, between(1, 9)) : len;
}

size_t grammar_bytes(uint8_t *bytes, uint64_t turn) {
  struct list l = { .h = horizon(), .q = ONE_OF(0, 1, 2, 3, 65534, 65535, draw(65536)) };
  struct spot at = target(turn);
  l.n = at.kind == LEFT_OVER ? (unsigned)at.row : one_in(8) ? ONE_OF(JOBS - 1, JOBS, draw(JOBS + 1)) : draw(7);
  switch (at.kind) {
  case HEADER_CUT: healthy(&l, bytes); return (size_t)at.column;
  case RANGE: return out_of_range(&l, at.column, bytes);
  case LEFT_OVER: return more(bytes, healthy(&l, bytes), at.column == 0 ? 1 : one_in(20) ? between(2, 2000) : between(2, 9));
  case PLANNED: return healthy(&l, bytes);
  default: return damaged_job(&l, at, bytes);
  }
}
