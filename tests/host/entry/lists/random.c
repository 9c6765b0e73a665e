/* Random lists by size, shape of the spans and load; and random bytes. */
#include "sources.h"

static unsigned least(unsigned x, unsigned y) { return x < y ? x : y; }

static unsigned wake_cost(unsigned h) {
  switch (draw(8)) {
  case 0: return 0;
  case 1: return 65535;
  case 2: return draw(65536);
  case 3: return draw(h + 1);
  default: return draw(8);
  }
}

/* Large horizons take most of the time, so they are fewer. */
static void size(struct list *l) {
  uint32_t x = draw(100);
  if (x < 20) { l->h = between(1, 8); l->n = draw(5); }
  else if (x < 50) { l->h = between(1, 24); l->n = draw(9); }
  else if (x < 75) { l->h = between(1, 200); l->n = draw(one_in(2) ? 9 : JOBS + 1); }
  else if (x < 88) { l->h = between(200, 1000); l->n = draw(JOBS + 1); }
  else { l->h = one_in(3) ? MOST_SLOTS : between(1000, MOST_SLOTS); l->n = one_in(2) ? JOBS : draw(JOBS + 1); }
}

static void span(struct job *job, unsigned r, unsigned d) { job->r = r; job->d = d; }

static void free_span(struct job *job, unsigned h) {
  unsigned r = draw(h), room = h - r;
  span(job, r, r + between(1, one_in(3) ? room : least(room, 1 + h / 4)));
  if (one_in(8)) job->r = 0;
  if (one_in(8)) job->d = h;
}

static void free_spans(struct list *l) { for (unsigned j = 0; j < l->n; j++) free_span(&l->job[j], l->h); }

/* One to three spans, each had by many. */
static void equal_spans(struct list *l) {
  struct job of[3];
  unsigned kinds = between(1, 3);
  for (unsigned k = 0; k < kinds; k++) free_span(&of[k], l->h);
  for (unsigned j = 0; j < l->n; j++) l->job[j] = of[draw(kinds)];
}

/* One to three deadlines, each had by many, whose releases differ: a lower number often comes when a higher one is under way. */
static void equal_deadlines(struct list *l) {
  unsigned of[3], kinds = between(1, 3);
  for (unsigned k = 0; k < kinds; k++) of[k] = between(1, l->h);
  for (unsigned j = 0; j < l->n; j++) { unsigned d = of[draw(kinds)]; span(&l->job[j], draw(d), d); }
}

/* Each inside the one before, some with the same start or end. */
static void nested_spans(struct list *l) {
  unsigned r = 0, d = l->h;
  for (unsigned j = 0; j < l->n; j++) {
    span(&l->job[j], r, d);
    unsigned room = (d - r) / (1 + draw(2 * l->n));
    unsigned in = draw(room + 1), out = draw(room + 1);
    if (in + out < d - r) { r += one_in(3) ? 0 : in; d -= one_in(3) ? 0 : out; }
  }
}

/* At the edges of the horizon, or a slot away from them. */
static void edge_spans(struct list *l) {
  for (unsigned j = 0; j < l->n; j++) {
    unsigned at = draw(3), start = at == 0 ? draw(l->h) : least(draw(3), l->h - 1), end = at == 1 ? draw(l->h) : l->h - least(draw(3), l->h - 1);
    span(&l->job[j], least(start, l->h - 1), end);
    if (end <= l->job[j].r) l->job[j].d = l->job[j].r + 1;
  }
}

/* One behind the other, so near that windows overlap, touch or just miss each other, or as far apart as a wake costs. */
static void chained_spans(struct list *l) {
  unsigned longest = 1 + l->h / (l->n + 1), r = draw(least(l->h, 4));
  for (unsigned j = 0; j < l->n; j++) {
    unsigned d = r + between(1, longest);
    if (d > l->h) { free_span(&l->job[j], l->h); continue; }
    span(&l->job[j], r, d);
    unsigned gap = one_in(3) ? least(l->q, l->h) + draw(3) : draw(5);
    r = d + gap > 1 ? d + gap - 1 : 0;
    if (r >= l->h) r = draw(l->h);
  }
}

/* Each a step later than the one before and reaching over several others, so that units are handed on far. */
static void staggered_spans(struct list *l) {
  unsigned step = l->h / (l->n + 1) + draw(2), length = 2 + step + draw(one_in(2) ? step + 2 : 3 * step + 1);
  for (unsigned j = 0; j < l->n; j++) {
    unsigned r = least(j * step, l->h - 1);
    span(&l->job[j], r, least(r + length, l->h));
  }
}

/* One to three slots long. */
static void short_spans(struct list *l) {
  for (unsigned j = 0; j < l->n; j++) { unsigned r = draw(l->h); span(&l->job[j], r, r + between(1, least(3, l->h - r))); }
}

static void (*const spans[])(struct list *) = {
  free_spans, free_spans, equal_spans, equal_deadlines, nested_spans, edge_spans, chained_spans, staggered_spans, short_spans
};

static void shuffle(struct list *l) {
  for (unsigned j = l->n; j > 1; j--) {
    struct job was = l->job[j - 1], *other = &l->job[draw(j)];
    l->job[j - 1] = *other; *other = was;
  }
}

/* Volumes from a drawn schedule in which about `load` of 100 slots work; a job that gets no slot there has 1, which may overload. */
static void volumes(struct list *l, unsigned load) {
  for (unsigned j = 0; j < l->n; j++) l->job[j].p = 0;
  for (unsigned t = 0; l->n && t < l->h; t++) {
    if (draw(100) >= load) continue;
    unsigned from = draw(l->n);
    for (unsigned k = 0; k < l->n; k++) {
      struct job *job = &l->job[(from + k) % l->n];
      if (job->r <= t && t < job->d) { job->p++; break; }
    }
  }
  for (unsigned j = 0; j < l->n; j++) if (!l->job[j].p) l->job[j].p = 1;
}

/* A job goes on over slots that sleep in step 4, in place of a lower number of its deadline that was released meanwhile; hardly any other list does
 * that. Three jobs of one unit, too far apart for one run, make the skeleton: the slots x + 1, e and z. Slot x and those from x + 2 up are woken, until
 * `gap` of them are left before e; then z - 1 is. The long job runs wherever none of the three does, in e for the last time, and the lower number
 * in z. The gap is idle in the table if it is shorter than q. */
static void parted_list(struct list *l) {
  unsigned q = one_in(8) ? draw(900) : draw(6), x = one_in(4) ? draw(900) : draw(4), gap = between(1, one_in(4) ? 2 * q + 1 : 4);
  unsigned m = x + 3 + q + draw(3), e = m + 2 + gap + draw(3), f = e + 2 + q + draw(3), z = f + 1 + draw(3), d = z + between(1, 3);
  const struct job low = { between(m + 2, e), d, 1, 0 }, high = { x, d, e - 1 - gap - x, 0 };
  const struct job all[] = { { x, x + 1, 1, 0 }, { m, e, 1, 0 }, { f, z, 1, 0 }, low, high };
  l->h = d + draw(3); l->q = q; l->n = sizeof all / sizeof *all;
  for (unsigned j = 0; j < l->n; j++) l->job[j] = all[j];
  shuffle(l);
  for (unsigned j = 0, met = 0; j < l->n; j++) if (l->job[j].d == d) l->job[j] = met++ ? high : low;
  settle(l);
}

void good_list(struct list *l) {
  if (one_in(24)) { parted_list(l); return; }
  size(l);
  l->q = wake_cost(l->h);
  spans[draw(sizeof spans / sizeof *spans)](l);
  if (one_in(2)) shuffle(l);
  switch (draw(4)) {
  case 0: volumes(l, 0); break;
  case 1: volumes(l, 100); break;
  default: volumes(l, draw(101));
  }
  if (l->n && one_in(8)) { struct job *job = &l->job[draw(l->n)]; job->p += between(1, 2); }
  if (l->n && one_in(40)) l->job[draw(l->n)].p = one_in(2) ? 65535 : between(1, 65535);
  settle(l);
}

/* Bytes with no thought of a list, or with a header and bytes that are small enough to mean something. */
static size_t any_bytes(uint8_t *bytes) {
  size_t len = one_in(50) ? draw(LIST_ROOM + 1) : draw(one_in(4) ? 500 : 40);
  unsigned most = ONE_OF(256, 256, 9, 5, 3);
  for (size_t i = 0; i < len; i++) bytes[i] = (uint8_t)draw(most);
  if (len >= 5 && !one_in(4)) {
    unsigned h = between(1, ONE_OF(4, 8, 24, MOST_SLOTS));
    bytes[0] = (uint8_t)h; bytes[1] = (uint8_t)(h >> 8); bytes[4] = (uint8_t)draw(ONE_OF(3, 6, JOBS + 1));
    for (size_t i = 5; i < len; i++) if (one_in(3)) bytes[i] = 0;
  }
  return len;
}

size_t random_bytes(uint8_t *bytes, uint64_t turn) {
  struct list l;
  (void)turn;
  if (one_in(5)) return any_bytes(bytes);
  good_list(&l);
  return spell(&l, bytes);
}
