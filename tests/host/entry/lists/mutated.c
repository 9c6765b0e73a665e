/* Good lists with one to three changes: in their pieces before they are spelled, or in their bytes. */
#include "sources.h"
#include <string.h>

static unsigned *field(struct job *job, unsigned f) { return f == 0 ? &job->r : f == 1 ? &job->d : &job->p; }

static unsigned *any_number(struct list *l) {
  uint32_t x = draw(8);
  if (x == 0) return &l->h;
  if (x == 1) return &l->count;
  if (x == 2 || !l->n) return &l->q;
  return field(&l->job[draw(l->n)], draw(3));
}

static void swap(unsigned *x, unsigned *y) { unsigned was = *x; *x = *y; *y = was; }

static void off_by_one(struct list *l) { unsigned *x = any_number(l); if (one_in(2)) ++*x; else --*x; }

static void boundary_value(struct list *l) { unsigned *x = any_number(l); *x = ONE_OF(0, 1, l->h - 1, l->h, l->h + 1, 65535); }

static void swapped_fields(struct list *l) {
  if (!l->n || one_in(10)) { swap(&l->h, &l->q); return; }
  unsigned f = draw(3), j = draw(l->n);
  if (one_in(2)) swap(field(&l->job[j], f), field(&l->job[j], (f + 1) % 3)); else swap(field(&l->job[j], f), field(&l->job[draw(l->n)], f));
}

static void swapped_jobs(struct list *l) {
  if (l->n < 2) return;
  unsigned i = draw(l->n), j = draw(l->n);
  struct job was = l->job[i];
  l->job[i] = l->job[j]; l->job[j] = was;
}

/* A field that stood is left out, or one that was left out stands with its absent value. */
static void map_bit(struct list *l) { if (l->n) l->job[draw(l->n)].map ^= 1u << draw(3); }

static void other_count(struct list *l) { l->count = one_in(4) ? draw(256) : l->n + between(1, 2) - 3 * draw(2); }

/* The first jobs of one list and the last of another; now and then with the count of only one of them. */
static void spliced_jobs(struct list *l) {
  struct list other;
  good_list(&other);
  unsigned head = draw((l->n < JOBS ? l->n : JOBS) + 1), tail = draw(other.n + 1);
  memcpy(l->job + head, other.job + other.n - tail, tail * sizeof *l->job);
  l->n = head + tail;
  if (one_in(4)) l->count = other.n; else if (!one_in(4)) l->count = l->n;
}

/* Makes a changed list pass the checks again, so that it is planned. */
static void mend(struct list *l) {
  if (l->h < 1 || l->h > MOST_SLOTS) l->h = between(1, 100);
  if (l->n > JOBS) l->n = JOBS;
  for (unsigned j = 0; j < l->n; j++) {
    struct job *job = &l->job[j];
    if (job->d > l->h) job->d = l->h;
    if (job->r >= job->d) job->r = job->d ? job->d - 1 : 0;
    if (!job->d) job->d = 1;
    if (!job->p || job->p > 65535) job->p = 1;
  }
  settle(l);
}

static void (*const in_pieces[])(struct list *) = {
  off_by_one, off_by_one, off_by_one, boundary_value, swapped_fields, swapped_jobs, map_bit, map_bit, other_count, spliced_jobs
};

static size_t bit_flipped(uint8_t *b, size_t len) { if (len) b[draw((uint32_t)len)] ^= (uint8_t)(1u << draw(8)); return len; }

static size_t byte_changed(uint8_t *b, size_t len) { if (len) b[draw((uint32_t)len)] = (uint8_t)draw(one_in(2) ? 256 : 8); return len; }

static size_t many_changed(uint8_t *b, size_t len) {
  for (size_t i = 0; i < len; i++) if (one_in(8)) b[i] = (uint8_t)draw(256);
  return len;
}

static size_t cut_off(uint8_t *b, size_t len) { (void)b; return one_in(2) || len < 8 ? draw((uint32_t)len + 1) : len - between(1, 7); }

static size_t lengthened(uint8_t *b, size_t len) {
  size_t more = one_in(50) ? draw((uint32_t)(LIST_ROOM - len) + 1) : between(1, 8);
  if (more > LIST_ROOM - len) more = LIST_ROOM - len;
  for (size_t i = 0; i < more; i++) b[len + i] = (uint8_t)draw(one_in(2) ? 8 : 256);
  return len + more;
}

static size_t byte_removed(uint8_t *b, size_t len) {
  if (!len) return 0;
  size_t at = draw((uint32_t)len);
  memmove(b + at, b + at + 1, len - at - 1);
  return len - 1;
}

static size_t byte_inserted(uint8_t *b, size_t len) {
  if (len == LIST_ROOM) return len;
  size_t at = draw((uint32_t)len + 1);
  memmove(b + at + 1, b + at, len - at);
  b[at] = (uint8_t)draw(one_in(2) ? 8 : 256);
  return len + 1;
}

/* The first bytes of one list and the last of another. */
static size_t spliced(uint8_t *b, size_t len) {
  struct list other;
  uint8_t more[LIST_ROOM];
  good_list(&other);
  size_t size = spell(&other, more), head = draw((uint32_t)len + 1), tail = draw((uint32_t)size + 1);
  if (head + tail > LIST_ROOM) tail = LIST_ROOM - head;
  memcpy(b + head, more + size - tail, tail);
  return head + tail;
}

static size_t (*const in_bytes[])(uint8_t *, size_t) = {
  bit_flipped, bit_flipped, byte_changed, byte_changed, many_changed, cut_off, lengthened, byte_removed, byte_inserted, spliced
};

size_t mutated_bytes(uint8_t *bytes, uint64_t turn) {
  struct list l;
  unsigned pieces = draw(4), raw = pieces ? draw(2) : between(1, 2);
  (void)turn;
  good_list(&l);
  for (unsigned i = 0; i < pieces; i++) in_pieces[draw(sizeof in_pieces / sizeof *in_pieces)](&l);
  if (pieces && one_in(2)) { mend(&l); raw = 0; } else if (one_in(2)) settle(&l);
  size_t len = spell(&l, bytes);
  for (unsigned i = 0; i < raw; i++) len = in_bytes[draw(sizeof in_bytes / sizeof *in_bytes)](bytes, len);
  return len;
}
