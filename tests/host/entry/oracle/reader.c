#include "reader.h"

static unsigned word(const uint8_t *p) { return p[0] | (unsigned)p[1] << 8; }

static struct reading refuse(uint32_t number, size_t place, enum kind kind, unsigned row, unsigned column) {
  return (struct reading){ number, (uint32_t)place, { kind, (int)row, (int)column } };
}

static const struct reading read_well;

static struct reading read_job(const uint8_t *bytes, size_t len, size_t *at, unsigned number, struct list *l) {
  size_t start = *at, used = 1, field_at[3];
  unsigned absent[3] = { 0, l->h, 1 }, value[3];
  if (start == len) return refuse(11, len, JOB_CUT, number, 0);
  unsigned map = bytes[start];
  for (unsigned bit = 3; bit < 8; bit++) if (map >> bit & 1) return refuse(13, start, UNKNOWN_BIT, number, bit - 3);
  for (int f = 0; f < 3; f++) if (map >> f & 1) { field_at[f] = start + used; used += 2; }
  if (len - start < used) return refuse(11, len, JOB_CUT, number, (unsigned)(used - (len - start)));
  for (int f = 0; f < 3; f++) value[f] = map >> f & 1 ? word(bytes + field_at[f]) : absent[f];
  for (unsigned f = 0; f < 3; f++) if (map >> f & 1 && value[f] == absent[f]) return refuse(14, field_at[f], REDUNDANT, number, f);
  unsigned r = value[0], d = value[1], p = value[2];
  /* 02, card 1: "For each job the order is 25, 15, 26" */
  unsigned empty = r >= d, none = p == 0;
  if (d > l->h) return refuse(25, number, PAST_HORIZON, number, (d > l->h + 1) + 2 * empty + 4 * none);
  if (empty) return refuse(15, number, EMPTY_SPAN, number, (r > d) + 2 * none);
  if (none) return refuse(26, number, NO_VOLUME, number, 0);
  l->job[number] = (struct job){ r, d, p, map };
  *at = start + used;
  return read_well;
}

struct reading read_list(const uint8_t *bytes, size_t len, struct list *l) {
  if (len < 5) return refuse(11, len, HEADER_CUT, 0, (unsigned)len);
  l->h = word(bytes); l->q = word(bytes + 2); l->count = l->n = bytes[4];
  if (l->h < 1 || l->h > 4096) return refuse(12, 0, RANGE, 0, l->h == 0 ? 0 : l->h == 4097 ? 1 : 2);
  if (l->n > 64) return refuse(12, 4, RANGE, 0, l->n == 65 ? 3 : 4);
  size_t at = 5;
  for (unsigned j = 0; j < l->n; j++) {
    struct reading r = read_job(bytes, len, &at, j, l);
    if (r.number) return r;
  }
  if (at < len) return refuse(16, at, LEFT_OVER, l->n, len - at > 1);
  return read_well;
}
