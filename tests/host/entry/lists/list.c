#include "list.h"

unsigned map_of(unsigned h, const struct job *job) {
  return (job->r != 0 ? RELEASE : 0) | (job->d != h ? DEADLINE : 0) | (job->p != 1 ? VOLUME : 0);
}

void settle(struct list *l) {
  l->count = l->n;
  for (unsigned j = 0; j < l->n; j++) l->job[j].map = map_of(l->h, &l->job[j]);
}

static uint8_t *put(uint8_t *at, unsigned x) { *at++ = (uint8_t)x; *at++ = (uint8_t)(x >> 8); return at; }

size_t spell(const struct list *l, uint8_t *bytes) {
  uint8_t *at = put(put(bytes, l->h), l->q);
  *at++ = (uint8_t)l->count;
  for (const struct job *job = l->job; job < l->job + l->n; job++) {
    *at++ = (uint8_t)job->map;
    if (job->map & RELEASE) at = put(at, job->r);
    if (job->map & DEADLINE) at = put(at, job->d);
    if (job->map & VOLUME) at = put(at, job->p);
  }
  return (size_t)(at - bytes);
}
