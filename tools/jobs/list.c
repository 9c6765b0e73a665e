#include "list.h"
#include <stdio.h>
#include <string.h>

enum { HAS_RELEASE = 1, HAS_DEADLINE = 2, HAS_VOLUME = 4, HEADER = 5 };

static size_t put(uint8_t *bytes, size_t at, unsigned value) {
  bytes[at] = (uint8_t)(value & 255);
  bytes[at + 1] = (uint8_t)(value >> 8);
  return at + 2;
}

static unsigned get(const uint8_t *bytes, size_t at) { return bytes[at] | (unsigned)bytes[at + 1] << 8; }

size_t list_to_bytes(const struct list *list, uint8_t bytes[BYTES_ROOM]) {
  size_t at = put(bytes, put(bytes, 0, list->slots), list->wake);
  bytes[at++] = (uint8_t)list->count;
  for (unsigned j = 0; j < list->count; j++) {
    const struct job *job = &list->jobs[j];
    unsigned map = 0;
    if (job->release != 0) map |= HAS_RELEASE;
    if (job->deadline != list->slots) map |= HAS_DEADLINE;
    if (job->volume != 1) map |= HAS_VOLUME;
    bytes[at++] = (uint8_t)map;
    if (map & HAS_RELEASE) at = put(bytes, at, job->release);
    if (map & HAS_DEADLINE) at = put(bytes, at, job->deadline);
    if (map & HAS_VOLUME) at = put(bytes, at, job->volume);
  }
  return at;
}

static unsigned ones(unsigned map) { return (map & 1) + (map >> 1 & 1) + (map >> 2 & 1); }

void list_from_bytes(const uint8_t *bytes, size_t length, struct list *list) {
  *list = (struct list){ 0 };
  if (length < HEADER) return;
  list->slots = get(bytes, 0);
  list->wake = get(bytes, 2);
  size_t at = HEADER;
  while (list->count < bytes[4] && list->count < JOBS_ROOM && at < length) {
    unsigned map = bytes[at];
    if (length - at < 1 + 2 * ones(map)) return;
    struct job *job = &list->jobs[list->count++];
    *job = (struct job){ .deadline = list->slots, .volume = 1, .origin = (unsigned long)at };
    at++;
    if (map & HAS_RELEASE) { job->release = get(bytes, at); at += 2; }
    if (map & HAS_DEADLINE) { job->deadline = get(bytes, at); at += 2; }
    if (map & HAS_VOLUME) { job->volume = get(bytes, at); at += 2; }
  }
}

void job_label(const struct list *list, unsigned job, char label[LABEL_ROOM]) {
  const char *name = list->jobs[job].name;
  if (*name) snprintf(label, LABEL_ROOM, "%u %s", job, name);
  else snprintf(label, LABEL_ROOM, "job %u", job);
}

unsigned widest_label(const struct list *list) {
  char label[LABEL_ROOM];
  size_t widest = 0;
  for (unsigned j = 0; j < list->count; j++) {
    job_label(list, j, label);
    if (strlen(label) > widest) widest = strlen(label);
  }
  return (unsigned)widest;
}

unsigned long volume_sum(const struct list *list) {
  unsigned long sum = 0;
  for (unsigned j = 0; j < list->count; j++) sum += list->jobs[j].volume;
  return sum;
}
