#include "refusal.h"
#include <stdio.h>

/* The rule that was broken. */
static const char *rule(uint32_t number, uint32_t place) {
  switch (number) {
  case SLEEP_PLAN_TRUNCATED: return "they end inside the header, a map byte or a field";
  case SLEEP_PLAN_OUT_OF_RANGE: return place ? "a list has at most 64 jobs" : "a list has 1 to 4096 slots";
  case SLEEP_PLAN_UNKNOWN_BIT: return "of its bits only 0, 1 and 2 may stand";
  case SLEEP_PLAN_REDUNDANT: return "a release of 0, a deadline equal to the number of slots and a volume of 1 are left out";
  case SLEEP_PLAN_PAST_HORIZON: return "a deadline is at most the number of slots";
  case SLEEP_PLAN_EMPTY_SPAN: return "a release is below its deadline";
  case SLEEP_PLAN_NO_VOLUME: return "a volume is at least 1";
  case SLEEP_PLAN_LEFT_OVER: return "the last job ends before it";
  default: return "this tool has no words for the reason";
  }
}

/* How many jobs begin before an offset in the bytes. */
static unsigned jobs_before(const struct list *list, uint32_t offset) {
  unsigned count = 0;
  while (count < list->count && list->jobs[count].origin < offset) count++;
  return count;
}

/* Whose field begins at an offset, which one it is, and what it holds. */
static void tell_field(const struct list *list, const uint8_t *bytes, uint32_t offset) {
  static const char *const names[] = { "release", "deadline", "volume" };
  unsigned job = jobs_before(list, offset) - 1, map = bytes[list->jobs[job].origin], field = 0;
  for (unsigned long at = list->jobs[job].origin + 1; !(map >> field & 1) || at < offset; field++)
    if (map >> field & 1) at += 2;
  fprintf(stderr, "the %s of job %u, at offset %lu, is %u", names[field], job, (unsigned long)offset, bytes[offset] | bytes[offset + 1] << 8);
}

/* What the planner found at the place it names. */
static void tell_found(const struct source *s) {
  uint32_t place = s->plan.numbers[PLACE];
  struct list as_bytes; /* its jobs know their offsets */
  char label[LABEL_ROOM];
  list_from_bytes(s->bytes, s->length, &as_bytes);
  switch (s->plan.returned) {
  case SLEEP_PLAN_TRUNCATED:
    fprintf(stderr, "the list has %lu bytes", (unsigned long)s->length);
    break;
  case SLEEP_PLAN_OUT_OF_RANGE:
    if (!place) fprintf(stderr, "%u slots", s->list.slots);
    else if (s->form == TEXT) fprintf(stderr, "job %d is one too many", SLEEP_PLAN_JOBS_MAX);
    else fprintf(stderr, "the count of jobs, at offset 4, is %u", s->bytes[4]);
    break;
  case SLEEP_PLAN_UNKNOWN_BIT:
    fprintf(stderr, "the map byte of job %u, at offset %lu, is %02X hex", jobs_before(&as_bytes, place), (unsigned long)place, s->bytes[place]);
    break;
  case SLEEP_PLAN_REDUNDANT:
    tell_field(&as_bytes, s->bytes, place);
    break;
  case SLEEP_PLAN_PAST_HORIZON:
    job_label(&s->list, place, label);
    fprintf(stderr, "the deadline of %s is %u in %u slots", label, s->list.jobs[place].deadline, s->list.slots);
    break;
  case SLEEP_PLAN_EMPTY_SPAN:
    job_label(&s->list, place, label);
    fprintf(stderr, "the span of %s is %u..%u", label, s->list.jobs[place].release, s->list.jobs[place].deadline);
    break;
  case SLEEP_PLAN_NO_VOLUME:
    job_label(&s->list, place, label);
    fprintf(stderr, "the volume of %s is %u", label, s->list.jobs[place].volume);
    break;
  case SLEEP_PLAN_LEFT_OVER:
    fprintf(stderr, "the byte at offset %lu is %02X hex", (unsigned long)place, s->bytes[place]);
    break;
  default:
    fprintf(stderr, "the list");
  }
}

/* The line that the place stands for: of the slots, of the first job that is too many, of the job that is named. */
static unsigned long line_of(const struct source *s) {
  uint32_t place = s->plan.numbers[PLACE];
  switch (s->plan.returned) {
  case SLEEP_PLAN_PAST_HORIZON: case SLEEP_PLAN_EMPTY_SPAN: case SLEEP_PLAN_NO_VOLUME: return s->list.jobs[place].origin;
  default: return place ? s->list.jobs[SLEEP_PLAN_JOBS_MAX].origin : s->list.slots_line;
  }
}

void tell_refusal(const struct source *s) {
  uint32_t number = s->plan.returned, place = s->plan.numbers[PLACE];
  fprintf(stderr, "%s:", s->file);
  if (s->form == TEXT) fprintf(stderr, "%lu:", line_of(s));
  fputc(' ', stderr);
  tell_found(s);
  fprintf(stderr, "; %s (refused %lu at %lu)\n", rule(number, place), (unsigned long)number, (unsigned long)place);
}
