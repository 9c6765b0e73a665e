#include "tables.h"
#include "facts.h"

/* What the slots of a run do, one stretch behind the other, from a column on; a new line where the width is reached. */
static void draw_stretches(const struct sheet *s, unsigned from, unsigned upto, unsigned start) {
  const uint8_t *table = s->source->plan.table;
  char span[SPAN_ROOM], label[LABEL_ROOM], item[LABEL_ROOM + SPAN_ROOM + 4];
  unsigned column = start;
  for (unsigned t = from, next; t < upto; t = next) {
    next = stretch_end(table, t, upto);
    if (table[t] == SLEEP_PLAN_IDLE) snprintf(label, sizeof label, "idle");
    else job_label(&s->source->list, table[t], label);
    unsigned length = (unsigned)snprintf(item, sizeof item, " %s: %s%s", label, span_text(span, t, next), next < upto ? "," : "");
    if (column > start && column + length > s->width) {
      fprintf(s->out, "\n%*s", (int)start, "");
      column = start;
    }
    fputs(item, s->out);
    column += length;
  }
  fputc('\n', s->out);
}

void draw_runs(const struct sheet *s) {
  const uint8_t *table = s->source->plan.table;
  unsigned slots = s->source->list.slots;
  char span[SPAN_ROOM];
  fprintf(s->out, "run         awake  idle  slept  what it does\n");
  for (unsigned a = 0, b, slept = 0; a < slots; a = b) {
    b = phase_end(table, a, slots);
    if (table[a] == SLEEP_PLAN_ASLEEP) {
      slept = b - a;
    } else {
      unsigned idle = count_slots(table, a, b, SLEEP_PLAN_IDLE);
      int column = fprintf(s->out, "%-10s  %5u %5u  %5u ", span_text(span, a, b), b - a, idle, slept);
      draw_stretches(s, a, b, (unsigned)column);
    }
  }
}

void draw_jobs(const struct sheet *s) {
  const uint8_t *table = s->source->plan.table;
  const struct list *list = &s->source->list;
  char span[SPAN_ROOM], label[LABEL_ROOM];
  fprintf(s->out, "%-*s  span        volume  first   done  spare  pieces\n", (int)s->label_width, "job");
  for (unsigned j = 0; j < list->count; j++) {
    const struct job *job = &list->jobs[j];
    unsigned first = 0, done = 0, pieces = 0;
    for (unsigned t = job->release, next; t < job->deadline; t = next) {
      next = stretch_end(table, t, job->deadline);
      if (table[t] != j) continue;
      if (!pieces++) first = t;
      done = next;
    }
    job_label(list, j, label);
    fprintf(s->out, "%-*s  %-10s  %6u  %5u  %5u  %5u  %6u\n", (int)s->label_width, label, span_text(span, job->release, job->deadline), job->volume,
            first, done, job->deadline - done, pieces);
  }
}

void draw_inside(const struct sheet *s) {
  const struct list *list = &s->source->list;
  char span[SPAN_ROOM], label[LABEL_ROOM];
  fprintf(s->out, "%-*s  span        volume\n", (int)s->label_width, "inside");
  for (unsigned j = 0; j < list->count; j++) {
    const struct job *job = &list->jobs[j];
    if (!job_inside(s->source, j)) continue;
    job_label(list, j, label);
    fprintf(s->out, "%-*s  %-10s  %6u\n", (int)s->label_width, label, span_text(span, job->release, job->deadline), job->volume);
  }
}
