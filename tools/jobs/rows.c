#include "rows.h"
#include "facts.h"

/* A row has a lane for each job whose span meets it, as long as all rows together have at most so many lines. */
enum { LINES_MAX = 120 };

/* The slots from a up to b. */
struct row { unsigned a, b; };

/* All slots if they fit into one row; else 10, 20, 50, 100, 200 and so on, so that rows begin at round numbers. */
static unsigned row_size(const struct sheet *s) {
  static const unsigned steps[] = { 10, 20, 50, 100, 200, 500, 1000, 2000 };
  unsigned slots = s->source->list.slots, room = s->width - s->label_width - 2, size = steps[0];
  if (slots <= room) return slots;
  for (size_t i = 0; i < sizeof steps / sizeof *steps; i++)
    if (steps[i] <= room) size = steps[i];
  return size;
}

static struct row row_from(const struct sheet *s, unsigned a, unsigned size) {
  unsigned slots = s->source->list.slots;
  return (struct row){ a, slots - a < size ? slots : a + size };
}

static int meets(const struct sheet *s, unsigned job, struct row row) {
  const struct job *own = &s->source->list.jobs[job];
  return own->release < row.b && own->deadline > row.a;
}

static int runs(const struct sheet *s, unsigned job, struct row row) { return count_slots(s->source->plan.table, row.a, row.b, (uint8_t)job) > 0; }

static int meets_inside(const struct sheet *s, unsigned job, struct row row) { return job_inside(s->source, job) && meets(s, job, row); }

static int sleeps(const struct sheet *s, struct row row) {
  return count_slots(s->source->plan.table, row.a, row.b, SLEEP_PLAN_ASLEEP) == row.b - row.a;
}

static int is_outside(const struct sheet *s, struct row row) {
  return row.b <= s->source->plan.numbers[FROM] || row.a >= s->source->plan.numbers[UPTO];
}

typedef int row_test(const struct sheet *, struct row);
typedef int lane_test(const struct sheet *, unsigned job, struct row);

/* How many lines it takes to draw the rows that are not skipped. */
static unsigned lines_needed(const struct sheet *s, unsigned size, row_test *skip, lane_test *has_lane) {
  unsigned lines = 0;
  for (unsigned a = 0; a < s->source->list.slots; a += size) {
    struct row row = row_from(s, a, size);
    if (skip(s, row)) continue;
    lines += 3;
    for (unsigned j = 0; j < s->source->list.count; j++) lines += has_lane(s, j, row) != 0;
  }
  return lines;
}

/* Slot numbers, each with its first digit above its own slot. */
static void ruler(const struct sheet *s, struct row row) {
  unsigned step = row.b - row.a <= 25 ? 5 : 10, column = 0;
  char number[12];
  fprintf(s->out, "%-*s  ", (int)s->label_width, "slot");
  for (unsigned t = row.a; t < row.b; t += step) {
    unsigned length = (unsigned)snprintf(number, sizeof number, "%u", t);
    if (t - row.a + length > s->width - s->label_width - 2) break;
    fprintf(s->out, "%*s%s", (int)(t - row.a - column), "", number);
    column = t - row.a + length;
  }
  fputc('\n', s->out);
}

/* A label and a character a slot, without the blanks at the end. */
static void lane(const struct sheet *s, const char *label, const char *cells, struct row row) {
  unsigned count = row.b - row.a;
  while (count && cells[count - 1] == ' ') count--;
  fprintf(s->out, "%-*s  %.*s\n", (int)s->label_width, label, (int)count, cells);
}

static void processor_lane(const struct sheet *s, struct row row) {
  const uint8_t *table = s->source->plan.table;
  char cells[SLEEP_PLAN_TABLE_MAX];
  for (unsigned t = row.a; t < row.b; t++)
    cells[t - row.a] = wakes_at(table, t) ? '^' : table[t] == SLEEP_PLAN_ASLEEP ? '.' : table[t] == SLEEP_PLAN_IDLE ? '=' : '#';
  lane(s, "processor", cells, row);
}

static void overload_lane(const struct sheet *s, struct row row) {
  const uint32_t *interval = s->source->plan.numbers;
  char cells[SLEEP_PLAN_TABLE_MAX];
  for (unsigned t = row.a; t < row.b; t++) cells[t - row.a] = interval[FROM] <= t && t < interval[UPTO] ? '!' : ' ';
  lane(s, "overload", cells, row);
}

static void job_lane(const struct sheet *s, unsigned job, struct row row) {
  const struct source *source = s->source;
  const struct job *own = &source->list.jobs[job];
  char cells[SLEEP_PLAN_TABLE_MAX], label[LABEL_ROOM];
  for (unsigned t = row.a; t < row.b; t++) {
    int here = source->plan.returned == SLEEP_PLAN_PLANNED && source->plan.table[t] == job;
    cells[t - row.a] = here ? '#' : own->release <= t && t < own->deadline ? '-' : ' ';
  }
  job_label(&source->list, job, label);
  lane(s, label, cells, row);
}

static void job_lanes(const struct sheet *s, struct row row, lane_test *has_lane) {
  for (unsigned j = 0; j < s->source->list.count; j++)
    if (has_lane(s, j, row)) job_lane(s, j, row);
  fputc('\n', s->out);
}

void draw_plan_rows(const struct sheet *s) {
  unsigned slots = s->source->list.slots, size = row_size(s);
  lane_test *has_lane = lines_needed(s, size, sleeps, meets) <= LINES_MAX ? meets : runs;
  char text[SPAN_ROOM];
  for (struct row row = { 0, 0 }; row.b < slots;) {
    row = row_from(s, row.b, size);
    if (sleeps(s, row)) {
      while (row.b < slots && sleeps(s, row_from(s, row.b, size))) row.b = row_from(s, row.b, size).b;
      fprintf(s->out, "%-*s  asleep throughout\n\n", (int)s->label_width, span_text(text, row.a, row.b));
    } else {
      ruler(s, row);
      processor_lane(s, row);
      job_lanes(s, row, has_lane);
    }
  }
  fprintf(s->out, "processor: ^ wakes, # busy, = idle, . asleep; job: # runs, - may run\n");
}

void draw_overload_rows(const struct sheet *s) {
  unsigned size = row_size(s);
  if (lines_needed(s, size, is_outside, meets_inside) > LINES_MAX) return;
  for (unsigned a = 0; a < s->source->list.slots; a += size) {
    struct row row = row_from(s, a, size);
    if (is_outside(s, row)) continue;
    ruler(s, row);
    overload_lane(s, row);
    job_lanes(s, row, meets_inside);
  }
  fprintf(s->out, "! overloaded, - a job inside may run\n\n");
}
