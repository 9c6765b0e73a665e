#include "timeline.h"
#include "facts.h"
#include "rows.h"
#include "tables.h"

/* Room for "processor" and for the longest span. */
enum { LABEL_WIDTH_MIN = 10 };

static void draw_plan(const struct sheet *s) {
  char fact[FACT_ROOM];
  fact_energy(s->source, fact);
  fprintf(s->out, "%s\n", fact);
  fact_slots(s->source, fact);
  fprintf(s->out, "%s\n\n", fact);
  draw_plan_rows(s);
  if (s->source->list.count == 0) return;
  fputc('\n', s->out);
  draw_runs(s);
  fputc('\n', s->out);
  draw_jobs(s);
}

static void draw_overload(const struct sheet *s) {
  char fact[FACT_ROOM];
  fact_overload(s->source, fact);
  fprintf(s->out, "%s\nno plan exists\n\n", fact);
  draw_overload_rows(s);
  draw_inside(s);
}

void draw_timeline(FILE *out, const struct source *source, unsigned width) {
  unsigned widest = widest_label(&source->list);
  struct sheet sheet = { out, source, width, widest > LABEL_WIDTH_MIN ? widest : LABEL_WIDTH_MIN };
  char fact[FACT_ROOM];
  fact_list(&source->list, fact);
  fprintf(out, "%s\n", fact);
  if (source->plan.returned == SLEEP_PLAN_PLANNED) draw_plan(&sheet);
  else draw_overload(&sheet);
}
