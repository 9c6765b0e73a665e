#include "svg.h"
#include "facts.h"
#include "picture.h"
#include <string.h>

/* Sizes from above: the heading, then each band with its axis, the processor's lane and the lanes of the jobs. */
enum { HEADING = 106, LEGEND = 86, AXIS = 34, PROCESSOR = 24, LANE = 16, BAND_GAP = 22 };

/* Names are chosen freely, so their letters have to be of one width, that the volumes behind them stay clear. */
#define LABEL_FONT " class=\"label\" font-family=\"monospace\""

/* Sizes from the left. A letter's width is a guess at what fonts have, on the wide side. */
enum { MARGIN = 16, LETTER = 8, PROCESSOR_LETTERS = 9, VOLUME_COLUMN = 60, PICTURE_LEAST = 700, NUMBER_APART = 40 };

/* A band has up to so many slots and pixels; few slots have up to so many pixels each. */
enum { BAND_SLOTS = 1024, BAND_WIDTH = 1024, SLOT_WIDEST = 40 };

/* The processor is tall when busy, half as tall when idle, a line when asleep. */
static const struct bar BUSY = { "busy", BLUE, "busy", 0, 18 };
static const struct bar IDLE = { "idle", ORANGE, "idle", 9, 9 };
static const struct bar ASLEEP = { "asleep", DARK_GREY, "asleep", 16, 2 };
static const struct bar SPAN = { "span", GREY, "may run in", 6, 4 };
static const struct bar SPAN_INSIDE = { "span", RED, "may run in", 6, 4 };
static const struct bar RUN = { "run", BLUE, "runs in", 2, 12 };

static const struct bar *state(uint8_t byte) { return byte == SLEEP_PLAN_ASLEEP ? &ASLEEP : byte == SLEEP_PLAN_IDLE ? &IDLE : &BUSY; }

static void processor_lane(const struct picture *p, const struct band *band, unsigned y) {
  const uint8_t *table = p->source->plan.table;
  for (unsigned t = band->from, next; t < band->upto; t = next) {
    next = t + 1;
    while (next < band->upto && state(table[next]) == state(table[t])) next++;
    put_bar(p, band, state(table[t]), "processor", t, next, y);
  }
}

static int inside(const struct picture *p, unsigned job) { return !p->planned && job_inside(p->source, job); }

static void job_lane(const struct picture *p, const struct band *band, unsigned job, unsigned y) {
  const struct list *list = &p->source->list;
  const uint8_t *table = p->source->plan.table;
  char label[LABEL_ROOM];
  job_label(list, job, label);
  put_bar(p, band, inside(p, job) ? &SPAN_INSIDE : &SPAN, label, list->jobs[job].release, list->jobs[job].deadline, y);
  for (unsigned t = band->from, next; p->planned && t < band->upto; t = next) {
    next = stretch_end(table, t, band->upto);
    if (table[t] == job) put_bar(p, band, &RUN, label, t, next, y);
  }
}

static void overload(const struct picture *p, const struct band *band, unsigned height) {
  const struct bar shade = { "overload", PALE_RED, "have too few slots in", 0, height };
  unsigned a = p->source->plan.numbers[FROM], b = p->source->plan.numbers[UPTO];
  if (a < band->upto && b > band->from) put_bar(p, band, &shade, "the jobs", a, b, band->top);
}

static int has_lane(const struct picture *p, const struct band *band, unsigned job) {
  return p->source->list.jobs[job].release < band->upto && p->source->list.jobs[job].deadline > band->from;
}

static unsigned band_height(const struct picture *p, const struct band *band) {
  unsigned height = AXIS + (p->planned ? PROCESSOR : 0);
  for (unsigned j = 0; j < p->source->list.count; j++)
    if (has_lane(p, band, j)) height += LANE;
  return height;
}

static int apart(const struct picture *p, unsigned slots) { return slots * p->slot_width >= 1000u * NUMBER_APART; }

/* Lines at both ends of the band and at round numbers. A number is left out where it would run into that of an end. */
static void axis(const struct picture *p, const struct band *band) {
  unsigned step = 1, bottom = band->top + band_height(p, band);
  for (unsigned i = 0; !apart(p, step); i++) step = step * (i % 3 == 1 ? 5 : 4) / 2; /* 1, 2, 5, 10, 20, 50, .. */
  for (unsigned t = band->from; t <= band->upto; t++) {
    int end = t == band->from || t == band->upto;
    if (end || t % step == 0) put_line(p, band, t, band->top + 14, bottom);
    if (end || (t % step == 0 && apart(p, t - band->from) && apart(p, band->upto - t))) put_number(p, band, t, band->top + 10);
  }
}

/* The label and the volume of a job, on a stripe if it is to be told from its neighbours. */
static void lane_label(const struct picture *p, unsigned job, unsigned y, int striped) {
  char text[LABEL_ROOM];
  if (striped) put_box(p, PALE_GREY, MARGIN / 2, y, p->width - MARGIN, LANE);
  job_label(&p->source->list, job, text);
  put_text(p, MARGIN, y + 12, inside(p, job) ? LABEL_FONT " font-weight=\"bold\"" : LABEL_FONT, text);
  snprintf(text, sizeof text, "%u", p->source->list.jobs[job].volume);
  put_text(p, p->left - 12, y + 12, " text-anchor=\"end\"", text);
}

static void draw_labels(const struct picture *p, const struct band *band) {
  const struct list *list = &p->source->list;
  unsigned y = band->top + AXIS;
  if (p->planned) {
    put_text(p, MARGIN, y + 14, "", "processor");
    y += PROCESSOR;
  }
  if (list->count) put_text(p, p->left - 12, band->top + 26, " text-anchor=\"end\" fill=\"#666666\"", "volume");
  for (unsigned j = 0, striped = 1; j < list->count; j++) {
    if (!has_lane(p, band, j)) continue;
    lane_label(p, j, y, (int)striped);
    striped = !striped;
    y += LANE;
  }
}

static void draw_bars(const struct picture *p, const struct band *band) {
  unsigned y = band->top + AXIS;
  begin_bars(p, band);
  if (p->planned) {
    processor_lane(p, band, y);
    y += PROCESSOR;
  } else {
    overload(p, band, band_height(p, band));
  }
  for (unsigned j = 0; j < p->source->list.count; j++) {
    if (!has_lane(p, band, j)) continue;
    job_lane(p, band, j, y);
    y += LANE;
  }
  end_bars(p);
  for (unsigned t = band->from; p->planned && t < band->upto; t++)
    if (wakes_at(p->source->plan.table, t)) put_wake(p, band, t, band->top + AXIS - 1);
}

/* A bar and its meaning; gives where the next one begins. */
static unsigned legend(const struct picture *p, unsigned x, const char *paint, unsigned height, const char *meaning) {
  put_box(p, paint, x, LEGEND - 4 - height / 2, 16, height);
  put_text(p, x + 21, LEGEND, "", meaning);
  return x + 21 + LETTER * (unsigned)strlen(meaning) + 8;
}

static void plan_heading(const struct picture *p) {
  char fact[FACT_ROOM];
  unsigned x = MARGIN;
  fact_energy(p->source, fact);
  put_text(p, MARGIN, 26, " font-size=\"15\" font-weight=\"bold\"", fact);
  fact_slots(p->source, fact);
  put_text(p, MARGIN, 63, "", fact);
  x = legend(p, x, BLUE, 12, "busy, job runs");
  x = legend(p, x, ORANGE, 9, "awake and idle");
  x = legend(p, x, DARK_GREY, 2, "asleep");
  x = legend(p, x, GREY, 4, "job may run");
  fprintf(p->out, "<path " RED " d=\"M%u %dl-4 -8h8z\"/>\n", x + 6, LEGEND);
  put_text(p, x + 16, LEGEND, "", "wakes");
}

static void overload_heading(const struct picture *p) {
  char fact[FACT_ROOM];
  unsigned x = MARGIN;
  fact_overload(p->source, fact);
  put_text(p, MARGIN, 26, " font-size=\"15\" font-weight=\"bold\"", fact);
  put_text(p, MARGIN, 63, "", "no plan exists");
  x = legend(p, x, PALE_RED, 12, "overloaded slots");
  x = legend(p, x, RED, 4, "job inside may run");
  legend(p, x, GREY, 4, "other job may run");
}

static struct band band_of(const struct picture *p, unsigned number, unsigned top) {
  unsigned slots = p->source->list.slots, from = number * p->band_slots;
  return (struct band){ from, slots - from < p->band_slots ? slots : from + p->band_slots, top };
}

static unsigned greater(unsigned a, unsigned b) { return a > b ? a : b; }

static void lay_out(struct picture *p) {
  const struct list *list = &p->source->list;
  p->bands = (list->slots + BAND_SLOTS - 1) / BAND_SLOTS;
  p->band_slots = (list->slots + p->bands - 1) / p->bands;
  p->slot_width = 1000 * BAND_WIDTH / p->band_slots;
  if (p->slot_width > 1000 * SLOT_WIDEST) p->slot_width = 1000 * SLOT_WIDEST;
  p->left = MARGIN + LETTER * greater(widest_label(list), PROCESSOR_LETTERS) + VOLUME_COLUMN;
  p->width = greater(PICTURE_LEAST, p->left + (p->band_slots * p->slot_width + 999) / 1000 + 2 * MARGIN);
  p->height = HEADING;
  for (unsigned i = 0; i < p->bands; i++) {
    struct band band = band_of(p, i, p->height);
    p->height += band_height(p, &band) + BAND_GAP;
  }
}

void draw_svg(FILE *out, const struct source *source) {
  struct picture p = { .out = out, .source = source, .planned = source->plan.returned == SLEEP_PLAN_PLANNED };
  char fact[FACT_ROOM];
  lay_out(&p);
  fprintf(out, "<svg xmlns=\"http://www.w3.org/2000/svg\" width=\"%u\" height=\"%u\" viewBox=\"0 0 %u %u\" ", p.width, p.height, p.width, p.height);
  fprintf(out, "font-family=\"sans-serif\" font-size=\"12\" fill=\"#222222\">\n<title>sleep plan</title>\n");
  put_box(&p, WHITE, 0, 0, p.width, p.height);
  fact_list(&source->list, fact);
  put_text(&p, MARGIN, 46, "", fact);
  if (p.planned) plan_heading(&p);
  else overload_heading(&p);
  for (unsigned i = 0, top = HEADING; i < p.bands; i++) {
    struct band band = band_of(&p, i, top);
    draw_labels(&p, &band);
    axis(&p, &band);
    draw_bars(&p, &band);
    top += band_height(&p, &band) + BAND_GAP;
  }
  fputs("</svg>\n", out);
}
