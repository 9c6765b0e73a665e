#include "coverage.h"
#include <stdio.h>

enum { ANSWERS = 11, ENOUGH = 60000 };
static const uint32_t number[ANSWERS] = { 0, 11, 12, 13, 14, 15, 16, 17, 18, 25, 26 };
static const char *const name[SOURCES] = { "random", "mutated", "grammar" };

/* The least of each answer in 1,000 lists of a source: about half of what comes. Each place must come once in ENOUGH lists; shorter runs
 * are held to nothing. */
static const unsigned least_answers[SOURCES][ANSWERS] = {
  { 230, 14, 9, 20, 4, 11, 25, 60, 110, 8, 1 },
  { 137, 35, 22, 23, 11, 40, 32, 50, 90, 50, 2 },
  { 60, 78, 1, 53, 31, 40, 20, 40, 80, 80, 10 },
};

static unsigned long answers[SOURCES][ANSWERS], lists[SOURCES], others, met[KINDS][65][16];
static size_t longest;
static int greatest;

/* What planned lists, and in the last line overloaded ones, had to show, and the least of it in 10,000 lists of all sources. */
struct feature { const char *name; int (*has)(const struct notes *); unsigned least; unsigned long count; };

static int planned(const struct notes *n) { return n->spot.kind == PLANNED; }
static int h_one(const struct notes *n) { return planned(n) && n->h == 1; }
static int h_few(const struct notes *n) { return planned(n) && n->h > 1 && n->h <= 10; }
static int h_some(const struct notes *n) { return planned(n) && n->h > 10 && n->h <= 256; }
static int h_many(const struct notes *n) { return planned(n) && n->h > 256 && n->h < MOST_SLOTS; }
static int h_most(const struct notes *n) { return planned(n) && n->h == MOST_SLOTS; }
static int no_job(const struct notes *n) { return planned(n) && n->n == 0; }
static int all_jobs(const struct notes *n) { return planned(n) && n->n == JOBS; }
static int full(const struct notes *n) { return planned(n) && n->n == JOBS && n->h == MOST_SLOTS; }
static int q_none(const struct notes *n) { return planned(n) && n->q == 0; }
static int q_most(const struct notes *n) { return planned(n) && n->q == 65535; }
static int some_runs(const struct notes *n) { return planned(n) && n->runs > 1; }
static int many_runs(const struct notes *n) { return planned(n) && n->runs > 10; }
static int added(const struct notes *n) { return planned(n) && n->added > 0; }
static int none_added(const struct notes *n) { return planned(n) && n->n > 0 && n->added == 0; }
static int passed_over(const struct notes *n) { return planned(n) && n->passed_over; }
static int path(const struct notes *n) { return planned(n) && n->longest_path >= 3; }
static int long_path(const struct notes *n) { return planned(n) && n->longest_path >= 8; }
static int whole(const struct notes *n) { return planned(n) && n->stretches[WHOLE] > 0; }
static int leading(const struct notes *n) { return planned(n) && n->stretches[LEADING] > 0; }
static int trailing(const struct notes *n) { return planned(n) && n->stretches[TRAILING] > 0; }
static int shorter(const struct notes *n) { return planned(n) && n->stretches[SHORTER] > 0; }
static int just_q(const struct notes *n) { return planned(n) && n->stretches[JUST_Q] > 0; }
static int longer(const struct notes *n) { return planned(n) && n->q > 0 && n->stretches[LONGER] > 0; }
static int longer_than_none(const struct notes *n) { return planned(n) && n->q == 0 && n->stretches[LONGER] > 0; }
static int put_to_sleep(const struct notes *n) { return planned(n) && n->put_to_sleep > 0; }
static int kept_awake(const struct notes *n) { return planned(n) && n->kept_awake > 0; }
static int skeleton_tie(const struct notes *n) { return planned(n) && n->skeleton_tie; }
static int deadline_tie(const struct notes *n) { return planned(n) && n->deadline_tie; }
static int went_on(const struct notes *n) { return planned(n) && n->went_on; }
static int latest_done(const struct notes *n) { return planned(n) && n->latest_done; }
static int latest_later(const struct notes *n) { return planned(n) && n->latest_later; }
static int on_over_idle(const struct notes *n) { return planned(n) && n->on_over_idle; }
static int on_over_sleep(const struct notes *n) { return planned(n) && n->on_over_sleep; }
static int several_starts(const struct notes *n) { return n->spot.kind == OVERLOAD && n->several_starts; }

static struct feature features[] = {
  { "H 1", h_one, 35, 0 }, { "H 2 to 10", h_few, 360, 0 }, { "H 11 to 256", h_some, 600, 0 },
  { "H 257 to 4095", h_many, 340, 0 }, { "H 4096", h_most, 85, 0 },
  { "no job", no_job, 250, 0 }, { "64 jobs", all_jobs, 85, 0 }, { "64 jobs in 4096 slots", full, 28, 0 },
  { "q 0", q_none, 250, 0 }, { "q 65535", q_most, 180, 0 },
  { "2 runs or more", some_runs, 330, 0 }, { "11 runs or more", many_runs, 65, 0 },
  { "slots added", added, 1100, 0 }, { "none added", none_added, 70, 0 },
  { "a slot passed over", passed_over, 530, 0 }, { "a path over 3 jobs", path, 100, 0 }, { "a path over 8 jobs", long_path, 5, 0 },
  { "equal skeletons", skeleton_tie, 900, 0 }, { "equal deadlines", deadline_tie, 530, 0 },
  { "on past a lower number", went_on, 140, 0 }, { "a tie, the latest done", latest_done, 390, 0 }, { "a tie, the latest due later", latest_later, 36, 0 },
  { "on over idle slots", on_over_idle, 26, 0 }, { "on over sleeping slots", on_over_sleep, 35, 0 },
  { "no slot works", whole, 250, 0 }, { "asleep before the work", leading, 860, 0 }, { "asleep behind the work", trailing, 790, 0 },
  { "a stretch shorter than q", shorter, 250, 0 }, { "a stretch of q slots", just_q, 45, 0 }, { "a stretch longer than q", longer, 210, 0 },
  { "q 0, a stretch", longer_than_none, 100, 0 }, { "idle slots put to sleep", put_to_sleep, 280, 0 },
  { "sleeping slots kept awake", kept_awake, 50, 0 },
  { "overloaded, several starts", several_starts, 380, 0 },
};
enum { FEATURES = sizeof features / sizeof *features };

void count(enum source source, uint32_t answer, const struct call *c, const struct notes *notes) {
  int i = 0;
  while (i < ANSWERS && number[i] != answer) i++;
  if (i < ANSWERS) answers[source][i]++; else others++;
  lists[source]++;
  met[notes->spot.kind][notes->spot.row][notes->spot.column]++;
  for (int f = 0; f < FEATURES; f++) features[f].count += (unsigned long)features[f].has(notes);
  if (c->list_len > longest) longest = c->list_len;
  if (notes->h > greatest) greatest = notes->h;
}

static unsigned long all_lists(void) { return lists[RANDOM] + lists[MUTATED] + lists[GRAMMAR]; }

void print_counts(void) {
  printf("%-9s%9s", "answer", "lists");
  for (int i = 0; i < ANSWERS; i++) printf("%8u", number[i]);
  for (int s = 0; s < SOURCES; s++) {
    printf("\n%-9s%9lu", name[s], lists[s]);
    for (int i = 0; i < ANSWERS; i++) printf("%8lu", answers[s][i]);
  }
  for (int f = 0; f < FEATURES; f++) printf("%s%-28s%8lu", f % 3 ? "   " : "\n", features[f].name, features[f].count);
  printf("\n");
}

void print_summary(void) {
  int all = 0, hit = 0;
  for (int k = 0; k < KINDS; k++)
    for (int r = 0; r < places[k].rows; r++)
      for (int c = 0; c < places[k].columns; c++) { all++; hit += met[k][r][c] > 0; }
  for (int s = 0; s < SOURCES; s++) printf(" %lu %s,", lists[s], name[s]);
  printf(" answers");
  for (int i = 0; i < ANSWERS; i++) printf(" %u: %lu,", number[i], answers[RANDOM][i] + answers[MUTATED][i] + answers[GRAMMAR][i]);
  if (others) printf(" others: %lu,", others);
  printf(" %d of %d places, longest list %zu bytes, greatest H %d", hit, all, longest, greatest);
}

static int seldom(unsigned long got, unsigned long least, const char *of, const char *what, unsigned which) {
  if (got >= least) return 0;
  fprintf(stderr, "too seldom: %s, %s %u: %lu times, at least %lu are asked for\n", of, what, which, got, least);
  return 1;
}

int count_missing(void) {
  int missing = 0;
  if (all_lists() < ENOUGH) return 0;
  for (int s = 0; s < SOURCES; s++)
    for (int i = 0; i < ANSWERS; i++) missing += seldom(answers[s][i], lists[s] * least_answers[s][i] / 1000, name[s], "answer", number[i]);
  for (unsigned f = 0; f < FEATURES; f++)
    missing += seldom(features[f].count, all_lists() * features[f].least / 10000, features[f].name, "feature", f);
  for (unsigned k = 0; k < KINDS; k++)
    for (int r = 0; r < places[k].rows; r++)
      for (int c = 0; c < places[k].columns; c++) {
        char place[64];
        snprintf(place, sizeof place, "row %d, column %d", r, c);
        missing += seldom(met[k][r][c], all_lists() / ENOUGH, place, "kind of place", k);
      }
  return missing;
}
