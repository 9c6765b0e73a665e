#include "oracle.h"
#include "reader.h"
#include <string.h>

enum { WORDS = MOST_SLOTS / 64, FEW = 10, NONE = -1 };

/* A set of slots. */
struct slots { uint64_t word[WORDS]; };

static int has(const struct slots *s, int t) { return (int)(s->word[t / 64] >> t % 64 & 1); }
static void include(struct slots *s, int t) { s->word[t / 64] |= (uint64_t)1 << t % 64; }
static void exclude(struct slots *s, int t) { s->word[t / 64] &= ~((uint64_t)1 << t % 64); }

/* The least slot of the set from `from` up to but without `to`, or none. */
static int least(const struct slots *s, int from, int to) {
  for (int w = from / 64; w * 64 < to; w++) {
    uint64_t x = s->word[w];
    if (w == from / 64) x &= ~(uint64_t)0 << from % 64;
    if (x) { int t = w * 64 + __builtin_ctzll(x); return t < to ? t : NONE; }
  }
  return NONE;
}

/* The list that is planned. */
static struct { int r, d, p; } jobs[JOBS];
static int H, Q, N;
static struct notes *noted;

/* Step 1. reach[a] is a plus the volume of the jobs with a <= r and d <= b: the interval from a to b is overloaded if it exceeds b. */
static int overload(int *a, int *b) {
  static int reach[MOST_SLOTS];
  int greatest = 0;
  for (*b = 1; *b <= H; ++*b) {
    reach[*b - 1] = *b - 1;
    for (int j = 0; j < N; j++)
      if (jobs[j].d == *b) for (int x = 0; x <= jobs[j].r; x++) { reach[x] += jobs[j].p; if (reach[x] > greatest) greatest = reach[x]; }
    if (greatest <= *b) continue;
    int starts = 0;
    for (int x = *b - 1; x >= 0; x--) if (reach[x] > *b && starts++ == 0) *a = x;
    noted->several_starts = starts > 1;
    return 1;
  }
  return 0;
}

/* A job's window: the slots of which a skeleton has at least one. */
static int window_first(int j) { return jobs[j].r > 0 ? jobs[j].r - 1 : 0; }
static int window_last(int j) { return jobs[j].d < H ? jobs[j].d : H - 1; }

/* A set of few slots is a number, slot 0 in its highest bit. */
static long energy_of_few(unsigned set) { return __builtin_popcount(set) + (long)Q * __builtin_popcount(set & ~(set >> 1)); }

static int is_skeleton(unsigned set, const unsigned *windows) {
  for (int j = 0; j < N; j++) if (!(set & windows[j])) return 0;
  return 1;
}

/* Step 2 for few slots: every set; the numbers rise in the order of the tie rule. */
static void skeleton_of_few(struct slots *skeleton) {
  unsigned windows[JOBS] = {0}, best = 0;
  long least_energy = -1;
  for (int j = 0; j < N; j++) for (int t = window_first(j); t <= window_last(j); t++) windows[j] |= 1u << (H - 1 - t);
  for (unsigned set = 0; set < 1u << H; set++) {
    long energy = energy_of_few(set);
    if ((least_energy >= 0 && energy > least_energy) || !is_skeleton(set, windows)) continue;
    noted->skeleton_tie = energy == least_energy;
    if (energy == least_energy) continue;
    best = set; least_energy = energy;
  }
  for (int t = 0; t < H; t++) if (best >> (H - 1 - t) & 1) include(skeleton, t);
}

/* Step 2. stay[t]: the least cost from t on when t is awake and its wake is paid. rest[c]: when sleep begins at c and the windows that
 * start before c are met. The next wake is then one of c to limit, the first end of a window that starts at c or later; of equal costs the
 * later wake sleeps longer. queue[first..last] holds the wakes that can still be best, the latest first, each at most as dear as the next. */
static void skeleton_of_many(struct slots *skeleton) {
  static int stay[MOST_SLOTS + 1], rest[MOST_SLOTS + 1], next[MOST_SLOTS + 1], end[MOST_SLOTS], queue[MOST_SLOTS];
  static char tie[MOST_SLOTS + 1];
  int limit = H, first = 0, last = -1;
  for (int t = 0; t < H; t++) end[t] = H;
  for (int j = 0; j < N; j++) { int *e = &end[window_first(j)]; if (window_last(j) < *e) *e = window_last(j); }
  rest[H] = 0; next[H] = NONE;
  for (int c = H - 1; c >= 0; c--) {
    stay[c] = 1 + (c + 1 < H && stay[c + 1] < rest[c + 1] ? stay[c + 1] : rest[c + 1]);
    while (last >= first && stay[queue[last]] > stay[c]) last--;
    queue[++last] = c;
    if (end[c] < limit) limit = end[c];
    if (limit == H) { rest[c] = 0; next[c] = NONE; continue; }
    while (queue[first] > limit) first++;
    next[c] = queue[first];
    rest[c] = Q + stay[next[c]];
    tie[c] = last > first && stay[queue[first + 1]] == stay[next[c]];
  }
  for (int c = 0; c < H && next[c] != NONE;) {
    int t = next[c];
    if (tie[c]) noted->skeleton_tie = 1;
    include(skeleton, t);
    while (t + 1 < H && stay[t + 1] < rest[t + 1]) include(skeleton, ++t);
    if (Q > 0 && t + 1 < H && stay[t + 1] == rest[t + 1]) noted->skeleton_tie = 1;
    c = t + 1;
  }
}

/* Step 3: which job each awake slot works for. The volume is the number of slots that have an owner. */
static struct slots awake, owned[JOBS];
static int owner[MOST_SLOTS], placed[JOBS], contradiction;

/* A witness that the volume is the greatest: jobs W such that every other job has its whole volume, and every awake slot in a span of W
 * works for a job of W. So the volume is that of the other jobs plus the awake slots in spans of W, and no placement in these slots can
 * have more. A slot outside the spans of W changes neither number: it does not help. */
static uint64_t witness;
static struct slots wanted;
static int stale;

static int inside(uint64_t set, int j) { return (int)(set >> j & 1); }

static void find_witness(void) {
  int queue[JOBS], head = 0, tail = 0;
  witness = 0;
  memset(&wanted, 0, sizeof wanted);
  for (int j = 0; j < N; j++) if (placed[j] < jobs[j].p) { witness |= (uint64_t)1 << j; queue[tail++] = j; }
  while (head < tail) {
    int k = queue[head++];
    for (int t = jobs[k].r; t < jobs[k].d; t++) include(&wanted, t);
    for (int j = 0; j < N; j++)
      if (!inside(witness, j) && least(&owned[j], jobs[k].r, jobs[k].d) != NONE) { witness |= (uint64_t)1 << j; queue[tail++] = j; }
  }
  for (int t = least(&awake, 0, H); t != NONE; t = least(&awake, t + 1, H))
    if (has(&wanted, t) && (owner[t] == NONE || !inside(witness, owner[t]))) contradiction = 1;
  stale = 0;
}

static void hand(int t, int j) {
  if (owner[t] != NONE) exclude(&owned[owner[t]], t);
  owner[t] = j;
  include(&owned[j], t);
  if (has(&wanted, t) && !inside(witness, j)) stale = 1;
}

/* Gives slot t to a job, moving others along: a search over jobs. Changes nothing where no unit more can be placed. */
static int augment(int t) {
  int by[JOBS], queue[JOBS], head = 0, tail = 0;
  uint64_t seen = 0;
  for (int j = 0; j < N; j++) if (jobs[j].r <= t && t < jobs[j].d) { seen |= (uint64_t)1 << j; by[j] = t; queue[tail++] = j; }
  while (head < tail) {
    int j = queue[head++];
    if (placed[j] < jobs[j].p) {
      placed[j]++;
      for (int path = 1;; path++) {
        int s = by[j], k = owner[s];
        hand(s, j);
        if (path > noted->longest_path) noted->longest_path = path;
        if (s == t) return 1;
        j = k;
      }
    }
    for (int k = 0; k < N; k++) {
      if (inside(seen, k)) continue;
      int s = least(&owned[j], jobs[k].r, jobs[k].d);
      if (s != NONE) { seen |= (uint64_t)1 << k; by[k] = s; queue[tail++] = k; }
    }
  }
  return 0;
}

/* Whether slot t raises the volume; it is then placed. */
static int helps(int t) {
  if (!has(&wanted, t)) return 0;
  int found = augment(t);
  if (stale || !found) find_witness();
  if (!found && has(&wanted, t)) contradiction = 1;
  return found;
}

/* The least sleeping slot that touches the set and, with `only`, lies in that too. */
static int least_touching(const struct slots *only) {
  for (int w = 0; w * 64 < H; w++) {
    uint64_t a = awake.word[w], below = w > 0 ? awake.word[w - 1] >> 63 : 0, above = w + 1 < WORDS ? awake.word[w + 1] << 63 : 0;
    uint64_t x = ~a & (a << 1 | below | a >> 1 | above);
    if (only) x &= only->word[w];
    if (x) { int t = w * 64 + __builtin_ctzll(x); return t < H ? t : NONE; }
  }
  return NONE;
}

static int extend(const struct slots *skeleton) {
  int total = 0, volume = 0, added = 0;
  memset(&awake, 0, sizeof awake);
  memset(owned, 0, sizeof owned);
  memset(placed, 0, sizeof placed);
  for (int t = 0; t < H; t++) owner[t] = NONE;
  for (int j = 0; j < N; j++) total += jobs[j].p;
  contradiction = 0;
  find_witness();
  for (int t = least(skeleton, 0, H); t != NONE; t = least(skeleton, t + 1, H)) {
    volume += helps(t);
    include(&awake, t);
  }
  while (volume < total && !contradiction) {
    int t = least_touching(&wanted);
    if (t == NONE) return NONE;
    if (!helps(t)) continue;
    if (least_touching(NULL) < t) noted->passed_over = 1;
    include(&awake, t);
    volume++; added++;
  }
  return contradiction ? NONE : added;
}

static int works(const uint8_t *table, int t) { return table[t] < JOBS; }

static int latest_working(const uint8_t *table, int t) {
  while (t > 0) if (works(table, --t)) return t;
  return NONE;
}

/* A tie: slot t runs a job of earliest deadline where several wait, and s is the latest earlier working slot. Where the job of s goes on in place of a
 * lower number, the stretch between s and t matters too: it is idle or asleep in the end as step 5 has it. */
static void note_tie(const uint8_t *table, const int *left, uint64_t earliest, int s, int t) {
  noted->deadline_tie = 1;
  if (s == NONE) return;
  if (!inside(earliest, table[s])) { if (left[table[s]] == 0) noted->latest_done = 1; else noted->latest_later = 1; return; }
  if (table[s] == __builtin_ctzll(earliest)) return;
  noted->went_on = 1;
  if (t - s > 1) { if (t - s - 1 < Q) noted->on_over_idle = 1; else noted->on_over_sleep = 1; }
}

/* Step 4 as card 6 of 02 has it: "Among released, unfinished jobs with the earliest deadline, the one that ran in the latest earlier working slot
 * goes on. If it is not among them, the lowest number runs." */
static void fill(uint8_t *table) {
  int left[JOBS];
  for (int j = 0; j < N; j++) left[j] = jobs[j].p;
  for (int t = 0; t < H; t++) {
    if (!has(&awake, t)) { table[t] = 255; continue; }
    uint64_t waiting = 0, earliest = 0;
    int due = H;
    for (int j = 0; j < N; j++) if (jobs[j].r <= t && left[j] > 0) { waiting |= (uint64_t)1 << j; if (jobs[j].d < due) due = jobs[j].d; }
    for (int j = 0; j < N; j++) if (inside(waiting, j) && jobs[j].d == due) earliest |= (uint64_t)1 << j;
    if (!earliest) { table[t] = 254; continue; }
    int lowest = __builtin_ctzll(earliest), s = latest_working(table, t);
    int goes_on = s != NONE && inside(earliest, table[s]);
    if (earliest & (earliest - 1)) note_tie(table, left, earliest, s, t);
    table[t] = goes_on ? table[s] : (uint8_t)lowest;
    left[table[t]]--;
  }
}

/* What kind of stretch lies between the working slots a and b. */
static enum stretch stretch(int a, int b) {
  if (a == NONE) return b == NONE ? WHOLE : LEADING;
  return b == NONE ? TRAILING : b - a > Q + 1 ? LONGER : b - a == Q + 1 ? JUST_Q : SHORTER;
}

/* Step 5 as card 5 of 02 has it, for each slot by itself: before[t] and after[t] are the nearest working slots on its two sides. What step 4
 * left there, idle or asleep, is only noted. */
static void sleep_rule(uint8_t *table) {
  static int before[MOST_SLOTS], after[MOST_SLOTS];
  for (int t = 0, near = NONE; t < H; t++) { before[t] = near; if (works(table, t)) near = t; }
  for (int t = H - 1, near = NONE; t >= 0; t--) { after[t] = near; if (works(table, t)) near = t; }
  for (int t = 0; t < H; t++) {
    if (works(table, t)) continue;
    int a = before[t], b = after[t], was = table[t];
    if (a == NONE || b == NONE) table[t] = 255; /* "Before the first and after the last working slot the processor sleeps" */
    else table[t] = b - a - 1 < Q ? 254 : 255;  /* "stays awake if it is shorter than q, and sleeps if it is q or longer" */
    if (t == a + 1) noted->stretches[stretch(a, b)]++;
    noted->put_to_sleep += was < table[t];
    noted->kept_awake += was > table[t];
  }
}

/* Whether no set of few slots that has the working ones costs less than the table: every set is tried. */
static int cheapest_of_few(const uint8_t *table) {
  unsigned working = 0, chosen = 0;
  for (int t = 0; t < H; t++) { working = working << 1 | (unsigned)works(table, t); chosen = chosen << 1 | (table[t] != 255); }
  for (unsigned set = working; set < 1u << H; set = (set + 1) | working) if (energy_of_few(set) < energy_of_few(chosen)) return 0;
  return 1;
}

static void put(uint8_t *block, uint32_t w, uint32_t x, uint32_t y, uint32_t z) {
  const uint32_t number[4] = { w, x, y, z };
  for (int i = 0; i < 16; i++) block[i] = (uint8_t)(number[i / 4] >> 8 * (i % 4));
}

static struct spot spot(enum kind kind, int row, int column) { return (struct spot){ kind, row, column }; }

/* 0, 1 or more above what is needed. */
static int above(size_t size, size_t needed) { return size - needed < 2 ? (int)(size - needed) : 2; }

static uint32_t plan(uint8_t *table, size_t table_len, uint8_t *block, size_t block_len) {
  int a = 0, b = 0, awake_slots = 0;
  if (overload(&a, &b)) {
    put(block, (uint32_t)a, (uint32_t)b, 0, 0);
    noted->spot = spot(OVERLOAD, a != 0, b != H);
    return 18;
  }
  struct slots skeleton = {{0}};
  if (H <= FEW) skeleton_of_few(&skeleton); else skeleton_of_many(&skeleton);
  noted->added = extend(&skeleton);
  if (noted->added == NONE) return 99; /* never: step 3 finds its slot, and the witness holds */
  fill(table);
  sleep_rule(table);
  if (H <= FEW && !cheapest_of_few(table)) return 99; /* never: no table with the same working slots costs less */
  for (int t = 0; t < H; t++) if (table[t] != 255) { awake_slots++; noted->runs += t == 0 || table[t - 1] == 255; }
  put(block, (uint32_t)awake_slots + (uint32_t)Q * (uint32_t)noted->runs, (uint32_t)awake_slots, (uint32_t)noted->runs, (uint32_t)noted->added);
  noted->spot = spot(PLANNED, above(table_len, (size_t)H), above(block_len, 16));
  return 0;
}

uint32_t oracle_plan(const uint8_t *list, size_t list_len, uint8_t *table, size_t table_len, uint8_t *block, size_t block_len, struct notes *notes) {
  static struct list l;
  *notes = (struct notes){ .h = 0 };
  noted = notes;
  if (block_len < 16) { notes->spot = spot(SHORT_BLOCK, 0, (int)block_len); return 17; }
  struct reading read = read_list(list, list_len, &l);
  if (read.number) {
    put(block, read.place, 0, 0, 0);
    notes->spot = read.spot;
    return read.number;
  }
  notes->h = H = (int)l.h; notes->q = Q = (int)l.q; notes->n = N = (int)l.n;
  for (int j = 0; j < N; j++) { jobs[j].r = (int)l.job[j].r; jobs[j].d = (int)l.job[j].d; jobs[j].p = (int)l.job[j].p; }
  if (table_len < l.h) {
    put(block, l.h, 0, 0, 0);
    notes->spot = spot(SHORT_TABLE, 0, table_len == 0 ? 0 : table_len == l.h - 1 ? 1 : 2);
    return 17;
  }
  return plan(table, table_len, block, block_len);
}
