#include "reader.h"
#include <string.h>

enum { LINE_MAX_LENGTH = 1000, SHOWN_MAX = 30, TO_THE_END = NUMBER_MAX + 1 };

static const char SLOTS_FORM[] = "does not belong here; the line is: slots N";
static const char WAKE_FORM[] = "does not belong here; the line is: wake N";
static const char JOB_FORM[] = "does not belong here; the line is: job [NAME] [RELEASE..DEADLINE] [volume N]";

struct word { const char *start; size_t length; }; /* of length 0 at the end of the line */

struct reader {
  const char *file;
  unsigned long line;
  char text[LINE_MAX_LENGTH + 1]; /* the line without its comment */
  const char *rest;               /* what is still to be read of it */
  struct list *list;
  unsigned long wake_line;        /* 0 until it is read */
};

/* Tells a mistake: the word, if there is one, and what is wrong with it. Bytes that could upset a terminal are shown in hex. */
static int mistake(const struct reader *r, struct word word, const char *what) {
  fprintf(stderr, "%s:%lu:%lu: ", r->file, r->line, (unsigned long)(word.start - r->text) + 1);
  if (word.length) {
    fputc('\'', stderr);
    for (size_t i = 0; i < word.length && i < SHOWN_MAX; i++) {
      unsigned char c = (unsigned char)word.start[i];
      if (c > 32 && c < 127) fputc(c, stderr);
      else fprintf(stderr, "\\x%02X", c);
    }
    fprintf(stderr, "%s' ", word.length > SHOWN_MAX ? "..." : "");
  }
  fprintf(stderr, "%s\n", what);
  return 0;
}

static int is_space(char c) { return c == ' ' || c == '\t' || c == '\r'; }
static int is_digit(char c) { return c >= '0' && c <= '9'; }
static int is_letter(char c) { return (c >= 'a' && c <= 'z') || (c >= 'A' && c <= 'Z'); }
static int is(struct word w, const char *text) { return w.length == strlen(text) && !memcmp(w.start, text, w.length); }

static struct word next_word(struct reader *r) {
  while (is_space(*r->rest)) r->rest++;
  struct word w = { r->rest, 0 };
  while (*r->rest && !is_space(*r->rest)) r->rest++;
  w.length = (size_t)(r->rest - w.start);
  return w;
}

static int take_number(const struct reader *r, struct word w, unsigned *number) {
  unsigned long value = 0;
  if (!w.length) return mistake(r, w, "a number is missing");
  for (size_t i = 0; i < w.length; i++) {
    if (!is_digit(w.start[i])) return mistake(r, w, "is no number");
    if (value <= NUMBER_MAX) value = value * 10 + (unsigned long)(w.start[i] - '0');
  }
  if (value > NUMBER_MAX) return mistake(r, w, "is above 65535");
  *number = (unsigned)value;
  return 1;
}

/* RELEASE..DEADLINE, either of which may be left out. */
static int take_span(const struct reader *r, struct word w, struct job *job) {
  size_t dots = 0;
  while (dots < w.length && is_digit(w.start[dots])) dots++;
  struct word release = { w.start, dots }, deadline = { w.start + dots + 2, 0 };
  if (w.length < dots + 2 || memcmp(w.start + dots, "..", 2)) return mistake(r, w, "is no span; write RELEASE..DEADLINE");
  deadline.length = w.length - dots - 2;
  return (!release.length || take_number(r, release, &job->release)) && (!deadline.length || take_number(r, deadline, &job->deadline));
}

static int take_name(const struct reader *r, struct word w, struct job *job) {
  if (w.length > NAME_MAX_LENGTH) return mistake(r, w, "is longer than the 16 characters of a name");
  for (size_t i = 0; i < w.length; i++)
    if (w.start[i] < 33 || w.start[i] > 126) return mistake(r, w, "has a character that a name may not have");
  memcpy(job->name, w.start, w.length);
  return 1;
}

static int at_end(struct reader *r, struct word w, const char *form) { return !w.length || mistake(r, w, form); }

static int take_job(struct reader *r) {
  struct job job = { .deadline = TO_THE_END, .volume = 1, .origin = r->line };
  struct word w = next_word(r);
  if (w.length && is_letter(*w.start) && !is(w, "volume")) {
    if (!take_name(r, w, &job)) return 0;
    w = next_word(r);
  }
  if (w.length && (is_digit(*w.start) || *w.start == '.')) {
    if (!take_span(r, w, &job)) return 0;
    w = next_word(r);
  }
  if (is(w, "volume")) {
    if (!take_number(r, next_word(r), &job.volume)) return 0;
    w = next_word(r);
  }
  if (!at_end(r, w, JOB_FORM)) return 0;
  if (r->list->count < JOBS_ROOM) r->list->jobs[r->list->count++] = job;
  return 1;
}

/* A line that stands once: its number goes to value, its place to line. */
static int take_once(struct reader *r, struct word w, unsigned *value, unsigned long *line, const char *form) {
  if (*line) return mistake(r, w, "is here for the second time");
  *line = r->line;
  return take_number(r, next_word(r), value) && at_end(r, next_word(r), form);
}

static int take_line(struct reader *r) {
  r->rest = r->text;
  struct word w = next_word(r);
  if (!w.length) return 1;
  if (is(w, "slots")) return take_once(r, w, &r->list->slots, &r->list->slots_line, SLOTS_FORM);
  if (is(w, "wake")) return take_once(r, w, &r->list->wake, &r->wake_line, WAKE_FORM);
  if (is(w, "job")) return take_job(r);
  return mistake(r, w, "is unknown; a line starts with slots, wake or job");
}

enum got { LINE, END, WRONG };

/* The next line, its comment cut off. */
static enum got get_line(FILE *in, struct reader *r) {
  size_t length = 0, kept = 0;
  int c, comment = 0;
  r->line++;
  while ((c = getc(in)) != EOF && c != '\n') {
    if (c == 0) { mistake(r, (struct word){ r->text + length, 0 }, "a NUL byte: this is no text"); return WRONG; }
    if (++length > LINE_MAX_LENGTH) { mistake(r, (struct word){ r->text + LINE_MAX_LENGTH, 0 }, "the line has more than 1000 bytes"); return WRONG; }
    if (c == '#') comment = 1;
    if (!comment) r->text[kept++] = (char)c;
  }
  r->text[kept] = 0;
  return c == EOF && !length ? END : LINE;
}

int read_text(FILE *in, const char *file, struct list *list) {
  struct reader r = { .file = file, .list = list };
  enum got got;
  *list = (struct list){ 0 };
  while ((got = get_line(in, &r)) == LINE)
    if (!take_line(&r)) return 0;
  if (got == WRONG) return 0;
  if (ferror(in)) return 0; /* for the caller to tell */
  if (!list->slots_line || !r.wake_line) {
    fprintf(stderr, "%s: the line '%s N' is missing\n", file, list->slots_line ? "wake" : "slots");
    return 0;
  }
  for (unsigned j = 0; j < list->count; j++)
    if (list->jobs[j].deadline == TO_THE_END) list->jobs[j].deadline = list->slots;
  return 1;
}
